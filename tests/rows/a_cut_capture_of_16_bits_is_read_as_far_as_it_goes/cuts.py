import sys

sys.path.insert(0, 'scripts')
from cuts import cuts

cuts(1, 16, [-32768, 32767, 0, -1, 1, 256, -256, 257, -257, 4095, -4096, 5, -5, 255, -255, 32000, -32000, 3, -3, 100])
