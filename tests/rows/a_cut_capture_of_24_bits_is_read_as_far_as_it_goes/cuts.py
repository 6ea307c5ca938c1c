import sys

sys.path.insert(0, 'scripts')
from cuts import cuts

cuts(1, 24, [-8388608, 8388607, 0, -1, 1, 65536, -65536, 65537, -65537, 4095, -4096, 5, -5, 255, -255, 32000, -32000])
