import sys

sys.path.insert(0, 'scripts')
from cuts import cuts

cuts(1, 16, [-32768, 32767, 0, -1, 1, 256, -256, 257, -257, 5], rate=8000, blocks=True)
