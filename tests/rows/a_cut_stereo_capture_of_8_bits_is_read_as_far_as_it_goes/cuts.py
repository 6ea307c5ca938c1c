import sys

sys.path.insert(0, 'scripts')
from cuts import cuts

cuts(2, 8, [-128, 127, 0, -1, 1, 64, -64, 13, -13, 99, -99, 5, -5, 77])
