# Frames 1 to 3,000: the number on the left, and three times as much below 0 on the right.
print('48000 2 16', *[f'{frame} {-3 * frame}' for frame in range(1, 3001)])
