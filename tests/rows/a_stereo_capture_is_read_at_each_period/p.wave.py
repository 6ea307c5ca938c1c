# The channels change places; 4, 2,048, 1,024 and twice 8 frames are 3,092, of which 92 are past the end.
print('48000 2 16', *[f'{-3 * frame} {frame}' for frame in range(1, 3001)], '0*184')
