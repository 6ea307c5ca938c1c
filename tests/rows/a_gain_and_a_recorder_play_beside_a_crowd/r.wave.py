# Half of each sample, cut towards minus infinity.
print('48000 2 16')
for k in range(4 * 4096):
    print((k - 8000) // 2, [500, -2][k % 2])
