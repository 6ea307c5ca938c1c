print('48000 2 16')
for k in range(4 * 4096):
    print(k - 8000, [1001, -3][k % 2])
