print("""jackd 1
rate 48000
period 4
capture 8
playback 1 16
mode serial""")
inputs = range(1, 17)
for client in range(1, 6):
    print(f'do open c{client} pass')
    for i in inputs:
        print(f'do register c{client}:i{i} in audio')
    print(f'do activate c{client}')
print("""do open c6 pass
do register c6:i1 in audio
do activate c6""")
for channel in range(1, 9):
    for client in range(1, 5):
        for i in inputs:
            print(f'do connect system:capture_{channel} c{client}:i{i}')
print('do connect system:capture_1 c6:i1')
print('do close c1')
for channel in range(1, 9):
    for i in inputs:
        print(f'do connect system:capture_{channel} c5:i{i}')
print('do connect system:capture_1 c6:i1')
