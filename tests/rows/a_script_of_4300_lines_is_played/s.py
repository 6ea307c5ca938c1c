print("""jackd 1
rate 48000
period 4
capture 1
playback 1 16
mode serial""")
for _ in range(4096):
    print('do stop')
for _ in range(204):
    print('run 1')
