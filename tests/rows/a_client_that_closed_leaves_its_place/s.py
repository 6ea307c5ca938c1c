print("""jackd 1
rate 48000
period 4
capture 1
playback 1 16
mode serial
recorder 1 16""")
for client in range(1, 66):
    print(f'do open c{client} pass')
print("""do close c1
do open t record 0
do close c2
do open u record 0
do close t
do open u record 0
do open v pass
do open w pass""")
