print('jackd 1\nrate 48000\nperiod 4096\ncapture 2\nplayback 2 16\nmode serial\nring 16\nrecorder 2 16')
print('do open amp gain 1 1\ndo register amp:l in audio\ndo register amp:r in audio\ndo register amp:ol out audio\ndo register amp:or out audio')
print('do activate amp\ndo connect system:capture_1 amp:l\ndo connect system:capture_2 amp:r')
print('do connect amp:ol system:playback_1\ndo connect amp:or system:playback_2')
print('do open tape record 0\ndo register tape:l in audio\ndo register tape:r in audio\ndo activate tape')
print('do connect amp:ol tape:l\ndo connect amp:or tape:r')
# With 14 clients that hear the capture on 16 ports each, a cycle is work for four workers.
for n in range(14):
    print(f'do open crowd{n} pass\ndo activate crowd{n}')
    for port in range(16):
        print(f'do register crowd{n}:{port} in audio\ndo connect system:capture_{port % 2 + 1} crowd{n}:{port}')
print('do start\nrun 4')
