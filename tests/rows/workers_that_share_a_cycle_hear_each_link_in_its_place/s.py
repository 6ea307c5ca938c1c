# Six tones and five layers of six clients, each of six channels: with 4,096 frames that is work for 4 workers. Of the layers the
# first makes each channel as many times as loud as its client has a number, from 1; the others pass on. What goes from client and
# channel to client and channel is turned over, except into the third layer in the first cycle. Into the fifth each channel goes
# one further. Ports are connected in no order.
CLIENTS, CHANNELS = (2, 5, 1, 4, 0, 3), (3, 0, 5, 1, 4, 2)


def turned(client, channel):
    return channel, client


def straight(client, channel):
    return client, channel


def further(client, channel):
    return client, (channel + 1) % 6


def edges(layer, way):
    for client in CLIENTS:
        for channel in CHANNELS:
            to, place = way(client, channel)
            yield f'{layer - 1}-{client}:o{channel} {layer}-{to}:i{place}'


print('jackd 1\nrate 8000\nperiod 4096\ncapture 1\nplayback 1 32\nmode serial')
for n in range(6):
    print(f'do open t{n} tone 3000 {10 ** n}\ndo register t{n}:o out audio\ndo activate t{n}')
for layer in range(1, 6):
    for client in range(6):
        print(f'do open {layer}-{client}', f'gain {client + 1} 0' if layer == 1 else 'pass')
        for channel in range(6):
            print(f'do register {layer}-{client}:i{channel} in audio\ndo register {layer}-{client}:o{channel} out audio')
        print(f'do activate {layer}-{client}')
for client in CLIENTS:
    for channel in CHANNELS:
        print(f'do connect t{channel}:o 1-{client}:i{channel}')
for layer, way in ((2, turned), (3, straight), (4, turned), (5, further)):
    for edge in edges(layer, way):
        print('do connect', edge)
for n in range(6):
    print(f'do connect 5-{n}:o{n} system:playback_1')
print('run 1')
for edge in edges(3, straight):
    print('do disconnect', edge)
for edge in edges(3, turned):
    print('do connect', edge)
print('run 1')
