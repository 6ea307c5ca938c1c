import struct

numbers = [int(line.split()[2]) for line in open('report') if line.startswith('cycle')]
played = struct.unpack('<20h', open('playback.wav', 'rb').read()[44:])
captured = [100 * n for n in range(1, 21)]
# what is heard behind so many changes: the half, nothing, the whole, nothing
heard = {6: lambda x: x // 2, 7: lambda x: 0, 8: lambda x: x, 9: lambda x: 0}
explained = [heard[numbers[n // 4]](captured[n]) for n in range(20)]
print('explained' if list(played) == explained else 'not explained')
