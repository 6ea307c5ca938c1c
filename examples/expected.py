"""Computes what each example's files hold from its capture alone, by formulas of its own, and compares the files; so it does with logs of events."""
import os, sys

os.chdir(sys.argv[1])
differs = 0


def read(name):
    """The channels of a WAVE file, each sample scaled to 32 bits. (Python's wave refuses the tag that sox gives 24 bits.)"""
    text, at, data = open(name, 'rb').read(), 12, None
    while data is None:
        chunk, size = text[at:at + 4], int.from_bytes(text[at + 4:at + 8], 'little')
        if chunk == b'fmt ':
            channels, bits = (int.from_bytes(text[at + k:at + k + 2], 'little') for k in (10, 22))
        if chunk == b'data':
            data = text[at + 8:at + 8 + size]
        at += 8 + size + size % 2
    width = bits // 8
    samples = [int.from_bytes(data[k:k + width], 'little', signed=True) << (32 - bits) for k in range(0, len(data), width)]
    return [samples[channel::channels] for channel in range(channels)]


def compare(file, bits, wanted):
    """Whether the file has these channels, cut to its width."""
    global differs
    cut = [[x >> (32 - bits) << (32 - bits) for x in channel] for channel in wanted]
    same = read(file) == cut
    differs += not same
    print(f'{file}: {len(cut)} channels of {len(cut[0])} frames, {"as computed" if same else "NOT as computed"}')


def at(samples, n):
    return samples[n] if 0 <= n < len(samples) else 0


def clamp(x):
    return max(-2**31, min(2**31 - 1, x))


# Two cycles of four frames.
[heard] = read('straight.capture.wav')
compare('straight.playback.wav', 16, [[at(heard, n) for n in range(8)]])

# The transport rolls from cycle 2 on, so its frame f is frame 256 + f of the file. 120 beats a minute are one each 24,000
# frames; from cycle 376 on, 90 are one each 32,000, counted from frame 0 too; cycle 701 is stopped.
changed, stopped = 374 * 256, 699 * 256
beats = [f for f in range(0, changed, 24000)] + [f for f in range(0, stopped, 32000) if f >= changed]
clicks = {256 + f for f in beats}
compare('metronome.playback.wav', 16, [[1000000000 if n in clicks else 0 for n in range(750 * 256)]])

# Frame f of the transport is frame 1024 + f of the file, and in cycle 2 + f div 1024. The log of all hears the pedal first, then the
# notes, and these again one cycle later.
compare('notes.playback.wav', 16, [[1000000000 if n in (1024, 25024, 49024) else 0 for n in range(50 * 1024)]])
notes, pedal = [(0, '903c64'), (12000, '803c00'), (24000, '904064'), (36000, '804000'), (48000, '904364')], [(0, 'b0407f'), (24000, 'b04000')]
heard = [(2 + f // 1024 + late, f % 1024, place, event) for place, late, events in ((0, 0, pedal), (1, 0, notes), (2, 1, notes)) for f, event in events]
wanted = [f'midi all {cycle} {offset} {event}' for cycle, offset, _, event in sorted(heard)]
wanted += [f'midi plain {2 + f // 1024} {f % 1024} {event}' for f, event in notes]
same = [line for line in open('notes.report').read().splitlines() if line.startswith('midi ')] == wanted
differs += not same
print(f'notes.report: {len(wanted)} events, {"as computed" if same else "NOT as computed"}')

# Until the change, which cycle 11 is the first to play, the sides come 500 frames late.
left, right = read('patch.capture.wav')
frames, change = 20 * 128, 10 * 128
low = [[at(side, n) * 3 >> 2 for n in range(frames)] for side in (left, right)]
compare('patch.playback.wav', 16, [[at(low[k], n - 500) if n < change else low[1 - k][n] for n in range(frames)] for k in (0, 1)])
compare('patch.record0.wav', 16, [[at(side, n) for n in range(frames)] for side in (left, right)])
compare('patch.record1.wav', 24, low)

# The taps 1 2 1 over 4.
[dry] = read('bench.capture.wav')
wet = [clamp((at(dry, n) + 2 * at(dry, n - 1) + at(dry, n - 2)) >> 2) for n in range(64)]
compare('bench.record0.wav', 16, [[at(dry, n) for n in range(64)]])
compare('bench.record1.wav', 32, [wet])
compare('bench.playback.wav', 32, [wet])

# Each echo is half of what was 96 + 32 frames before.
[hit] = read('echo.capture.wav')
bus = []
for n in range(16 * 32):
    bus.append(clamp(at(hit, n) + (at(bus, n - 128) >> 1)))
compare('echo.record0.wav', 16, [bus])
compare('echo.playback.wav', 16, [bus[:4 * 32]])

# Six cycles of 64 frames, five of 16, three of 256. The recorder loses channel 1 behind the second cycle of 16, the
# playback loses channel 4 with the first cycle of 256.
six = read('periods.capture.wav')
frames, recorded, played = 6 * 64 + 5 * 16 + 3 * 256, 6 * 64 + 2 * 16, 6 * 64 + 5 * 16
compare('periods.playback.wav', 24, [[0 if k == 3 and n >= played else at(six[5 - k], n) for n in range(frames)] for k in range(6)])
compare('periods.record0.wav', 24, [[0 if k == 0 and n >= recorded else at(six[k], n) for n in range(frames)] for k in range(6)])

# The bass has five cycles of 64 frames, rests for three, and goes on. What is captured is heard on both sides.
[voice], (left, right), [bass] = read('tracks.capture.wav'), read('tracks.disk0.wav'), read('tracks.disk1.wav')
low = [at(bass, n) if n < 320 else at(bass, n - 192) if n >= 512 else 0 for n in range(20 * 64)]
mix = [[clamp(at(voice, n) + (at(side, n) >> 1) + low[n]) for n in range(20 * 64)] for side in (left, right)]
compare('tracks.playback.wav', 16, mix)
compare('tracks.record0.wav', 16, mix)

# With threads the report says what each cycle had: the accepted calls up to its number, each by its lane and index. The first
# call of either lane connects the capture with the playback; the second takes half of it, or the recorder's, away.
[heard] = read('threads.capture.wav')
lines = [line.split() for line in open('threads.report')]
accepted = [line[1:3] for line in lines if line[0] == 'call' and line[3] == 'ok']
played, recorded = [], []
for k, number in enumerate(int(line[2]) for line in lines if line[0] == 'cycle'):
    had, block = accepted[:number], [at(heard, n) for n in range(64 * k, 64 * (k + 1))]
    half, whole, taped = ['1', '2'] not in had, ['1', '1'] in had or ['2', '1'] in had, ['2', '2'] not in had
    played += [clamp(half * (x >> 1) + whole * x) for x in block]
    recorded += [taped * (x >> 1) for x in block]
compare('threads.playback.wav', 16, [played])
compare('threads.record0.wav', 16, [recorded])
sys.exit(differs != 0)
