"""Makes the captures and the disk files of the examples in the folder that is named, where sox lacks."""
import math, os, sys, wave

RATE = 48000


def make(name, bits, *channels, file='capture'):
    """A WAVE file of these channels of numbers."""
    frames = zip(*channels)
    data = b''.join(x.to_bytes(bits // 8, 'little', signed=True) for frame in frames for x in frame)
    with wave.open(f'{name}.{file}.wav', 'wb') as it:
        it.setparams((len(channels), bits // 8, RATE, 0, 'NONE', ''))
        it.writeframes(data)


def sine(hertz, bits, frames, level=0.7):
    """A sine of about 0.7 of full scale, or of another part of it."""
    scale = level * 2 ** (bits - 1)
    return [round(scale * math.sin(2 * math.pi * hertz * n / RATE)) for n in range(frames)]


os.chdir(sys.argv[1])
make('straight', 16, [1, 2, 3, 4, 5])
make('metronome', 16, [])
make('notes', 16, [])
make('patch', 16, sine(440, 16, 2000), sine(660, 16, 2000))
make('bench', 16, [16384, 0, 0, 0, 0, 0, 0, 0, 0, 0, -3])
make('echo', 16, [16000])
make('threads', 16, sine(440, 16, 600))
make('tracks', 16, sine(880, 16, 1000, 0.35))
make('tracks', 16, sine(330, 16, 700), sine(550, 16, 700), file='disk0')
make('tracks', 24, sine(110, 24, 400, 0.35), file='disk1')
make('periods', 24, *(sine(hertz, 24, 1000) for hertz in range(100, 700, 100)))
