"""The files of a worked row of tests/rows, as scripts/check-rows.sh describes them."""
import subprocess
import sys


def wave_of(text):
    """A WAVE file, header and samples."""
    rate, channels, bits, *samples = text.split()
    rate, channels, bits = int(rate), int(channels), int(bits)
    frame, data = channels * bits // 8, b''
    for word in samples:
        sample, _, count = word.partition('*')
        stored = int(sample) + 128 if bits == 8 else int(sample)
        data += stored.to_bytes(bits // 8, 'little', signed=bits > 8) * int(count or 1)
    shape = [(16, 4), (1, 2), (channels, 2), (rate, 4), (rate * frame, 4), (frame, 2), (bits, 2)]
    header = b'WAVEfmt ' + b''.join(number.to_bytes(size, 'little') for number, size in shape)
    header += b'data' + len(data).to_bytes(4, 'little')
    return b'RIFF' + (len(header) + len(data)).to_bytes(4, 'little') + header + data


def read(path):
    """What a file of a row stands for."""
    if path.endswith('.py'):
        held, path = subprocess.run([sys.executable, '-B', path], capture_output=True, check=True).stdout, path.removesuffix('.py')
    else:
        with open(path, 'rb') as it:
            held = it.read()
    if path.endswith('.wave'):
        return wave_of(held.decode())
    if path.endswith('.hex'):
        return bytes.fromhex(held.decode())
    return int(held) if path.endswith('.size') else held
