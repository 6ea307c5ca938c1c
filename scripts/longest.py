#!/usr/bin/env python3
"""The greatest sessions that the tables of docs/FORMATS.md allow, or as much of them as there is time for.

longest.py JACKD SECONDS SEED    tells what was played, how much memory it took, and what failed; 1 where anything did

    wide     64 clients, 512 connections, 4,096 calls, four recorders and eight channels, at 4 frames a cycle, for up to 1,000,000 cycles:
             3,328 of the calls come from four lanes, which take connections away and make them again as long as the session runs
    hours    one channel at 8,000 frames a second and 4,096 frames a cycle, for up to twelve hours

A short play of each is timed first, and the long one gets as many cycles as half of its time allows; the other half is the check's.
Asked is that the play ends with 0 and loses no block; that from a tenth of its time on it asks the system for no more memory, and holds at
most 16 MB and 64 bytes a cycle; that playback and records are right in their last 32 cycles, which scripts/explained.py computes from
the last 64 of the capture, since no client remembers more; and that `check` says `check ok`. What a check of it holds is told.
"""
import os
import random
import shutil
import subprocess
import sys
import tempfile
import time

sys.dont_write_bytecode = True
sys.path.insert(0, os.path.dirname(os.path.abspath(__file__)))
import explained
from rooms import leave_none

TAIL, COMPARED = 64, 32
SIDE, LAYERS, CALLS = 8, 7, 4096


class Wide:
    name, period, rate, channels, bits, most, recorders = 'wide', 4, 48000, 8, 8, 1000000, 4

    def __init__(self, chance):
        """56 clients in seven layers, each of which hears the layer before it; four meters that close loops; four recorders."""
        self.lines, self.edges = [], []
        names = [[f'c{layer}-{k}' for k in range(SIDE)] for layer in range(LAYERS)]
        kinds = [chance.choice(['pass', 'gain 60 8', 'gain -50 8', 'mix', 'delay 3']) for _ in range(SIDE * LAYERS)]
        clients = [(name, kinds.pop()) for layer in names for name in layer] + [(f'm{k}', 'meter') for k in range(4)] + [(f't{k}', f'record {k}') for k in range(4)]
        for name, kind in clients:
            self.lines += [f'open {name} {kind}', f'register {name}:i in audio', f'register {name}:o out audio', f'activate {name}']
        # A loop over each meter, which plays silence: so what was heard before it is not remembered.
        fixed = [(f'c6-{k}:o', f'm{k}:i') for k in range(4)] + [(f'm{k}:o', f'c0-{k}:i') for k in range(4)]
        edges = [(f'system:capture_{k + 1}', f'c0-{k}:i') for k in range(SIDE)]
        edges += [(f'c6-{k}:o', f'system:playback_{k + 1}') for k in range(SIDE)]
        edges += [(f'c5-{k}:o', f't{k}:i') for k in range(4)]
        edges += [(f'{one}:o', f'{other}:i') for before, after in zip(names, names[1:]) for one in before for other in after]
        more = [(f'{one}:o', f'{other}:i') for before, after in zip(names, names[2:]) for one in before for other in after]
        edges += chance.sample(more, 512 - len(edges) - len(fixed))
        self.lines += [f'connect {one} {other}' for one, other in fixed + edges]
        self.edges = edges

    def lanes(self, chance, cycles):
        """Calls that take a connection away and make it again, on four lanes, the last of them 200 cycles before the end."""
        pairs = (CALLS - len(self.lines)) // 8
        for lane in range(1, 5):
            mine = self.edges[lane - 1::4]
            for k in range(pairs):
                one, other = chance.choice(mine)
                at = (cycles - 200) * (2 * k) // (2 * pairs)
                yield f'lane {lane} at {at} disconnect {one} {other}'
                yield f'lane {lane} at {at + max(1, (cycles - 200) // (2 * pairs))} connect {one} {other}'


class Hours:
    name, period, rate, channels, bits, most, recorders = 'hours', 4096, 8000, 1, 8, 12 * 3600 * 8000 // 4096, 1

    def __init__(self, _chance):
        self.lines = []
        for name, kind in (('a', 'gain 200 8'), ('d', 'delay 4000'), ('t', 'record 0')):
            self.lines += [f'open {name} {kind}', f'register {name}:i in audio', f'register {name}:o out audio', f'activate {name}']
        self.lines += [f'connect {edge}' for edge in ('system:capture_1 a:i', 'a:o d:i', 'd:o system:playback_1', 'a:o t:i')]

    @staticmethod
    def lanes(_chance, _cycles):
        return []


def script_of(form, cycles, lanes=()):
    header = ['jackd 1', f'rate {form.rate}', f'period {form.period}', f'capture {form.channels}', f'playback {form.channels} {form.bits}', 'mode serial', *[f'recorder 1 {form.bits}'] * form.recorders]
    return ''.join(f'{line}\n' for line in [*header, *(f'do {line}' for line in form.lines), f'run {cycles}', *lanes])


def wave_to(path, form, data_bytes, seed):
    """A capture of 8 bits: drawn bytes, over and over; the file's last bytes are given back."""
    block = random.Random(seed).randbytes(1000003)
    with open(path, 'wb') as it:
        header = bytearray(explained.wave_of(form.rate, form.channels, 8, []))
        header[4:8], header[40:44] = (36 + data_bytes).to_bytes(4, 'little'), data_bytes.to_bytes(4, 'little')
        it.write(header)
        left = data_bytes
        while left:
            left -= it.write(block[:left])


def ran(jackd, words, folder, out):
    """Exit code and standard error of a run, its seconds, and what it held: the most, and how the address space went, by time."""
    began, spaces, held = time.monotonic(), [], 0
    with open(f'{folder}/{out}', 'wb') as it:
        process = subprocess.Popen([jackd, *words], cwd=folder, stdin=subprocess.DEVNULL, stdout=it, stderr=subprocess.PIPE)
    while process.poll() is None:
        try:
            with open(f'/proc/{process.pid}/status') as it:
                rows = dict(line.split(':', 1) for line in it)
            spaces.append((time.monotonic() - began, int(rows['VmSize'].split()[0])))
            held = max(held, int(rows['VmHWM'].split()[0]))
        except (OSError, KeyError):
            pass
        time.sleep(0.02)
    told = process.stderr.read().decode()
    return process.returncode, told, time.monotonic() - began, held, spaces


def session(jackd, form, cycles, seed, folder, judged):
    """Plays so many cycles; the seconds of play and check, what was held, and what is wrong."""
    chance = random.Random(f'{seed} {form.name} lanes')
    with open(f'{folder}/s', 'w') as it:
        it.write(script_of(form, cycles, form.lanes(chance, cycles)))
    wave_to(f'{folder}/c', form, cycles * form.period * form.channels, seed)
    outputs = ['p', *(word for k in range(form.recorders) for word in ('--record', f'r{k}'))]
    code, told, seconds, held, spaces = ran(jackd, ['play', '--strict', 's', 'c', *outputs], folder, 'o')
    if code:
        return seconds, 0, held, 0, [f'exit code {code}: {told[-300:]}']
    if not judged:
        return seconds, 0, held, 0, []
    wrong = []
    # The last readings are of the end, when memory is given back.
    late = [space for at, space in spaces if at > seconds / 10]
    if late and max(late) > late[0]:
        wrong.append(f'the address space grew from {late[0]} to {max(late)} KB')
    if held > 16 * 1024 + 64 * cycles // 1024:
        wrong.append(f'{held} KB were held')
    wrong += tail(form, cycles, folder)
    code, _, checking, checks_held, _ = ran(jackd, ['check', 's', 'c', 'o', *outputs], folder, 'v')
    with open(f'{folder}/v') as it:
        answer = it.read()
    if code or answer != 'check ok\n':
        wrong.append(f'check: {code} {answer}')
    return seconds, checking, held, checks_held, wrong


def last(path, count):
    with open(path, 'rb') as it:
        it.seek(-count, os.SEEK_END)
        return it.read()


def tail(form, cycles, folder):
    """What is wrong in the last cycles of the files."""
    frame = form.channels * form.bits // 8
    heard = explained.wave_of(form.rate, form.channels, 8, [])[:40]
    data = last(f'{folder}/c', TAIL * form.period * form.channels)
    capture = heard + len(data).to_bytes(4, 'little') + data
    made = explained.Play(explained.Script(script_of(form, TAIL)), explained.samples_of(capture)).files()
    for name, width, wanted in zip(['p', *(f'r{k}' for k in range(form.recorders))], [frame, *[form.bits // 8] * form.recorders], made):
        size, count = 44 + cycles * form.period * width, COMPARED * form.period * width
        if os.path.getsize(f'{folder}/{name}') != size:
            yield f'{name} has {os.path.getsize(f"{folder}/{name}")} bytes, not {size}'
        elif last(f'{folder}/{name}', count) != wanted[-count:]:
            yield f'the last {COMPARED} cycles of {name} are other ones'


def main(jackd, seconds, seed):
    jackd, faults = os.path.abspath(jackd), 0
    for form in (Wide, Hours):
        began, folder = time.monotonic(), leave_none(tempfile.mkdtemp(prefix='soak-long-'))
        it = form(random.Random(f'{seed} {form.name}'))
        short = min(it.most, 4000 if form is Wide else 200)
        taken, *_, wrong = session(jackd, it, short, seed, folder, False)
        # A third of what the time allows: the capture is made and the check is made, too, and each takes about as long.
        cycles = max(short, min(it.most, int(short * (seconds / 2 - (time.monotonic() - began)) / 3 / max(taken, 0.001))))
        took, checking, held, checks_held, more = session(jackd, it, cycles, seed, folder, True)
        for fault in [*wrong, *more]:
            print(f'soak: long: seed {seed}, {form.name}, {cycles} cycles: {fault}')
        faults += len(wrong) + len(more)
        frames = cycles * it.period
        calls = len(it.lines) + len(list(it.lanes(random.Random(0), cycles)))
        print(f'soak: long: {form.name}: {cycles} of {it.most} cycles, {frames / it.rate / 3600:.2f} hours of {it.channels} channel{"s" * (it.channels > 1)} at {it.rate}, {calls} calls; play {took:.1f} s and {held / 1024:.1f} MB, '
              f'check {checking:.1f} s and {checks_held / 1024:.1f} MB; {len(wrong) + len(more)} failures')
        shutil.rmtree(folder)
    return bool(faults)


if __name__ == '__main__':
    if len(sys.argv) != 4:
        sys.exit(__doc__)
    sys.exit(main(sys.argv[1], float(sys.argv[2]), sys.argv[3]))
