#!/usr/bin/env python3
"""Bad inputs: scripts, WAVE files, reports and words that were changed at random go through play, graph and check.

hostile.py JACKD SECONDS SEED [CASES]    tells how many, which classes of answers were reached, and what failed; 1 where anything did
hostile.py JACKD --one SEED NUMBER       leaves the files of one case in a folder, and tells its words and its answer

A case is a base, with one to four changes of one of its files, or of its words. The bases are the sessions of examples/, of
tests/rows and of tests/verdicts, and some of scripts/sessions.py, those with disk files too. The case of a number depends on the seed and the number alone.
The first cases are the bases as they are, and then those by which every class of answers is reached, whatever chance does.

Of each run is asked:

    its end      no signal, and an exit code of README's table. A session of at most 2,000 cycles and 200,000 frames takes at most one
                 second of a processor, one of up to ten times as many in proportion, and each of these at most 60 seconds of the
                 clock, whatever else the machine does; a longer one is ended after 10, which is no fault. One with threads may
                 take ten times as much: on a busy machine a thread that waits for another asks for the processor in vain
    its memory   it gets so much address space and no more: 256 MB, and 2,048 MB where it has threads
    its answer   standard output is what that exit code has by docs/FORMATS.md, section 9, and standard error tells a reason
    the files    script, capture, disk files, report and checked files keep their bytes, and no other file is made
    the play     of a play that ends well `check` says `check ok`, but of one with disk files, which a check refuses; every 20th is held
                 against scripts/explained.py, and every second one with disk files
"""
import collections
import glob
import os
import random
import re
import resource
import shutil
import signal
import subprocess
import sys
import tempfile
import time
import unicodedata

sys.dont_write_bytecode = True
sys.path.insert(0, os.path.dirname(os.path.abspath(__file__)))
import explained
import sessions
from cases import all_in
from rooms import room_in_memory
from rows import read

MEGABYTE = 2**20
SPACE, SPACE_OF_THREADS, LONGEST_FILE = 256 * MEGABYTE, 2048 * MEGABYTE, 16 * MEGABYTE
CAUSES = 'Header Unknown Words Number Range Name Choice Lane TooMany TooLong'.split()
FIELDS = 'Size Tag Channels Rate Bits Align Extended Extra Guid'.split()
WAVES = ['NotRiff', 'NotWave', 'NoFormat', 'NoData', 'Ends', 'TooManyChunks', *(f'BadFormat {field}' for field in FIELDS)]
PARTS = 'report call cycle meter midi recorder overrun record playback'.split()

# All classes of answers of docs/FORMATS.md: sections 1, 7, 2, 9, 11 and 12. Of section 7 the cause Read is answered as code 3, and of
# section 12 what a check says of disk files is left out, since it refuses their scripts.
CLASSES = {
    'causes of a script': [f'script {name}' for name in CAUSES],
    'causes of a capture': [f'wave {name}' for name in WAVES],
    'causes of a disk file': [f'disk wave {name}' for name in WAVES],
    'refusals of a call': [f'refused {number} {name}' for number, name in enumerate(explained.NAMES, 1)],
    'differences': [f'differs {name}' for name in 'Guests Records Disks Rate Channels DiskRate DiskChannels'.split()],
    'wrong parts of a check': [f'check {part}' for part in PARTS],
    'wrong parts of a graph': [f'graph {part}' for part in ('report', 'call', 'cycle')],
    'exit codes': [f'code {code}' for code in (0, 2, 3, 4, 5, 6, 7, 8, 9)],
}

FAULT_LINES = {
    2: rb'fault 2 words\n',
    3: rb'fault 3 read\n',
    4: rb'fault 4 (wave (?:Ends(?= \d+\n)|BadFormat \w+(?= \d+\n)|\w+(?=\n)))(?: \d+)?\n',
    5: rb'fault 5 (script)( \d+) (\w+)\n',
    7: rb'fault 7 (differs \w+) \d+ \d+\n',
    8: rb'check wrong (?:report|call|cycle|meter|midi|recorder|overrun) \d+\n|check wrong (?:record|playback) \d+ \d+\n',
}


class Base:
    """A session in a folder: its script `s`, capture `c`, disk files `d0` .., report `o`, and the files `p`, `r0` .. of its play, where it has one."""

    def __init__(self, name, script, capture, disks=(), report=None, files=()):
        self.name, self.script, self.capture, self.report, self.files = name, script, capture, report, list(files)
        self.disks = {f'd{k}': held for k, held in enumerate(disks)}
        self.records = sum(line.split()[:1] == [b'recorder'] for line in script.splitlines())
        self.cycles = cycles_of(script)[0]

    def held(self):
        held = {'s': self.script, 'c': self.capture, 'o': self.report or b'report 1\nend\n', **self.disks}
        return {**held, **dict(zip(['p', *(f'r{k}' for k in range(4))], self.files or [self.capture]))}


def steers(told):
    """Whether a text has a control character, or is no UTF-8."""
    try:
        return any(unicodedata.category(it) == 'Cc' and it != '\n' for it in told.decode())
    except UnicodeDecodeError:
        return True


def cycles_of(script):
    """How many cycles and frames a script asks for, at most."""
    cycles = frames = period = 0
    for line in script.splitlines():
        words = line.split()
        if len(words) > 1 and words[1].isdigit() and len(words[1]) < 11:
            if words[0] == b'period':
                period = int(words[1])
            if words[0] in (b'run', b'freewheel'):
                cycles, frames = cycles + int(words[1]), frames + int(words[1]) * period
    return cycles, frames


# Changes of bytes, of texts and of WAVE files.

NUMBERS = [0, 1, 2, 3, 4, 5, 7, 8, 9, 12, 15, 16, 17, 24, 31, 32, 33, 63, 64, 65, 127, 128, 255, 256, 257, 512, 513, 960, 999, 1000, 4095, 4096, 4097, 7999, 8000, 9600, 9601, 32767, 32768,
           65536, 65537, 192000, 192001, 999999, 1000000, 1000001, 2**31 - 1, 2**31, 2**32 - 1, 2**32, 9999999999, 10**10, 10**19 - 1, 10**19, 2**64]
WORDS = ('jackd rate period capture playback mode serial threads steal ring drain fill recorder disk event do run freewheel lane at open close activate deactivate register unregister in out audio midi connect'
         ' disconnect start stop locate timeout slow timebase timebase_if release latency pass gain mix delay tone click meter record guest midiplay midithru midilog report call ok refused cycle stopped starting rolling'
         ' overrun underrun end system system:capture_1 system:playback_1 system:capture_9 a a:i a:o c0 c0:i0 c0:o0 - -1 +1 0x1 1.0 1e3 # Exists 1|1|0').split()
BYTES = [b'\0', b'\r', b'\n', b'\t', b' ', b'\x1b[2J', b'\xff', b'\x80', '\u00f6'.encode(), b'\xef\xbb\xbf', b'#', b':', b'-', b'%s%n', b'\x7f', b'a' * 40, b'a' * 700]


def number_near(chance, number):
    return chance.choice([number + 1, number - 1, number * 2, number // 2, -number, number + 256, number + 2**32, chance.choice(NUMBERS), chance.choice(NUMBERS), f'0{number}'])


# Of each cause of a script a line behind it, or more; and of a capture's header bytes at a place.
LINES = [b'run\n', b'run 1 # x\n', b'run -1\n', b'run 0\n', b'rum 1\n', b'do close a:b\n', b'do open a gain 1 99\n', b'run 1\ndo start\nlane 1 at 0 start\n', b'run 1\nlane 1 at 2 start\n', b'recorder 1 16\n']
HEADERS = [(0, b'RIFX'), (8, b'AVI '), (12, b'junk'), (36, b'junk'), (20, b'\3\0'), (22, b'\0\0'), (22, b'\x11\0'), (24, b'\0\0\0\0'), (34, b'\x0c\0'), (32, b'\x63\0')]


def changed_bytes(chance, held):
    """One change of some bytes."""
    at, kind = chance.randrange(len(held) + 1), chance.randrange(7)
    end = min(len(held), at + chance.choice([1, 1, 2, 4, 16, 200]))
    if kind == 0:
        return held[:at]
    if kind == 1:
        return held[:at] + held[end:]
    if kind == 2:
        return held[:at] + held[at:end] + held[at:]
    if kind == 3:
        return held[:at] + chance.choice(BYTES) + held[at:]
    if kind == 4:
        return held[:at] + bytes(chance.randrange(256) for _ in range(end - at)) + held[end:]
    if kind == 5:
        other = chance.randrange(len(held) + 1)
        return held[:at] + held[other:other + 64] + held[end:]
    return held[:at] + bytes(byte ^ 1 << chance.randrange(8) for byte in held[at:at + 1]) + held[at + 1:]


def changed_text(chance, held, others):
    """One change of lines, words or numbers."""
    lines, kind = held.split(b'\n'), chance.randrange(10)
    at = chance.randrange(len(lines))
    if kind == 0:
        del lines[at]
    elif kind == 1:
        lines[at:at] = [lines[at]] * chance.choice([1, 1, 2, 20])
    elif kind == 2:
        other = chance.randrange(len(lines))
        lines[at], lines[other] = lines[other], lines[at]
    elif kind == 3:
        others = chance.choice(others).split(b'\n')
        lines[at:at] = others[chance.randrange(len(others)):][:chance.choice([1, 1, 3])]
    elif kind == 4:
        lines[at] = chance.choice([b'', b'# ', b' ', b'\t', lines[at] + b' ', b' ' + lines[at], lines[at] + b'\r', lines[at] * 2])
    else:
        words = lines[at].split(b' ')
        place = chance.randrange(len(words))
        number = re.fullmatch(rb'-?(\d{1,20})', words[place])
        if number and kind < 9:
            words[place] = str(number_near(chance, int(number[1]))).encode()
        elif kind == 8:
            words[place:place + 1] = [] if chance.random() < 0.5 else [words[place]] * 2
        elif kind == 9:
            words[place] = changed_bytes(chance, words[place])
        else:
            words[place] = chance.choice(WORDS).encode() if chance.random() < 0.6 else chance.choice(b' '.join(lines).split() or [b''])
        lines[at] = b' '.join(words)
    return b'\n'.join(lines)


def changed_wave(chance, held):
    """One change of a header's field, or of the chunks of a WAVE file with a header of 44 bytes."""
    kind = chance.randrange(8)
    if kind < 4:
        at, size = chance.choice([(4, 4), (16, 4), (20, 2), (22, 2), (24, 4), (28, 4), (32, 2), (34, 2), (40, 4)])
        number = int(number_near(chance, int.from_bytes(held[at:at + size], 'little'))) % 256**size
        return held[:at] + number.to_bytes(size, 'little') + held[at + size:]
    if kind == 4:
        at = chance.choice([0, 8, 12, 36])
        return held[:at] + chance.choice([b'RIFX', b'RF64', b'AVI ', b'data', b'fmt ', b'LIST', b'\0' * 4]) + held[at + 4:]
    if kind == 5:
        return held[:chance.randrange(min(60, len(held)) + 1)]
    if kind == 6:
        at, size = chance.choice([12, 36, len(held)]), chance.choice([0, 1, 2, 7, 2**31, 2**32 - 1])
        return held[:at] + chance.choice([b'LIST', b'junk', b'fmt ', b'data']) + size.to_bytes(4, 'little') + bytes(min(size + size % 2, 8)) + held[at:]
    extended = chance.choice([b'', b'\x16\0' + held[34:36] + bytes(4) + held[20:22] + bytes.fromhex('000000001000800000aa00389b71')])
    extended = changed_bytes(chance, extended) if chance.random() < 0.7 else extended
    size = chance.choice([len(extended) + 16, 14, 18, 40])
    return held[:16] + size.to_bytes(4, 'little') + b'\xfe\xff' + held[22:36] + extended + held[36:]


def changed_words(chance, words, base):
    """Other words: one too many, one too few, another one, another number."""
    words, kind = list(words), chance.randrange(5)
    at = chance.randrange(len(words))
    if kind == 0:
        words[at:at + 1] = chance.choice([[], [words[at]] * 2])
    elif kind == 1:
        words += chance.choice([['--record', 'r4'], ['--disk', 'd'], ['--strict'], ['--dot'], ['--no-sync'], ['--help'], ['-h'], ['more'], ['--record']])
    elif kind == 2:
        words = words[:-2]
    elif kind == 3:
        words[at] = chance.choice(['', '-', '-x', 'nothing', '.', 'a/b', 'x' * 300, 'x' * 5000, '\x1b[2J', '\u00f6', '/dev/null', *words])
    elif words[0] == 'graph':
        words[3] = str(number_near(chance, max(1, base.cycles)))
    return words


# Cases.

class Case:
    """The words of a run, the files that are other ones than the base's, and what is known of it."""

    def __init__(self, base, words, changed):
        self.base, self.words, self.changed = base, words, changed


def words_of(command, base, cycle=1):
    records = [word for k in range(base.records) for word in ('--record', f'r{k}')]
    if command == 'play':
        disks = [word for name in base.disks for word in ('--disk', name)]
        return ['play', '--no-sync', 's', 'c', 'made-p', *(f'made-{word}' if word.startswith('r') else word for word in records), *disks]
    if command == 'graph':
        return ['graph', 's', 'o', str(cycle)]
    return ['check', 's', 'c', 'o', 'p', *records]


def drawn(chance, bases):
    """A case that nobody chose."""
    base = chance.choice(bases)
    changes, target = chance.choice([1, 1, 1, 2, 4]), chance.choices(['s', 'c', 'o', 'file', 'words'], [45, 20, 25, 5, 5])[0]
    if target in ('o', 'file') and not base.report:
        target = 's'
    if base.disks and target in ('c', 'o', 'file'):
        target = chance.choice(list(base.disks))
    command = chance.choice({'s': ['play', 'play', 'play', 'check', 'graph'], 'c': ['play', 'play', 'check'], 'o': ['check', 'check', 'graph'], 'file': ['check'], 'words': ['play', 'graph', 'check']}.get(target, ['play']))
    words = words_of(command, base, chance.randrange(1, max(1, base.cycles) + 1))
    if target == 'words':
        return Case(base, changed_words(chance, words, base), {})
    held, name = base.held(), target if target != 'file' else chance.choice(['p', *(f'r{k}' for k in range(base.records))])
    one = held.get(name, b'')
    for _ in range(changes):
        if name in ('s', 'o') and chance.random() < 0.85:
            one = changed_text(chance, one, [chance.choice(bases).held()[name]])
        elif name not in ('s', 'o') and len(one) >= 44 and chance.random() < 0.6:
            one = changed_wave(chance, one)
        else:
            one = changed_bytes(chance, one)
    if command == 'play' and chance.random() < 0.05:
        words.insert(1, '--strict')
    return Case(base, words, {name: one})


def shown(bases):
    """Cases by which each class is reached whatever chance does: each base as it is, and what is long, or of one form."""
    for base in bases:
        for command in ('play', 'graph', 'check') if base.report else ('play',):
            yield Case(base, words_of(command, base), {})
    first = next(base for base in bases if base.report and base.records)
    script, capture = first.script, first.capture
    play, check = words_of('play', first), words_of('check', first)
    for text in (b'# a line of a comment\n' * 50000, b'#' * 1048576 + b'\n', b'run 1\n' * 257, b'do start\n' * 4097, b'run 1000000\n' * 3, b'x' * 1000000, *LINES):
        yield Case(first, play, {'s': script + text})
        yield Case(first, check, {'s': script + text})
    yield Case(first, play, {'c': capture[:12] + (b'junk' + bytes(4)) * 4096 + capture[12:]})
    yield Case(first, play, {'c': capture[:12] + (b'junk' + bytes(4)) * 4095 + capture[12:]})
    for size in (14, 16, 17, 18, 40, 2**32 - 1):
        for extra in (0, 10, 22):
            for tag in (1, 3):
                rest = extra.to_bytes(2, 'little') + capture[34:36] + bytes(4) + tag.to_bytes(2, 'little') + bytes.fromhex('000000001000800000aa00389b71')
                yield Case(first, play, {'c': capture[:16] + size.to_bytes(4, 'little') + b'\xfe\xff' + capture[22:36] + rest + capture[36:]})
    # Of each kind of line the last number but those of names, one more; and one byte of each file.
    for kind, place in ((b'call', 2), (b'cycle', 2), (b'meter', 2), (b'midi', 3), (b'recorder', 2), (b'overrun', 3)):
        for base in [base for base in bases if base.report and b'\n' + kind + b' ' in base.report][:3]:
            lines = base.report.split(b'\n')
            at = next(at for at, line in enumerate(lines) if line.startswith(kind + b' '))
            words = lines[at].split(b' ')
            words[place] = b'%d' % (int(words[place]) + 1)
            for command in ('check', 'graph'):
                yield Case(base, words_of(command, base, base.cycles), {'o': b'\n'.join([*lines[:at], b' '.join(words), *lines[at + 1:]])})
    for name, held in zip(('p', 'r0'), first.files):
        yield Case(first, check, {name: held[:-1] + bytes([held[-1] ^ 1])})
    for at, bytes_there in HEADERS:
        yield Case(first, play, {'c': capture[:at] + bytes_there + capture[at + len(bytes_there):]})
    for kept in (0, 20, 40):
        yield Case(first, play, {'c': capture[:kept]})
    yield Case(first, play, {'c': capture[:12] + capture[36:]})
    yield from shown_of_disks(next(base for base in bases if base.report and base.disks))
    lines = first.report.split(b'\n')
    at = next(at for at, line in enumerate(lines) if line.startswith(b'cycle '))
    for other in (b'report 2', b'end', b''):
        for command in ('check', 'graph'):
            yield Case(first, words_of(command, first), {'o': b'\n'.join([other, *lines[1:]])})
    far = lines[at].split(b' ')
    yield Case(first, words_of('graph', first), {'o': b'\n'.join([*lines[:at], b' '.join([*far[:2], b'9999', *far[3:]]), *lines[at + 1:]])})
    refusing = next(base for base in bases if base.report and b' refused ' in base.report)
    yield Case(refusing, ['play', '--strict', *words_of('play', refusing)[1:]], {})
    yield Case(first, play[:-2], {})
    yield Case(first, [*play, '--disk', 'd'], {})
    yield Case(first, ['play', '--strict', *play[1:]], {})
    yield Case(first, [*play[:2], '--strict', *play[2:4], 'no/folder', *play[5:]], {})
    yield Case(first, ['nothing' if word == 'c' else word for word in play], {})
    yield Case(first, play, {'s': script.rstrip() + b'\ndo open g99 guest 255\n'})
    yield Case(first, play, {'s': script.replace(b'rate ', b'rate 1', 1) if script.split(b'rate ')[1][:1] != b'1' else script.replace(b'rate 1', b'rate ', 1)})
    yield Case(first, play, {'s': re.sub(rb'(?m)^capture (\d)', lambda found: b'capture %d' % (int(found[1]) % 8 + 1), script, count=1)})


def shown_of_disks(base):
    """The same for what is wrong with a disk file: cases of its header, of its chunks, and of its rate and channels."""
    name, disk = next(iter(base.disks.items()))
    for at, there in [*HEADERS, (24, b'\1\0\0\0'), (22, bytes([disk[22] + 1]))]:
        yield case_of_disk(base, name, disk[:at] + there + disk[at + len(there):])
    channels = disk[22] % 8 + 1
    yield case_of_disk(base, name, disk[:22] + bytes([channels, 0]) + disk[24:32] + (channels * disk[34] // 8).to_bytes(2, 'little') + disk[34:])
    for count in (4095, 4096):
        yield case_of_disk(base, name, disk[:12] + (b'junk' + bytes(4)) * count + disk[12:])
    for kept in (0, 20, 40, len(disk) - 1):
        yield case_of_disk(base, name, disk[:kept])
    yield case_of_disk(base, name, disk[:12] + disk[36:])
    for size in (14, 16, 17, 18, 40, 2**32 - 1):
        for extra in (0, 10, 22):
            for tag in (1, 3):
                rest = extra.to_bytes(2, 'little') + disk[34:36] + bytes(4) + tag.to_bytes(2, 'little') + bytes.fromhex('000000001000800000aa00389b71')
                yield case_of_disk(base, name, disk[:16] + size.to_bytes(4, 'little') + b'\xfe\xff' + disk[22:36] + rest + disk[36:])


def case_of_disk(base, name, held):
    return Case(base, words_of('play', base), {name: held})


# Runs.

class Room:
    """A folder in memory, where there is one, in which cases run one after the other."""

    def __init__(self, jackd, seed):
        self.jackd, self.seed = jackd, seed
        self.top = room_in_memory()
        self.out, self.told = (os.open(f'{self.top}/{name}', os.O_RDWR | os.O_CREAT) for name in ('out', 'told'))
        self.nothing = os.open('/dev/null', os.O_RDONLY)
        self.base, self.held = None, {}
        self.faults, self.reached, self.commands = [], collections.Counter(), collections.Counter()
        self.explained = self.checked = self.runs = self.long = self.most_memory = 0
        self.slowest = self.dearest = 0.0
        self.child = None
        signal.signal(signal.SIGALRM, self.rings)
        # A file that grows past this is refused by the system, and not by a signal.
        signal.signal(signal.SIGXFSZ, signal.SIG_IGN)

    def rings(self, *_):
        if self.child:
            os.kill(self.child, signal.SIGKILL)

    def enter(self, base):
        """The files of a base, and nothing else."""
        if self.base is base:
            return
        folder = f'{self.top}/room'
        shutil.rmtree(folder, ignore_errors=True)
        os.mkdir(folder)
        os.chdir(folder)
        self.base, self.held = base, base.held()
        for name, held in self.held.items():
            put(name, held)

    def run(self, words, space, limit=60):
        """Exit code, or minus the signal; standard output, standard error, seconds of the clock and of the processor."""
        for it in (self.out, self.told):
            os.ftruncate(it, 0)
            os.lseek(it, 0, 0)
        limits = [(resource.RLIMIT_AS, space), (resource.RLIMIT_FSIZE, LONGEST_FILE)]
        old = [(kind, resource.getrlimit(kind)) for kind, _ in limits]
        actions = [(os.POSIX_SPAWN_DUP2, one, other) for one, other in ((self.nothing, 0), (self.out, 1), (self.told, 2))]
        began = time.monotonic()
        for (kind, soft), (_, (_, hard)) in zip(limits, old):
            resource.setrlimit(kind, (soft, hard))
        try:
            self.child = os.posix_spawn(self.jackd, ['jackd', *words], os.environ, file_actions=actions)
        finally:
            for kind, both in old:
                resource.setrlimit(kind, both)
        signal.setitimer(signal.ITIMER_REAL, limit)
        _, status, used = os.wait4(self.child, 0)
        signal.setitimer(signal.ITIMER_REAL, 0)
        self.child = None
        self.runs += 1
        self.most_memory = max(self.most_memory, used.ru_maxrss)
        out, told = (os.pread(it, LONGEST_FILE, 0) for it in (self.out, self.told))
        return os.waitstatus_to_exitcode(status), out, told, time.monotonic() - began, used.ru_utime + used.ru_stime

    def case(self, number, case):
        """Runs a case; what is wrong with it goes to the faults."""
        self.enter(case.base)
        held = {**self.held, **case.changed}
        for name, changed in case.changed.items():
            put(name, changed)
        script = held['s']
        cycles, frames = cycles_of(script)
        small = cycles <= 20000 and frames <= 2000000
        threads = any(line.split()[:2][1:] in ([b'threads'], [b'steal']) for line in script.splitlines() if line.split()[:1] == [b'mode'])
        code, out, told, clock, processor = self.run(case.words, SPACE_OF_THREADS if threads else SPACE, 60 if small else 10)
        command = next((word for word in case.words if word in ('play', 'graph', 'check')), 'none')
        self.commands[command] += 1
        allowed = max(1, cycles / 2000, frames / 200000) * (10 if threads else 1)
        wrong = list(self.wrong(case, command, code, out, told, small, processor / allowed))
        if small:
            self.slowest, self.dearest = max(self.slowest, clock), max(self.dearest, processor)
        self.long += not small and code != 5
        wrong += [f'{name} was changed' for name, one in held.items() if not same(name, one)]
        stray = [name for name in os.listdir('.') if name not in held and not name.startswith('made-') and name not in case.words]
        wrong += [f'a file {name[:40]!r} was made' for name in stray]
        made = [name for name in os.listdir('.') if name not in held]
        if made and command != 'play':
            wrong.append(f'{command} made {made}')
        if code in (0, 9) and command == 'play' and out.startswith(b'report 1\n'):
            wrong += self.judged(number, case, held, out, small)
        for name in os.listdir('.'):
            if name not in held:
                os.remove(name)
        for name in case.changed:
            put(name, self.held[name]) if name in self.held else os.remove(name)
        if wrong:
            self.faults.append((number, case, wrong))

    def wrong(self, case, command, code, out, told, small, processor):
        """What is wrong with an answer."""
        self.reached[f'code {code}'] += 1
        if code < 0:
            if code != -signal.SIGKILL or small:
                yield f'signal {-code}' if code != -signal.SIGKILL else 'no end in 60 seconds'
            return
        if code > 9:
            yield f'exit code {code}'
        if small and processor > 1:
            yield f'{processor:.1f} times the time of a processor that its length allows'
        if code and not told:
            yield f'exit code {code}, and nothing on standard error'
        if steers(told):
            yield f'standard error steers a terminal: {told[:200]!r}'
        line = FAULT_LINES.get(code)
        if line:
            found = re.fullmatch(line, out)
            if not found:
                yield f'exit code {code} with standard output {out[:100]!r}'
            elif code in (4, 7):
                self.reached[('disk ' if code == 4 and set(case.changed) & set(case.base.disks) else '') + found[1].decode()] += 1
            elif code == 5:
                self.reached[f'script {found[3].decode()}'] += 1
            elif code == 8:
                self.reached[f'{command} {out.split()[2].decode()}'] += 1
        elif code in (0, 9):
            helps = {'--help', '-h', 'help', '--version', '-V'} & set(case.words)
            whole = {'play': out.startswith(b'report 1\n') and out.endswith(b'\nend\n'), 'check': out == b'check ok\n',
                     'graph': out.startswith((b'cycle ', b'digraph ')) and out.endswith((b'end\n', b'}\n'))}
            if not helps and not whole.get(command) or code == 9 and '--strict' not in case.words:
                yield f'exit code {code} with standard output {out[:60]!r} .. {out[-60:]!r}'
            if command == 'play':
                for name in set(re.findall(rb'(?m)^call \d+ \d+ (refused \d+ \w+)$', out)):
                    self.reached[name.decode()] += 1
        elif code == 1 and small:
            yield 'out of memory'
        # With the words of a play, graph or check as they are, each file can be read and written; a play that is refused left none.
        if code in (3, 6) and small and case.changed and (command == 'play' or case.base.report):
            yield f'a file failed: {told[:200]!r}'
        if code == 1 and out:
            yield f'exit code 1 with standard output {out[:60]!r}'

    def judged(self, number, case, held, report, small):
        """A play that ended well: whether it is explained."""
        if not small:
            return
        put('made-o', report)
        made = ['made-p', *(name for word, name in zip(case.words, case.words[1:]) if word == '--record')]
        if 'made-p' not in case.words or not all(map(os.path.isfile, made)):
            return
        disks = [whole(name) for word, name in zip(case.words, case.words[1:]) if word == '--disk']
        if not disks:
            self.checked += 1
            answer = self.run(['check', 's', 'c', 'made-o', 'made-p', *(word for name in made[1:] for word in ('--record', name))], SPACE_OF_THREADS)
            if answer[:2] != (0, b'check ok\n'):
                yield f'check of the play: {answer[:3]}'
        # Which of two formats counts, docs/FORMATS.md does not say.
        if number % (2 if disks else 20) == 0 and cycles_of(held['s'])[1] < 20000 and all(it.count(b'fmt ') == 1 for it in [held['c'], *disks]):
            self.explained += 1
            files = [whole(name) for name in made]
            try:
                found = explained.faults_of(held['s'].decode('latin-1').replace('\x85', '?'), held['c'], report.decode(), files, disks)
            except (ArithmeticError, LookupError, ValueError) as fault:
                found = [f'explained.py: {fault!r}']
            yield from found[:2]


def put(name, held):
    with open(name, 'wb') as it:
        it.write(held)


def whole(name):
    with open(name, 'rb') as it:
        return it.read()


def same(name, held):
    try:
        return os.stat(name).st_size == len(held) and whole(name) == held
    except OSError:
        return False


# Bases.

def texts(top):
    """Scripts, captures and lists of disk files, with their names, of examples/, tests/verdicts and tests/rows, and drawn ones."""
    subprocess.run([sys.executable, '-B', 'examples/captures.py', top], check=True)
    for script in sorted(glob.glob('examples/*.session')):
        name = os.path.basename(script).removesuffix('.session')
        yield name, read(script), read(f'{top}/{name}.capture.wav'), [read(disk) for disk in sorted(glob.glob(f'{top}/{name}.disk?.wav'))]
    for folder, _ in all_in('tests/verdicts'):
        yield os.path.basename(folder), read(f'{folder}/s'), read(f'{folder}/c.wave'), []
    for row in sorted(os.listdir('tests/rows')):
        files = {name.split('.')[0]: f'tests/rows/{row}/{name}' for name in os.listdir(f'tests/rows/{row}')}
        for script in ('s', 's-1'):
            if script in files and 'c' in files:
                words = read(files['words']).decode().splitlines()[0].split()
                disks = [os.path.normpath(name) for word, name in zip(words, words[1:]) if word == '--disk']
                yield row, read(files[script]), read(files['c']), [read(files[name]) if name in files else b'' for name in disks]
    for seed in range(16):
        chance = random.Random(seed)
        session, channels = [(sessions.commands, 2), (sessions.eventful, 2), (sessions.connections, 1), (sessions.tracks, 2)][seed % 4]
        lines = session(chance, sessions.MODES[seed * 2 % 9])
        capture = sessions.wave(chance, channels, 300)
        yield f'drawn {seed}', ''.join(f'{line}\n' for line in lines).encode(), capture, sessions.disk_files(chance, lines)


def bases_of(room):
    """The bases, each played once where it can be."""
    bases = []
    with tempfile.TemporaryDirectory() as top:
        for name, script, capture, disks in list(texts(top)):
            base = Base(name, script, capture, disks)
            # Short ones alone, whatever the machine does: so a seed has the same bases each time.
            if len(script) > 60000 or max(map(len, [capture, *disks])) > 300000 or base.cycles > 5000 or cycles_of(script)[1] > 100000:
                continue
            room.enter(base)
            code, report, *_ = room.run(words_of('play', base), SPACE_OF_THREADS)
            if code == 0 and len(report) < 200000:
                files = [whole(f'made-{name}') for name in ['p', *(f'r{k}' for k in range(base.records))]]
                base = Base(name, script, capture, disks, report, files)
            bases.append(base)
            room.base = None
    return bases


def case_of(seed, number, bases):
    return drawn(random.Random(f'{seed} {number}'), bases)


def kept(seed, number, case):
    """The files of a case, in a folder that stays."""
    folder = tempfile.mkdtemp(prefix=f'soak-{seed}-{number}-')
    for name, held in {**case.base.held(), **case.changed}.items():
        put(f'{folder}/{name}', held)
    return folder


def main(jackd, seconds, seed, cases=None):
    began, room = time.monotonic(), Room(os.path.abspath(jackd), seed)
    bases = bases_of(room)
    chosen = drawn_ones = 0
    for case in shown(bases):
        room.case(-chosen, case)
        chosen += 1
    while time.monotonic() - began < seconds and (cases is None or drawn_ones < cases) and len(room.faults) < 20:
        drawn_ones += 1
        room.case(drawn_ones, case_of(seed, drawn_ones, bases))
    took = time.monotonic() - began
    all_classes = [name for names in CLASSES.values() for name in names]
    missing = [name for name in all_classes if not room.reached[name]]
    for number, case, wrong in room.faults[:20]:
        print(f'soak: bytes: seed {seed}, case {number}, from {case.base.name}: {" ".join(case.words)[:200]}: {"; ".join(wrong[:3])}; files in {kept(seed, number, case)}')
    if missing:
        print(f'soak: bytes: no case reached {", ".join(missing)}')
    print(f'soak: bytes: {drawn_ones} drawn inputs from seed {seed} and {chosen} chosen ones, of {len(bases)} bases, in {took:.0f} s: '
          f'{room.commands["play"]} plays, {room.commands["graph"]} graphs, {room.commands["check"]} checks; {room.checked} plays that ended well checked, {room.explained} explained; {len(room.faults)} failures')
    print('soak: bytes: classes reached:', ', '.join(f'{sum(room.reached[name] > 0 for name in names)} of {len(names)} {what}' for what, names in CLASSES.items()))
    codes = sorted((name for name in room.reached if name.startswith('code ')), key=lambda name: int(name.split()[1]))
    print('soak: bytes:', ', '.join(f'{name} {room.reached[name]}' for name in codes) + f'; {room.long} long sessions; the others took at most {room.dearest:.2f} s of a processor and {room.slowest:.2f} s of the clock')
    return bool(room.faults or missing)


def one(jackd, seed, number):
    room = Room(os.path.abspath(jackd), seed)
    case = case_of(seed, int(number), bases_of(room))
    folder = kept(seed, number, case)
    print(folder, case.words)
    room.enter(case.base)
    for name, changed in case.changed.items():
        put(name, changed)
    print(room.run(case.words, SPACE_OF_THREADS))


if __name__ == '__main__':
    if len(sys.argv) < 4:
        sys.exit(__doc__)
    os.chdir(os.path.join(os.path.dirname(os.path.abspath(__file__)), '..'))
    program, rest = os.path.abspath(sys.argv[1]), sys.argv[2:]
    sys.exit(one(program, *rest[1:]) if rest[0] == '--one' else main(program, float(rest[0]), rest[1], *map(int, rest[2:3])))
