#!/usr/bin/env bash
# Nothing is lost or late in silence: standard error tells of each recorder how many of how many blocks were lost, the first
# cycle that lost one, and its second; of each disk how many underruns there were beside how many blocks that were played, the
# first, and its second; and which calls were refused. With `--strict` the exit code is 9 then, and report and files are the same.
# Random sessions in serial mode, whose losses and underruns are counted here by FORMATS alone ($SESSIONS with recorders, 60, and
# as many with disks, from the number $SEED, 1), some whose counts are from paper, and some with threads, whose report tells them.
set -u
# shellcheck source=scripts/program.sh
. "$(dirname "$0")/program.sh" python3
python3 - "$jackd" <<'PY'
import os, random, struct, subprocess, sys, tempfile

jackd = sys.argv[1]
sessions, draw = int(os.environ.get('SESSIONS', 60)), random.Random(int(os.environ.get('SEED', 1)))
faults, told_of = [], {'recorder': 0, 'disk': 0}


def wave(frames):
    data = bytes(2 * frames)
    form = struct.pack('<HHIIHH', 1, 1, 48000, 96000, 2, 16)
    body = b'WAVEfmt ' + struct.pack('<I', 16) + form + b'data' + struct.pack('<I', len(data)) + data
    return b'RIFF' + struct.pack('<I', len(body)) + body


def play(script, frames, recorders, disks, *options):
    """Exit code, standard output, standard error, and the files made; each disk's file has so many frames."""
    with tempfile.TemporaryDirectory() as folder:
        inputs = [('s', script.encode()), ('c', wave(frames)), *((f'd{disk}', wave(held)) for disk, held in enumerate(disks))]
        for name, held in inputs:
            with open(f'{folder}/{name}', 'wb') as it:
                it.write(held)
        made = ['p', *(f'r{it}' for it in range(recorders))]
        named = ['s', 'c', 'p', *(word for it in made[1:] for word in ('--record', it))]
        named += [word for name, _ in inputs[2:] for word in ('--disk', name)]
        ran = subprocess.run([jackd, 'play', *options, *named], cwd=folder, capture_output=True, timeout=100)
        return ran.returncode, ran.stdout, ran.stderr.decode(), *(open(f'{folder}/{it}', 'rb').read() for it in made)


def counted_of(count, what):
    return f'{count} {what}{"s" * (count != 1)}'


def time_of(segments, cycle):
    """The cycle, and the second at which it begins."""
    before = frames = 0
    for kind, cycles, period in segments:
        frames += period * max(0, min(cycles, cycle - 1 - before))
        before += cycles
    thousandths = 1000 * frames // 48000
    return f'cycle {cycle} (second {thousandths // 1000}.{thousandths % 1000:03})'


def lost(recorder, blocks, missed, when):
    """What is told of a recorder that lost blocks."""
    words = f'was lost, in {when}' if missed == 1 else f'were lost, the first in {when}'
    return f'jackd: r{recorder}: {missed} of {counted_of(blocks + missed, "block")} {words}; the file is shifted from there on\n'


def late(disk, blocks, missed, when):
    """What is told of a disk that had underruns."""
    counts = f'{counted_of(missed, "underrun")} beside {counted_of(blocks, "block")} played'
    words = f'in {when}; it is' if missed == 1 else f'the first in {when}; each is'
    return f'jackd: d{disk}: {counts}, {words} silent, and the track is late from there on\n'


def lines_of(segments, recorders, disks, ways_out):
    """What is told of recorders and of disks, each of them its blocks, how many it missed, and the first cycle that missed one."""
    lines = []
    for kind, line, owners, way_out in ('recorder', lost, recorders, ways_out[0]), ('disk', late, disks, ways_out[1]):
        told = [line(number, blocks, missed, time_of(segments, first)) for number, (blocks, missed, first) in enumerate(owners) if missed]
        told_of[kind] += len(told)
        lines += [*told, f'jackd: {way_out}\n'] if told else []
    return ''.join(lines)


def read_back(report, kind, of_missed):
    """The recorders or the disks of a report: the blocks of each, how many it missed, and the first cycle that missed one."""
    rows, firsts = [row.split() for row in report.decode().splitlines()], {}
    for row in rows:
        if row[0] == of_missed:
            firsts.setdefault(row[1], int(row[2]))
    return [(int(row[2]), int(row[3]), firsts.get(row[1], 0)) for row in rows if row[0] == kind]


def lost_blocks(segments, starts, places, drain):
    """Of each recorder, whose client is active from a segment on: its blocks, those lost, and the first cycle that lost one."""
    for start in starts:
        waiting = blocks = missed = first = cycle = 0
        for number, (kind, cycles, period) in enumerate(segments):
            if kind == 'freewheel':
                waiting = 0
            for _ in range(cycles):
                cycle += 1
                if number < start:
                    continue
                if kind == 'run' and waiting == places:
                    missed += 1
                    first = first or cycle
                    continue
                blocks += 1
                waiting = 0 if kind == 'freewheel' else waiting + 1 - min(drain, waiting + 1)
        yield blocks, missed, first


def underruns(segments, spans, disks, places, fill):
    """Of each disk, whose client is active in some segments: its blocks that were played, its underruns, and the first of them."""
    for span, frames in zip(spans, disks):
        got = put = missed = first = cycle = 0
        for number, (kind, cycles, period) in enumerate(segments):
            held = -(-frames // period)
            for _ in range(cycles):
                cycle += 1
                put = min(held, got + places, held if kind == 'freewheel' else put + fill)
                if number not in span or got == held:
                    continue
                if kind == 'run' and put == got:
                    missed += 1
                    first = first or cycle
                else:
                    got += 1
        yield got, missed, first


SERIAL = '"drain 1" loses no block, nor does a "freewheel" segment', '"fill 1" has no underrun, nor has a "freewheel" segment'
LONGEST = 'a "freewheel" segment loses no block', '"mode serial" with "fill 1" has no underrun, nor has a "freewheel" segment'
LONGER = ('"ring 64" holds more blocks, and a "freewheel" segment loses none',
    '"ring 64" makes underruns rarer; "mode serial" with "fill 1" has none, nor has a "freewheel" segment')


def captured(segments):
    return sum(cycles * period for kind, cycles, period in segments if kind == 'run')


def compare(what, script, segments, recorders, disks, held, refused=False):
    """A play, and the same with --strict, against what should be told of its recorders and of its disks, whose files have so many
    frames."""
    code, report, told, *files = play(script, captured(segments), len(recorders), held)
    wanted = lines_of(segments, recorders, disks, SERIAL)
    behind = told[len(told) - len(wanted):] if wanted else ''
    if code or behind != wanted or (told != wanted) != refused:
        faults.append(f'{what}: exit code {code}, told {told[-400:]!r}, and not {wanted!r}')
    again = play(script, captured(segments), len(recorders), held, '--strict')
    strict = 9 if wanted or refused else 0
    if again[0] != strict:
        faults.append(f'{what}: --strict ends with {again[0]}, not {strict}')
    if again[2] != told or again[1] != report or again[3:] != tuple(files):
        faults.append(f'{what}: --strict tells, prints or writes something else')
    for kind, of_missed, owners in ('recorder', 'overrun', recorders), ('disk', 'underrun', disks):
        if read_back(report, kind, of_missed) != owners:
            faults.append(f'{what}: the report has other counts of the {kind}s than {owners}')


def header(version, period, mode, *rest):
    return [f'jackd {version}', 'rate 48000', f'period {period}', 'capture 1', 'playback 1 16', f'mode {mode}', *rest]


for session in range(sessions):
    places, drain, recorders = draw.choice([1, 2, 5, 64]), draw.choice([0, 0, 0, 1, 4]), draw.randint(1, 4)
    period = draw.choice([4, 64, 1024])
    head = header(2, period, 'serial', f'ring {places}', f'drain {drain}')
    body, segments, starts = [], [], [draw.randint(0, 2) for _ in range(recorders)]
    for number in range(draw.randint(3, 5)):
        for recorder, start in enumerate(starts):
            if start == number:
                body += [f'do open t{recorder} record {recorder}', f'do activate t{recorder}']
        if draw.random() < 0.3:
            period = draw.choice([4, 128, 4096])
            body.append(f'period {period}')
        kind, cycles = draw.choice(['run', 'run', 'freewheel']), draw.randint(1, 70)
        body.append(f'{kind} {cycles}')
        segments.append((kind, cycles, period))
    refused = draw.random() < 0.3
    body += ['do close nobody'] * refused
    script = '\n'.join([*head, *['recorder 1 16'] * recorders, *body]) + '\n'
    compare(f'session {session}', script, segments, list(lost_blocks(segments, starts, places, drain)), [], [], refused)

# A disk's client is active in a segment or is not; before each of them it is made so, and that is no refused call. A recorder
# stands beside the disks in some.
for session in range(sessions):
    places, fill, period = draw.choice([1, 2, 5, 64]), draw.choice([0, 0, 0, 1, 4]), draw.choice([4, 64, 1024])
    recorders, count = draw.choice([0, 0, 1]), draw.randint(1, 4)
    segments = [(draw.choice(['run', 'run', 'freewheel']), draw.randint(1, 40), period) for _ in range(draw.randint(3, 6))]
    spans = [{number for number in range(len(segments)) if draw.random() < 0.7} for _ in range(count)]
    held = [draw.choice([0, 1, period, 3 * period + 1, 20 * period, 90 * period]) for _ in range(count)]
    body = [f'do open a{disk} disk {disk}' for disk in range(count)] + ['do open t record 0', 'do activate t'] * recorders
    for number, (kind, cycles, period) in enumerate(segments):
        for disk, span in enumerate(spans):
            if (number in span) != (number > 0 and number - 1 in span):
                body.append(f'do {"activate" if number in span else "deactivate"} a{disk}')
        body.append(f'{kind} {cycles}')
    refused = draw.random() < 0.3
    body += ['do close nobody'] * refused
    head = header(3, period, 'serial', f'ring {places}', 'drain 0', f'fill {fill}', *['recorder 1 16'] * recorders, *['disk 1'] * count)
    kept = list(lost_blocks(segments, [0] * recorders, places, 0))
    compare(f'session {session} of disks', '\n'.join([*head, *body]) + '\n', segments, kept, list(underruns(segments, spans, held, places, fill)), held, refused)

# From paper: the lines of the header behind `mode`, those of the body, the segments, the frames of the disk files, and of each
# recorder and of each disk its blocks, how many it missed, and the first cycle that missed one. A block has 1,024 frames.
PAPER = {
    # The freewheel cycle puts two blocks and plays one, cycle 2 plays the other, cycles 3 and 4 find none, and cycle 5 puts the third.
    'a ring that a freewheel cycle filled': (['ring 2', 'fill 0', 'disk 1'], ['do open a disk 0', 'do activate a', 'freewheel 1', 'run 3', 'freewheel 1'],
        [3072], [], [(3, 2, 3)]),
    # What a lane calls behind cycle 1 holds from cycle 2 on.
    'two disks': (['fill 0', 'disk 1', 'disk 1'], ['do open a disk 0', 'do activate a', 'do open b disk 1', 'run 2', 'lane 1 at 1 activate b'],
        [1, 1], [], [(0, 2, 1), (0, 1, 2)]),
    # The ring of one place takes the recorder's first block, and loses the other two.
    'a recorder and a disk': (['ring 1', 'drain 0', 'fill 0', 'recorder 1 16', 'disk 1'],
        ['do open t record 0', 'do activate t', 'do open a disk 0', 'do activate a', 'run 3'], [1024], [(1, 2, 2)], [(0, 3, 1)]),
    # Two blocks are put in the first cycle, and the file has no more.
    'a file that ended': (['ring 4', 'fill 0', 'disk 1'], ['do open a disk 0', 'do activate a', 'freewheel 1', 'run 5'], [2048], [], [(2, 0, 0)]),
    # A player that is not active finds nothing and misses nothing. Cycle 12 begins at frame 11264.
    'a player that rests': (['ring 1', 'fill 0', 'disk 1'],
        ['do open a disk 0', 'do activate a', 'freewheel 1', 'do deactivate a', 'run 10', 'do activate a', 'run 1'], [5120], [], [(1, 1, 12)]),
    # Cycle 1 gets the one block that is put before it, and so does each cycle behind it.
    'a block before each cycle': (['ring 1', 'fill 1', 'disk 1'], ['do open a disk 0', 'do activate a', 'run 4'], [4096], [], [(4, 0, 0)]),
}
for what, (rest, body, held, recorders, disks) in PAPER.items():
    segments = [(line.split()[0], int(line.split()[1]), 1024) for line in body if line.split()[0] in ('run', 'freewheel')]
    compare(what, '\n'.join([*header(3, 1024, 'serial', *rest), *body]) + '\n', segments, recorders, disks, held)

# With threads each play is held against its own report.
segments = [('run', 1000, 4)]
for mode, places, ways_out in ('threads 2', 1, LONGER), ('threads 2', 64, LONGEST), ('steal 2', 1, LONGER), ('steal 2', 64, LONGEST):
    script = '\n'.join([*header(3, 4, mode, f'ring {places}', 'recorder 1 16', 'disk 1'), 'do open t record 0', 'do activate t', 'do open a disk 0', 'do activate a',
        'run 1000']) + '\n'
    for options in (), ('--strict',):
        code, report, told, *files = play(script, 4000, 1, [8000], *options)
        wanted = lines_of(segments, read_back(report, 'recorder', 'overrun'), read_back(report, 'disk', 'underrun'), ways_out)
        if code != (9 if options and wanted else 0) or told != wanted:
            faults.append(f'{mode} and ring {places} {options}: exit code {code}, told {told[-400:]!r}, and not {wanted!r}')

for fault in faults[:20]:
    print('check-losses:', fault)
if not faults:
    print(f'check-losses: passed, {2 * sessions} sessions, {len(PAPER)} from paper and 8 plays with threads, {told_of["recorder"]} recorders that lost blocks and '
        f'{told_of["disk"]} disks with underruns')
sys.exit(bool(faults))
PY
