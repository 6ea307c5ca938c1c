#!/usr/bin/env bash
# Sessions with threads over real files, in orders that nobody chose, and some in serial mode. Each report has to be one that can
# be, and the files have to be what it says, by scripts/explained.py, which knows nothing of the program. Played are
#
#   $SESSIONS sessions (45) of scripts/sessions.py, from the seed $SEED (0) on: in turn one of few clients and many connections, one
#       of the kinds of clients before version 3 and all commands, of several segments and periods, one whose cycles have so much work
#       that workers share them, one as the second with MIDI clients, ports and lists of events, and one as the second with one to
#       four disk files, of no frame up to more than are played; in serial mode, with 1, 2, 4 and 16 workers, and with 1, 2, 4 and 8
#       that steal. $ONLY names one of the five: connections, commands, shared, eventful or tracks
#   $RUNS runs (12) of one script with forty calls on four lanes, in turn with workers and with workers that steal
#   $TURNS turns (2) of a session of heavy cycles, six chains of clients of which each is shorter than the one before, beside
#       events: without calls beside its cycles, so that each mode gives the files and the report of serial mode
#   $RECORDINGS runs (3) each of 3,000 cycles with one and with four recorders: the driver gives way to a full ring, so that few of
#       them lose a block. How many did is told, and is no fault, since no clause says that none is lost
#   as many runs each of 3,000 cycles with one and with four disk files: it gives way to an empty ring too. How many missed a block is
#       told, and is no fault either
#   $TRACKS seconds (0) of disk files in each of 18 kinds, of at most 1,000,000 cycles: one file and four, periods of 4, 64 and 1,024
#       frames, rings of 1, 16 and 64 places. Of each is printed how long it took and how many blocks were missed
#   a disk file from a pipe, in serial mode and in each mode of threads: it gives no more than the ring and the reader hold until the
#       cycles of a segment are over. Then just the other cycles are underruns, and the file goes on; in serial mode there is none
#
# Each fault is told as soon as it is found, with a folder that keeps its files. A report or a file that is altered has to be found.
# A run that does not end in 100 seconds is a fault: what its threads did then is told. That explained.py computes what is right is
# shown in serial mode: check-rows.sh and check-examples.sh hold it against values from paper. So is here which underruns can be with
# threads. Where the program has `check`, it says of each of these plays without disk files that the report explains the files.
set -u
# shellcheck source=scripts/program.sh
. "$(dirname "$0")/program.sh" python3

checks=no
"$jackd" --help | grep -q 'jackd check ' && checks=checks
python3 - "$jackd" "$checks" <<'PY'
import array, os, random, subprocess, sys, tempfile, time

sys.dont_write_bytecode = True
sys.path.insert(0, 'scripts')
import explained
from sessions import KINDS, KINDS_OF_SESSIONS, MIDI_KINDS, MODES, chains, command, disk_files, eventful, head, tracks, wave

jackd, checks = sys.argv[1], sys.argv[2] == 'checks'
sessions, first, runs, turns, recordings, length = (
    int(os.environ.get(name, value)) for name, value in (('SESSIONS', 45), ('SEED', 0), ('RUNS', 12), ('TURNS', 2), ('RECORDINGS', 3), ('TRACKS', 0)))
faults, beside, heard, missed, checked, reports, taken = [], 0, 0, 0, 0, set(), 0.0


def fault(text):
    """Tells a fault as soon as it is found."""
    faults.append(text)
    if len(faults) <= 40:
        print('check-threads:', text, flush=True)


def keep(held):
    """Keeps files, so that a fault can be looked at."""
    folder = tempfile.mkdtemp(prefix='check-threads-')
    for name, there in held.items():
        with open(f'{folder}/{name}', 'wb') as it:
            it.write(there)
    return folder


def rows_of(process):
    """What the system tells of each thread of a process: its state, and its ticks of a processor."""
    rows = []
    for thread in os.listdir(f'/proc/{process.pid}/task'):
        try:
            with open(f'/proc/{process.pid}/task/{thread}/stat') as it:
                row = it.read().rpartition(')')[2].split()
            rows.append((row[0], int(row[11]) + int(row[12])))
        except OSError:
            rows.append(('gone', 0))
    return rows


def answer(folder, words, what):
    """Standard output of the program, or none where its exit code is another than 0; `taken` is how long it ran."""
    global taken
    most, begun = max(100, length), time.monotonic()
    ran = subprocess.Popen([jackd, *words], cwd=folder, stdout=subprocess.PIPE, stderr=subprocess.PIPE)
    try:
        out, told = ran.communicate(timeout=most)
    except subprocess.TimeoutExpired:
        rows = rows_of(ran)
        had = sum(ticks for _, ticks in rows) / os.sysconf('SC_CLK_TCK')
        ran.kill()
        ran.communicate()
        fault(f'{what}: {words[0]}: no end in {most} seconds; its threads, in the states {" ".join(state for state, _ in rows)}, have had {had:.1f} seconds of a processor')
        return None
    taken = time.monotonic() - begun
    if ran.returncode:
        fault(f'{what}: {words[0]}: exit code {ran.returncode}: {out.decode()[-200:]} {told.decode().strip()[-200:]}')
        return None
    return out


def made(lines, capture, what, disks=()):
    """Plays a script and checks the play: its report and files, or none where that is a fault."""
    global checked
    records = [f'r{k}' for k in range(sum(line.startswith('recorder ') for line in lines))]
    outputs = ['p', *(word for name in records for word in ('--record', name))]
    given = {'s': ''.join(f'{line}\n' for line in lines).encode(), 'c': capture, **{f'd{k}': held for k, held in enumerate(disks)}}
    with tempfile.TemporaryDirectory() as folder:
        for name, held in given.items():
            with open(f'{folder}/{name}', 'wb') as it:
                it.write(held)
        report = answer(folder, ['play', 's', 'c', *outputs, *(word for k in range(len(disks)) for word in ('--disk', f'd{k}'))], what)
        if report is None:
            fault(f'{what}: its files are in {keep(given)}')
            return None
        files = []
        for name in ['p', *records]:
            with open(f'{folder}/{name}', 'rb') as it:
                files.append(it.read())
        if checks and not disks:
            with open(f'{folder}/o', 'wb') as it:
                it.write(report)
            verdict = answer(folder, ['check', 's', 'c', 'o', *outputs], what)
            checked += verdict == b'check ok\n'
            if verdict not in (None, b'check ok\n'):
                fault(f'{what}: check: {verdict}; files in {keep({**given, "o": report, **dict(zip(["p", *records], files))})}')
    return report.decode(), files


def played(lines, capture, what, disks=()):
    """Plays a script; it, its report and files, or none where that is a fault. Each has to be explained."""
    script, play = ''.join(f'{line}\n' for line in lines), made(lines, capture, what, disks)
    if play is None:
        return None
    found = explained.faults_of(script, capture, *play, disks)[:5]
    if found:
        files = {'s': script.encode(), 'c': capture, 'o': play[0].encode(), **{f'd{k}': held for k, held in enumerate(disks)}, **{f'made{k}': held for k, held in enumerate(play[1])}}
        fault(f'{what}: {"; ".join(found)}; files in {keep(files)}')
    return script, *play


kinds = [kind for kind in (*KINDS_OF_SESSIONS, (tracks, 2)) if os.environ.get('ONLY', kind[0].__name__) == kind[0].__name__]
for seed in range(first, first + sessions):
    chance, mode = random.Random(seed), MODES[seed // len(kinds) % len(MODES)]
    session, channels = kinds[seed % len(kinds)]
    lines, capture = session(chance, mode), wave(chance, channels, chance.choice([0, 500, 1500]))
    run = played(lines, capture, f'seed {seed}', disk_files(chance, lines))
    numbers = {line.split()[2] for line in run[1].splitlines() if line.startswith('cycle')} if run else ()
    beside += len(numbers) > 1
    heard += run is not None and '\nmidi ' in run[1]
    missed += run is not None and '\nunderrun ' in run[1]
if sessions > 8 and not beside:
    fault('no session had a call between its cycles')
if sessions > 3 and (eventful, 2) in kinds and not heard:
    fault('no session had an event in a log')
if sessions > 44 and (tracks, 2) in kinds and not missed:
    fault('no session had an underrun')

# One script: ten calls on each lane, all asking for early cycles, so that the lanes meet.
chance = random.Random(7)
capture, one = wave(chance, 2, 900), eventful(random.Random(11), 'threads 4')
one = [line for line in one if line.split()[0] not in ('lane', 'run', 'freewheel', 'period') or line == 'period 8'] + ['run 120']
one += [f'lane {lane} at {asked} {command(chance, KINDS + MIDI_KINDS, "0123")}' for lane in range(1, 5) for asked in sorted(chance.randrange(100) for _ in range(10))]
for k in range(runs):
    run = played([line.replace('mode threads', 'mode steal') for line in one] if k % 2 else one, capture, f'run {k}')
    reports.add(run and run[1])

# No call beside the cycles: what is played is that of serial mode, whoever plays it.
if turns:
    long = wave(chance, 1, 3 * 4096)
    alone = made(chains('serial'), long, 'chains')
    for turn in range(turns):
        for mode in MODES[1:]:
            if alone and made(chains(mode), long, f'chains, {mode}') != alone:
                fault(f'chains, {mode}: another report or other files than in serial mode')


lost, lacked = [], []


def recorded(count, mode, what):
    """Recorders that hear the capture in each of 3,000 cycles keep each of its blocks, or lose some where the machine is busy."""
    lines = head(1, 64, 2, 16, mode, 'ring 16', *['recorder 2 16'] * count)
    for tape in range(count):
        lines += [f'do open t{tape} record {tape}', f'do activate t{tape}']
        for channel in (1, 2):
            lines += [f'do register t{tape}:{channel} in audio', f'do connect system:capture_{channel} t{tape}:{channel}']
    heard = explained.wave_of(8000, 2, 16, [chance.randrange(-2**15, 2**15) * 65536 for _ in range(2 * 64 * 30)] * 100)
    play = made([*lines, 'run 3000'], heard, what)
    if play and 'overrun' in play[0]:
        lost.append(what)
    elif play and any(file != heard for file in play[1][1:]):
        fault(f'{what}: a record is not what was captured')


def players(count, mode, period, ring):
    """The lines before the segments of a session that plays so many disk files, on two channels each."""
    lines = head(3, period, 1, 16, mode, f'ring {ring}', *['disk 2'] * count)
    lines[4] = f'playback {2 * count} 16'
    for disk in range(count):
        lines += [f'do open t{disk} disk {disk}', f'do activate t{disk}']
        for channel in (1, 2):
            lines += [f'do register t{disk}:{channel} out audio', f'do connect t{disk}:{channel} system:playback_{2 * disk + channel}']
    return lines


def tracked(count, mode, what):
    """Disk files of 3,000 blocks are heard whole, or miss some where the machine is busy."""
    lines = players(count, mode, 64, 16)
    tones = [[[chance.randrange(-2**15, 2**15) * 65536 for _ in range(64 * 30)] * 100 for _ in range(2)] for _ in range(count)]
    files = [explained.wave_of(8000, 2, 16, [x for frame in zip(*channels) for x in frame]) for channels in tones]
    heard = explained.wave_of(8000, 2 * count, 16, [x for frame in zip(*(channel for channels in tones for channel in channels)) for x in frame])
    silence, lines = explained.wave_of(8000, 1, 16, []), [*lines, 'run 3000']
    play = made(lines, silence, what, files)
    if play and '\nunderrun ' in play[0]:
        lacked.append(what)
        for it in explained.faults_of(''.join(f'{line}\n' for line in lines), silence, *play, files)[:5]:
            fault(f'{what}: {it}')
    elif play and play[1] != [heard]:
        fault(f'{what}: the playback is not what the disk files hold')


def sleeps(process, least):
    """Waits until a process has so many threads, or more, and none of them has run for a tenth of a second, or it is over."""
    quiet = 0
    while quiet < 5 and process.poll() is None:
        states = [state for state, _ in rows_of(process)]
        quiet = quiet + 1 if len(states) >= least and set(states) == {'S'} else 0
        time.sleep(0.02)


def held_back(mode):
    """A disk file of eight blocks whose last three come when the first 40 cycles are over: a ring holds four, and the reader one."""
    tone = [chance.randrange(1, 2**15) * 65536 for _ in range(64)]
    track, silence = explained.wave_of(8000, 1, 16, tone), explained.wave_of(8000, 1, 16, [])
    calls = ['do open t disk 0', 'do register t:o out audio', 'do activate t', 'do connect t:o system:playback_1']
    script = ''.join(f'{line}\n' for line in [*head(3, 8, 1, 16, mode, 'ring 4', 'disk 1'), *calls, 'run 40', 'run 4', 'run 2'])
    with tempfile.TemporaryDirectory() as folder:
        for name, there in (('s', script.encode()), ('c', silence)):
            with open(f'{folder}/{name}', 'wb') as it:
                it.write(there)
        os.mkfifo(f'{folder}/d')
        pipe, given = os.open(f'{folder}/d', os.O_RDWR), 44 + 5 * 16
        os.write(pipe, track[:given])
        ran = subprocess.Popen([jackd, 'play', 's', 'c', 'p', '--disk', 'd'], cwd=folder, stdout=subprocess.PIPE, stderr=subprocess.PIPE)
        # With threads one waits for the file, and the first one for it.
        sleeps(ran, 1 if mode == 'serial' else 2)
        os.write(pipe, track[given:])
        os.close(pipe)
        try:
            report, told = ran.communicate(timeout=100)
        except subprocess.TimeoutExpired:
            ran.kill()
            return f'no end in 100 seconds, {ran.communicate()}'
        if ran.returncode:
            return f'exit code {ran.returncode}: {told}'
        with open(f'{folder}/p', 'rb') as it:
            played = it.read()
    rows = [line.split() for line in report.decode().splitlines()]
    underruns = [[int(it) for it in row[2:]] for row in rows if row[0] == 'underrun']
    # Of the cycles behind the ring's blocks one may have the block that the reader held; else the next segment has it.
    counts = (35, 36) if mode != 'serial' else (0,)
    if len(underruns) not in counts or any(not 4 < k < 41 or sent != taken or sent not in (4, 5) for k, sent, taken in underruns):
        return f'the underruns are {underruns}'
    missed, blocks, heard = {k for k, *_ in underruns}, [tone[at:at + 8] for at in range(0, 64, 8)], []
    for k in range(1, 47):
        heard += blocks.pop(0) if k not in missed and blocks else [0] * 8
    if blocks or ['disk', '0', '8', str(len(missed))] not in rows:
        return f'not all blocks are told: {report[-300:]}'
    if played != explained.wave_of(8000, 1, 16, heard):
        return 'the playback is not the disk file with silence in its underruns'
    return ''.join(explained.faults_of(script, silence, report.decode(), [played], [track]))


def late(channel, period, underruns):
    """A channel of 16 bits of a disk file, with silence in the cycles that are underruns."""
    samples, cycle = array.array('h'), 0
    for k, underrun in enumerate(underruns):
        samples += channel[(cycle - k) * period:(underrun - 1 - k) * period] + array.array('h', bytes(2 * period))
        cycle = underrun
    return samples + channel[(cycle - len(underruns)) * period:len(channel) - len(underruns) * period]


def long_tracks(count, period, ring):
    """Disk files of $TRACKS seconds: each is heard whole, but for silence in its underruns."""
    what = f'{count} disk file{"s" if count > 1 else ""}, period {period}, ring {ring}'
    cycles = min(1_000_000, length * 8000 // period)
    tones = [array.array('h', chance.randbytes(2 * 997)) * (cycles * period // 997 + 1) for _ in range(2 * count)]
    channels = [tone[:cycles * period] for tone in tones]

    def mixed(channels):
        frames = array.array('h', bytes(2 * len(channels) * cycles * period))
        for k, channel in enumerate(channels):
            frames[k::len(channels)] = channel
        return frames.tobytes()

    shapes = [explained.wave_of(8000, 2, 16, [])[:40], explained.wave_of(8000, 2 * count, 16, [])[:40]]
    files = [mixed(channels[2 * disk:2 * disk + 2]) for disk in range(count)]
    files = [(b'RIFF' + (36 + len(data)).to_bytes(4, 'little') + shapes[0][8:] + len(data).to_bytes(4, 'little') + data) for data in files]
    play = made([*players(count, 'threads 2', period, ring), f'run {cycles}'], explained.wave_of(8000, 1, 16, []), what, files)
    if not play:
        return
    rows = [line.split() for line in play[0].splitlines() if line[:4] in ('disk', 'unde')]
    underruns = [[int(row[2]) for row in rows if row[:2] == ['underrun', str(disk)]] for disk in range(count)]
    data = mixed([late(channel, period, underruns[k // 2]) for k, channel in enumerate(channels)])
    if [row[1:] for row in rows if row[0] == 'disk'] != [[str(disk), str(cycles - len(those)), str(len(those))] for disk, those in enumerate(underruns)]:
        fault(f'{what}: the report has other counts')
    if play[1] != [b'RIFF' + (36 + len(data)).to_bytes(4, 'little') + shapes[1][8:] + len(data).to_bytes(4, 'little') + data]:
        fault(f'{what}: the playback is not what the disk files hold')
    print(f'check-threads: {what}: {cycles} cycles in {taken:.2f} s, {sum(map(len, underruns))} underruns', flush=True)


if recordings:
    for mode in MODES:
        found = held_back(mode)
        if found:
            fault(f'a disk file that is held back, {mode}: {found}')
if length:
    for count in (1, 4):
        for period in (4, 64, 1024):
            for ring in (1, 16, 64):
                long_tracks(count, period, ring)
for k in range(recordings):
    recorded(1, MODES[3 + k % 2], f'recording {k}')
    recorded(4, MODES[4 - k % 2], f'recording {k} by four recorders')
    tracked(1, MODES[4 - k % 2], f'track {k}')
    tracked(4, MODES[3 + k % 2], f'track {k} of four files')

# Which underruns can be with threads, from paper: a player of a file of so many blocks, with a ring of two places, and the cycles
# that miss one. Behind the ring's two, and what was played before the segment, each may miss one, up to the last of the file; of
# a file that ends there, of a freewheel segment and of a player that is not active none may.
UNDERRUNS = (
    (5, 'run 6', [3], True), (5, 'run 6', [3, 4, 5, 6], True), (5, 'run 6', [2], False), (2, 'run 6', [3], False), (3, 'run 6', [4, 5, 6], True),
    (3, 'run 6', [4, 6], False), (5, 'freewheel 6', [3], False), (5, 'freewheel 1, run 5', [4], True), (5, 'freewheel 1, run 5', [3], False),
    (5, 'run 3, run 3', [3, 6], True), (5, 'run 3, run 3', [6], False), (5, 'run 3, run 3', [3, 5], False), (5, 'run 2, do deactivate t, run 4', [4], False),
    (0, 'run 6', [1], False))
for blocks, segments, cycles, can_be in UNDERRUNS:
    lines = [*head(3, 4, 1, 16, 'threads 1', 'ring 2', 'disk 1'), 'do open t disk 0', 'do activate t', *segments.split(', ')]
    script = explained.Script(''.join(f'{line}\n' for line in lines))
    if can_be != (not explained.Play(script, [[]], missed=[cycles], disks=[[[0] * 4 * blocks]]).faults):
        fault(f'explained.py: underruns in the cycles {cycles} of {segments}, of {blocks} blocks')

# What is altered is found: a line that is missing, that stands twice, or that has another number; and one byte of each file. The
# number of a cycle is raised by more than there are calls, since one that is raised by one may be another report that can be.
found = 0
for session, mode, seed in ((eventful, 'steal 2', 2), (tracks, 'serial', 6)):
    lines = session(random.Random(seed), mode)
    disks = disk_files(random.Random(seed), lines)
    run = played(lines, capture, 'altered', disks)
    if not run:
        continue
    script, report, files = run
    lines, altered = report.splitlines(keepends=True), []
    for k, line in enumerate(lines):
        words = line.split()
        others = [[], [line, line]]
        for j, word in enumerate(words):
            if word.isdigit():
                more = 1000 if words[0] == 'cycle' and j == 2 else 1
                others.append([' '.join([*words[:j], str(int(word) + more), *words[j + 1:]]) + '\n'])
        altered += [(''.join(lines[:k] + other + lines[k + 1:]), files) for other in others]
    ends = [it for it in altered if it[0].splitlines()[-6:] != report.splitlines()[-6:]]
    altered = [*chance.sample(altered, min(120, len(altered))), *chance.sample(ends, min(30, len(ends)))]
    altered += [(report, [*files[:k], file[:-3] + bytes([file[-3] ^ 1]) + file[-2:], *files[k + 1:]]) for k, file in enumerate(files) if len(file) > 46]
    found += len(altered)
    for other, held in altered:
        if not explained.faults_of(script, capture, other, held, disks):
            at = next((b for a, b in zip(lines, other.splitlines(keepends=True)) if a != b), 'a file')
            fault(f'an alteration is not found: {at}')

if len(faults) > 40:
    print(f'check-threads: {len(faults)} faults')
if not faults:
    print(f'check-threads: passed, {sessions} sessions, {beside} of them with calls between their cycles, {heard} with events and {missed} with underruns; {runs} runs of one script with {len(reports)} reports; '
          f'{turns * len(MODES[1:])} plays of chains; '
          f'{2 * recordings} recordings, of which {len(lost)} lost a block, and {2 * recordings} plays of disk files, of which {len(lacked)} missed one; {len(MODES) if recordings else 0} disk files held back; '
          f'{found} alterations found; {checked} plays checked by the program')
sys.exit(bool(faults))
PY
