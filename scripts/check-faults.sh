#!/usr/bin/env bash
# What the system refuses in the middle of a file is told, and no file is lost by it. Over the program as it stands, strace
# refuses one read of a file, or one write to it, or the sync at its end, as a broken disk does: each one of a play and of a
# check, from the first to the last, each in a run of its own. Then the exit code is 3 or 6, standard output says so, standard
# error names the file, what was given is as it was, and what was written is a front of what should have been, but for the
# sizes in its header. So it is with a disk file in serial mode; with threads, where a thread may come to fewer reads than in
# another run, the first is refused at least, and blocks that its reader did not bring may be silent in that front. A call that a
# signal interrupts is made again, a file system that can't sync is no failure, and with --no-sync no file is synced. How many calls
# of which kind were refused is told.
set -u
# shellcheck source=scripts/program.sh
. "$(dirname "$0")/program.sh" python3 strace

checks=no syncs=no
"$jackd" --help | grep -q 'jackd check ' && checks=checks
"$jackd" --help | grep -q -e --no-sync && syncs=syncs
python3 - "$jackd" "$checks" "$syncs" <<'PY'
import os, struct, subprocess, sys, tempfile

jackd, checks, syncs = sys.argv[1], sys.argv[2] == 'checks', sys.argv[3] == 'syncs'
faults, runs, refusals = [], 0, {}
CYCLES, PERIOD = 4000, 16

SCRIPT = '\n'.join([
    'jackd 1', 'rate 48000', f'period {PERIOD}', 'capture 2', 'playback 2 16', 'mode serial', 'recorder 2 16',
    'do connect system:capture_1 system:playback_1', 'do connect system:capture_2 system:playback_2',
    'do open tape record 0', 'do register tape:l in audio', 'do register tape:r in audio', 'do activate tape',
    'do connect system:capture_1 tape:l', 'do connect system:capture_2 tape:r', *['#' * 200] * 600, f'run {CYCLES}', ''])
# The playback is what the disk file has, and with threads there is no record, of which blocks might be lost.
PLAYER = ['do open d disk 0', 'do register d:l out audio', 'do register d:r out audio', 'do activate d', 'do connect d:l system:playback_1', 'do connect d:r system:playback_2']
OF_DISK = SCRIPT.replace('jackd 1', 'jackd 3').replace('\nrecorder 2 16', '\nrecorder 2 16\ndisk 2').replace(
    'do connect system:capture_1 system:playback_1\ndo connect system:capture_2 system:playback_2', '\n'.join(PLAYER))
WITH_THREADS = '\n'.join(['jackd 3', 'rate 48000', f'period {PERIOD}', 'capture 2', 'playback 2 16', 'mode threads 2', 'disk 2', *PLAYER, f'run {CYCLES}', f'freewheel {CYCLES}', ''])


def wave(step):
    samples = [(k * step) % 65536 - 32768 for k in range(2 * CYCLES * PERIOD)]
    data = struct.pack(f'<{len(samples)}h', *samples)
    return b'RIFF' + struct.pack('<I', 36 + len(data)) + b'WAVEfmt ' + struct.pack('<IHHIIHH', 16, 1, 2, 48000, 192000, 4, 16) + b'data' + struct.pack('<I', len(data)) + data


CAPTURE, DISK = wave(7919), wave(104729)


def held(name):
    with open(name, 'rb') as it:
        return it.read()


def run(words, call='', name='', number=0, error='EIO'):
    """The program's exit code, standard output and standard error, where this call on this file is refused, from 1."""
    global runs
    runs += 1
    traced = ['strace', '-f', '-qq', '-o', 'trace', '-P', os.path.realpath(name), '-e', f'trace={call}'] if call else []
    refused = ['-e', f'inject={call}:error={error}:when={number}'] if number else []
    try:
        ran = subprocess.run([*traced, *refused, jackd, *words], capture_output=True, timeout=100)
    except subprocess.TimeoutExpired:
        return None, '', 'no end in 100 seconds'
    return ran.returncode, ran.stdout.decode(), ran.stderr.decode()


def calls(words, call, name):
    """How many of these calls there are on a file."""
    run(words, call, name)
    return sum(f'{call}(' in line for line in held('trace').decode().splitlines())


def sized(name, wanted):
    """A file's bytes with the sizes that its header should have."""
    there = bytearray(held(name)) if os.path.exists(name) else bytearray()
    for place in (4, 40):
        there[place:place + 4] = wanted[place:place + 4][:max(0, len(there) - place)]
    return bytes(there)


def front(name, wanted):
    """Whether a file is a front of these bytes, but for the sizes in its header."""
    return wanted.startswith(sized(name, wanted))


def front_with_silence(name, wanted):
    """The same where a block may be silent: the next one that is not goes on behind the last one that was not."""
    there, size, place = sized(name, wanted), 4 * PERIOD, 44
    for block in (there[at:at + size] for at in range(44, len(there), size)):
        if any(block):
            if not wanted[place:place + size].startswith(block):
                return False
            place += size
    return wanted.startswith(there[:44]) and len(there) <= len(wanted)


def refused(what, words, call, name, code, line, given, made, front=front):
    count = calls(words, call, name)
    if not count:
        faults.append(f'{what}: there is no {call} of {name} to be refused')
    for number in range(1, count + 1):
        case = f'{what}: {call} {number} of {name} refused'
        ended, out, told = run(words, call, name, number)
        if front is front_with_silence and number > 1 and not ended:
            continue
        if ended != code:
            faults.append(f'{case}: exit code {ended}, not {code}')
        refusals[what, call] = refusals.get((what, call), 0) + 1
        if line is not None and out != line:
            faults.append(f'{case}: standard output is {out[-100:]!r}')
        first = told.splitlines()[0] if told else ''
        if name not in first or 'Input/output error' not in first:
            faults.append(f'{case}: standard error begins {first!r}')
        for file, bytes_given in given.items():
            if held(file) != bytes_given:
                faults.append(f'{case}: {file} was changed')
        for file, bytes_wanted in made.items():
            if not front(file, bytes_wanted):
                faults.append(f'{case}: {file} is no front of what should have been written')


def passed(what, words, call, name, error, made):
    """A call that is refused with this error is no failure."""
    for number in range(1, calls(words, call, name) + 1):
        ended, _, told = run(words, call, name, number, error)
        if ended or told or any(held(file) != wanted for file, wanted in made.items()):
            faults.append(f'{what}: {call} {number} of {name} refused with {error}: exit code {ended}, {told!r}, or another file')


with tempfile.TemporaryDirectory() as folder:
    os.chdir(folder)
    given = {'the.script': SCRIPT.encode(), 'the.capture': CAPTURE, 'of.disk': OF_DISK.encode(), 'with.threads': WITH_THREADS.encode(), 'the.disk': DISK}
    for name, bytes_given in given.items():
        with open(name, 'wb') as it:
            it.write(bytes_given)
    play = ['play', 'the.script', 'the.capture', 'the.playback', '--record', 'the.record']
    code, report, told = run(play)
    if code or held('the.playback') != CAPTURE or held('the.record') != CAPTURE:
        faults.append(f'a play: exit code {code}, or the files are not the capture: {told}')
    else:
        made = {'the.playback': CAPTURE, 'the.record': CAPTURE}
        for name in ('the.script', 'the.capture'):
            refused('play', play, 'read', name, 3, 'fault 3 read\n', given, made)
            passed('play', play, 'read', name, 'EINTR', made)
        for name in made:
            refused('play', play, 'write', name, 6, None, given, made)
            passed('play', play, 'write', name, 'EINTR', made)
            if syncs:
                if calls(play, 'fsync', name) != 1 or calls([*play, '--no-sync'], 'fsync', name):
                    faults.append(f'{name} is not synced once, or with --no-sync')
                refused('play', play, 'fsync', name, 6, None, given, made)
                passed('play', play, 'fsync', name, 'EINTR', made)
                passed('play', play, 'fsync', name, 'EINVAL', made)
        of_disk = ['play', 'of.disk', *play[2:], '--disk', 'the.disk']
        code, _, told = run(of_disk)
        made_of_disk = {'the.playback': DISK, 'the.record': CAPTURE}
        if code or any(held(name) != wanted for name, wanted in made_of_disk.items()):
            faults.append(f'a play of a disk file: exit code {code}, or the files are not the disk file and the capture: {told}')
        for name in ('of.disk', 'the.capture', 'the.disk'):
            refused('play of a disk file', of_disk, 'read', name, 3, 'fault 3 read\n', given, made_of_disk)
        passed('play of a disk file', of_disk, 'read', 'the.disk', 'EINTR', made_of_disk)
        for name in made_of_disk:
            refused('play of a disk file', of_disk, 'write', name, 6, None, given, made_of_disk)
        with_threads = ['play', 'with.threads', *play[2:4], '--disk', 'the.disk']
        for name in ('with.threads', 'the.capture', 'the.disk'):
            refused('play of a disk file with threads', with_threads, 'read', name, 3, 'fault 3 read\n', given, {'the.playback': DISK}, front_with_silence)
        refused('play of a disk file with threads', with_threads, 'write', 'the.playback', 6, None, given, {'the.playback': DISK}, front_with_silence)
        if checks:
            run(play)
            given.update(made)
            given['the.report'] = report.encode()
            with open('the.report', 'w') as it:
                it.write(report)
            check = ['check', 'the.script', 'the.capture', 'the.report', *play[3:]]
            if run(check)[:2] != (0, 'check ok\n'):
                faults.append('a check of the play is not ok')
            for name in ('the.script', 'the.capture', 'the.report', *made):
                refused('check', check, 'read', name, 3, 'fault 3 read\n', given, {})

for fault in faults[:40]:
    print('check-faults:', fault)
if not faults:
    print(f'check-faults: passed, {runs} runs; refused were', ', '.join(f'{count} of {call} in a {what}' for (what, call), count in refusals.items()))
sys.exit(bool(faults))
PY
