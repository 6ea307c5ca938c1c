#!/usr/bin/env bash
# The worked rows on real files: each folder of tests/rows is played by the program in a folder of its own, and exit code,
# standard output and every byte of every file behind it are compared. No file may be there that the row does not name, and
# script and capture keep their bytes. The files of a row, of which NAME.py stands for a file NAME of what it prints:
#
#   words      the program's words, a line a run; each run ends as the row says
#   s, s-1 ..  the scripts, each played as `s`
#   c          the capture: c.wave as a WAVE file, c.hex by its bytes
#   d, d0 ..   disk files, likewise
#   o          a report, as `o`, for `graph`
#   status     the exit code
#   out        standard output
#   p, r       the files made: NAME.wave as a WAVE file, NAME.hex by its bytes, NAME.size by their number
#
# In place of status and out a row has one of these:
#
#   fronts     how many of the script's fronts are played, and the lines of the others by exit code
#   cuts       of the capture's fronts of FIRST to LAST bytes, a line each: FIRST LAST CODE, and then the fault line, with {} for
#              the bytes, or behind code 0 the playback as a WAVE file
#   disk-cuts  the same of the fronts of the disk file d; behind code 0 stands how many blocks it has, which is {} in `out`, and
#              then the playback
#   faults     a line each: CODE FAULT: TEXT, of the script with TEXT behind it, in which \n and \r are bytes
#   reports    a line each: CODE FAULT: TEXT, of TEXT as the report
#
# A .wave has rate, channels and bits on its first line, and then the samples in the file's units, of which those of 8 bits are
# stored plus 128; 0*20 is a sample twenty times.
#
# A script in serial mode that threads play to the same bytes, in whatever order they run, is played with 1, 2 and 4 workers
# too, as its row says, and where that is a play to its end $TIMES times (1), and as often with workers that steal, as a script of
# version 3. A run that does not end in 60 seconds is a fault.
#
# What a row says of a play that ends well is also what scripts/explained.py computes of its script, capture and disk files.
set -u
# shellcheck source=scripts/program.sh
. "$(dirname "$0")/program.sh" python3

python3 - "$jackd" <<'PY'
import fnmatch, functools, os, re, subprocess, sys, tempfile

sys.dont_write_bytecode = True
sys.path.insert(0, 'scripts')
import explained
from rows import read, wave_of

jackd, top, times = sys.argv[1], 'tests/rows', int(os.environ.get('TIMES', 1))
threads, explained_once = 0, functools.lru_cache(None)(explained.explain)


def with_threads(script, row, steals=False):
    """The script with 1, 2 and 4 workers, if no lane has a call, no recorder's ring has fewer places than `run` cycles, and no disk's
    player may miss a block in these: its ring holds all blocks of its file."""
    lines = [line.split() for line in script.splitlines()]
    first = [line[0] for line in lines if line]
    places = sum(int(line[1]) for line in lines if line[:1] == [b'ring'] and line[1:]) or 16
    cycles = sum(int(line[1]) for line in lines if line[:1] == [b'run'] and line[1:])
    if b'lane' in first or b'recorder' in first and cycles > places:
        return []
    if b'disk' in first and cycles and int(row['status']) == 0:
        period = next(int(line[1]) for line in lines if line[:1] == [b'period'])
        frames = [len(explained.samples_of(held)[0]) for name, held in row.items() if re.fullmatch(r'd\d?', name)]
        if b'\nunderrun ' in row['out'] or max(frames) > places * period:
            return []
    if steals:
        script, versions = re.subn(rb'^jackd [123]$', b'jackd 3', script, count=1, flags=re.M)
        if not versions:
            return []
    mode = b'steal' if steals else b'threads'
    return [script.replace(b'mode serial\n', b'mode %s %d\n' % (mode, workers), 1) for workers in (1, 2, 4) if b'mode serial\n' in script]


def play(words, given):
    """Exit code, standard output, and the files behind a run over the files given."""
    with tempfile.TemporaryDirectory() as folder:
        for name, held in given.items():
            with open(f'{folder}/{name}', 'wb') as it:
                it.write(held)
        try:
            ran = subprocess.run([jackd, *words.split()], cwd=folder, capture_output=True, timeout=60)
        except subprocess.TimeoutExpired:
            return -1, b'no end in 60 seconds', given
        files = {}
        for name in os.listdir(folder):
            with open(f'{folder}/{name}', 'rb') as it:
                files[name] = it.read()
    return ran.returncode, ran.stdout, files


def faults_of_files(files, given, made):
    for name in sorted({*files, *given, *made}):
        if name not in files:
            yield f'no file {name}'
        elif name in given:
            if files[name] != given[name]:
                yield f'{name} has other bytes than before'
        elif name not in made:
            yield f'a file {name}, of {len(files[name])} bytes'
        for wanted in made.get(name, ()) if name in files else ():
            if isinstance(wanted, int) and len(files[name]) != wanted:
                yield f'{name} has {len(files[name])} bytes, not {wanted}'
            elif isinstance(wanted, bytes) and files[name] != wanted:
                yield f'{name} is {files[name].hex()[:400]}, not {wanted.hex()[:400]}'


def faults_of_fronts(row, words, given):
    """The fronts of a script that are played are counted; each other ends with a line that the row tells, and makes no file."""
    lines = [line.split(' ', 1) for line in row['fronts'].decode().splitlines()]
    wanted, lines = int(lines[0][0]), lines[1:]
    script, played = given['s'], 0
    for kept in range(len(script) + 1):
        front = {**given, 's': script[:kept]}
        status, out, files = play(words, front)
        if status == 0:
            played += 1
            continue
        if not any(str(status) == code and fnmatch.fnmatchcase(out.decode(), f'{line}\n') for code, line in lines):
            yield f'the first {kept} bytes: exit code {status}, {out[:200]}'
        yield from (f'the first {kept} bytes: {fault}' for fault in faults_of_files(files, front, {}))
    if played != wanted:
        yield f'{played} fronts are played, not {wanted}'


def faults_of_cuts(row, words, given):
    """Fronts of a capture, or of a disk file, end with their fault line, and make no file, or are played."""
    way, of = ('cuts', 'c') if 'cuts' in row else ('disk-cuts', 'd')
    whole, lines, behind = given[of], row[way].decode().splitlines(), 0
    for line in lines:
        first, last, code, wanted = line.split(' ', 3)
        blocks, wanted = wanted.split(' ', 1) if (of, code) == ('d', '0') else ('', wanted)
        if int(first) != behind:
            yield f'the cuts skip {behind} bytes'
        behind = int(last) + 1
        for kept in range(int(first), behind):
            front = {**given, of: whole[:kept]}
            status, out, files = play(words, front)
            said = row['out'].replace(b'{}', blocks.encode()) if code == '0' else wanted.replace('{}', str(kept)).encode() + b'\n'
            if (str(status), out) != (code, said):
                yield f'the first {kept} bytes: exit code {status}, {out[:200]}'
            made = {words.split()[3]: [wave_of(wanted)]} if code == '0' else {}
            yield from (f'the first {kept} bytes: {fault}' for fault in faults_of_files(files, front, made))
    if behind != len(whole) + 1:
        yield f'the cuts end before {behind} bytes'


def faults_of_texts(row, words, given):
    """Each text behind the script, or as the report, ends with its fault line, and makes no file."""
    way, of, front = ('faults', 's', given['s']) if 'faults' in row else ('reports', 'o', b'')
    for line in row[way].decode().splitlines():
        wanted, _, text = line.partition(': ')
        code, wanted = wanted.split(' ', 1)
        faulty = {**given, of: front + text.replace('\\n', '\n').replace('\\r', '\r').encode()}
        status, out, files = play(words, faulty)
        if (str(status), out.decode()) != (code, f'{wanted}\n'):
            yield f'{text[:80]}: exit code {status}, {out[:200]}'
        yield from (f'{text[:80]}: {fault}' for fault in faults_of_files(files, faulty, {}))


def faults_of_run(row, made, words, given):
    status, out, files = play(words, given)
    if status != int(row['status']):
        yield f'exit code {status}, not {int(row["status"])}'
    if out != row['out']:
        yield f'standard output is {out[-400:]}, not {row["out"][-400:]}'
    yield from faults_of_files(files, given, made)
    if status == 0 and words.startswith('play '):
        words = words.split()
        behind = lambda option: [os.path.normpath(name) for word, name in zip(words, words[1:]) if word == option]
        found, computed = explained_once(given['s'].decode(), given['c'], row['out'].decode(), tuple(given[name] for name in behind('--disk')))
        outputs = [files.get(name, b'') for name in [words[3], *behind('--record')]]
        yield from (f'computed: {fault}' for fault in [*found, *explained.differences(outputs, computed)])


WAYS = {'fronts': faults_of_fronts, 'cuts': faults_of_cuts, 'disk-cuts': faults_of_cuts, 'faults': faults_of_texts, 'reports': faults_of_texts}


def is_given(name):
    """Whether a row's file of this name is given to the program."""
    return re.fullmatch(r'[co]|d\d?', name)


def faults_of_row(folder):
    global threads
    row, made, scripts, runs = {}, {}, [], 0
    for name in sorted(os.listdir(folder)):
        held, stem = read(f'{folder}/{name}'), name.split('.')[0]
        if re.fullmatch(r's(-\d+)?', stem):
            scripts.append(held)
        elif stem in ('words', 'status', 'out', *WAYS) or is_given(stem):
            row[stem] = held
        else:
            made.setdefault(stem, []).append(held)
    way = next((WAYS[it] for it in WAYS if it in row), None)
    if way is None:
        plays = [words for words in row['words'].decode().splitlines() if words.startswith('play ')]
        is_played = int(row['status']) == 0
        ways = (False, True) if is_played else (False,)
        others = [other for script in scripts for steals in ways for other in with_threads(script, row, steals) if plays] * (times if is_played else 1)
        scripts, threads = scripts + others, threads + len(others)
    for script in scripts:
        given = {'s': script, **{name: held for name, held in row.items() if is_given(name)}}
        for words in row['words'].decode().splitlines():
            runs += 1
            found = way(row, words, given) if way else faults_of_run(row, made, words, given)
            yield from (f'{words}: {fault}' for fault in found)
    if not runs:
        yield 'no script or no words'


rows, wrong = sorted(os.listdir(top)), 0
for row in rows:
    faults = list(faults_of_row(f'{top}/{row}'))
    wrong += bool(faults)
    for fault in faults[:5]:
        print(f'check-rows: {row}: {fault}')
print(f'check-rows: {len(rows) - wrong} rows hold, with {threads} plays by threads' + f', {wrong} do not' * bool(wrong))
sys.exit(bool(wrong))
PY
