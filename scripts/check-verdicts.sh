#!/usr/bin/env bash
# The verdicts of `jackd check`, held against those of scripts/verdicts.py, which computes them from docs/FORMATS.md alone. Where
# the program has no `check`, scripts/verdicts.py tells its verdicts alone: that each play is explained, and what is wrong with
# what was changed.
#
# First the cases of tests/verdicts, which scripts/cases.py reads: sessions from paper, each with what is wrong first where a line of
# its report or a byte of its files is another one. A play leaves the report and the files that are written there, but where threads
# choose what is lost; and both verdicts, that of scripts/verdicts.py and that of the program, are the written one. Where a case says
# what was expected and what was seen, standard error tells that.
#
# Each session of examples/, each row of tests/rows that is played to its end, and two sessions of this script are played and
# checked, but those with disk files, which a check refuses: `check ok`. Then reports and files of some of them are changed, some $CHANGES (2,000) in all, chosen by $SEED (0):
#
#   lines       left out, doubled, exchanged with the next; with a CR, a blank too many, a word of another kind
#   numbers     one more, one less, of 19 and 20 digits, past 32 bits, with a 0 in front
#   reports     cut behind and within lines, with lines behind the end, of another version, of another session
#   overruns    told of other cycles of a recorder, with the file that lacks these blocks
#   courses     other orders of calls, numbers of cycles and overruns that can be, with the files that follow from them: `check ok`
#   files       bytes of the header, samples, blocks lost and exchanged, shorter, longer, empty, unfinished
#
# Each part has to be wrong first in some of them. A check writes no file, and tells on standard error what is wrong and nothing
# else. Then the exit codes of what is no case: words, files that are missing, a faulty script, a capture of another form.
set -u
# shellcheck source=scripts/program.sh
. "$(dirname "$0")/program.sh" python3
checks=no
"$jackd" --help | grep -q 'jackd check ' && checks=checks
python3 - "$jackd" "$checks" <<'PY'
import collections, glob, itertools, os, random, re, subprocess, sys, tempfile
from concurrent.futures import ThreadPoolExecutor

sys.dont_write_bytecode = True
sys.path.insert(0, 'scripts')
import explained, verdicts
from cases import all_in, changed_file
from rows import read

jackd, checks, wanted, chance = sys.argv[1], sys.argv[2] == 'checks', int(os.environ.get('CHANGES', 2000)), random.Random(int(os.environ.get('SEED', 0)))
faults, verdicts_told, pool = [], collections.Counter(), ThreadPoolExecutor(os.cpu_count())

# A session of all parts: overruns of two recorders, two meters, bars, latencies, calls on three lanes, a freewheel and two periods.
CLIENTS = (('a', 'gain 300 8'), ('d', 'delay 5'), ('t', 'record 0'), ('u', 'record 1'), ('m', 'meter'), ('n', 'meter'))
EDGES = ('system:capture_1 a:i', 'a:o system:playback_1', 'a:o d:i', 'd:o system:playback_2', 'd:o u:i', 'system:capture_2 t:i', 'a:o m:i', 'system:capture_1 n:i')
WORKED = [
    'jackd 2', 'rate 8000', 'period 8', 'capture 2', 'playback 2 16', 'mode serial', 'ring 2', 'drain 1', 'recorder 2 24', 'recorder 1 8',
    *(line for name, kind in CLIENTS for line in (f'do open {name} {kind}', f'do register {name}:i in audio', f'do register {name}:o out audio', f'do activate {name}')),
    *(f'do connect {edge}' for edge in EDGES),
    'do latency capture system:playback_2', 'do timebase a 120000 4 960', 'do start', 'run 9',
    'lane 1 at 2 connect system:capture_2 d:i', 'lane 1 at 5 connect system:capture_2 d:i', 'lane 1 at 5 disconnect a:o d:i', 'lane 2 at 0 connect system:capture_1 t:i',
    'lane 2 at 4 latency playback d:i', 'lane 3 at 3 deactivate u', 'lane 3 at 6 activate u', 'lane 3 at 6 locate 700',
    'do close n', 'do open n meter', 'freewheel 3', 'lane 1 at 1 connect d:o t:i', 'period 16', 'do stop', 'run 6', 'lane 4 at 2 start', 'lane 1 at 3 close m', 'do open x pass',
]


# A session of events: two logs of one source, a feedback connection, and a list that two players play.
PLAYERS = (('p', 'midiplay 0'), ('q', 'midiplay 1'), ('t', 'midithru'), ('l', 'midilog'), ('n', 'midilog'))
EVENTFUL = [
    'jackd 3', 'rate 8000', 'period 8', 'capture 1', 'playback 1 16', 'mode serial', 'recorder 1 16',
    *(f'event {number % 2} {5 * number} {128 + number:02x}{"".join(f"{number:02x}" for _ in range(number % 4))}' for number in range(24)),
    *(line for name, kind in PLAYERS for line in (f'do open {name} {kind}', f'do register {name}:i in midi', f'do register {name}:o out midi', f'do activate {name}')),
    *(f'do connect {edge}' for edge in ('p:o t:i', 'q:o t:i', 't:o l:i', 't:o n:i', 'n:o q:i', 'q:o n:i', 't:o t:i')),
    'do open m meter', 'do open r record 0', 'do register r:i in audio', 'do activate r', 'do start', 'run 9', 'lane 1 at 4 disconnect p:o t:i', 'lane 1 at 6 connect p:o n:i', 'lane 2 at 7 close l',
    'freewheel 4', 'period 16', 'do open l midilog', 'run 3', 'lane 2 at 1 locate 0',
]


def wave(channels, frames):
    return explained.wave_of(8000, channels, 16, [chance.randrange(-9999, 9999) * 65536 for _ in range(channels * frames)])


def run(words, folder, **more):
    try:
        done = subprocess.run([jackd, *words], cwd=folder, stdout=more.get('stdout', subprocess.PIPE), stderr=subprocess.PIPE, timeout=100)
    except subprocess.TimeoutExpired:
        return -1, b'no end in 100 seconds', ''
    return done.returncode, done.stdout, done.stderr.decode()


def held_in(folder):
    """The bytes of each file of a folder."""
    held = {}
    for name in os.listdir(folder):
        with open(f'{folder}/{name}', 'rb') as it:
            held[name] = it.read()
    return held


class Session:
    """A session that was played: its script `s`, capture `c`, report `o`, playback `p` and records `r0` .."""

    def __init__(self, name, script, capture, top, left=None):
        """Plays it, or takes what a play with threads may have left."""
        self.name, self.folder = name, tempfile.mkdtemp(dir=top)
        self.checker = verdicts.Checker(script.decode(), capture)
        self.outputs = ['p', *(f'r{number}' for number in range(self.checker.most['recorder']))]
        for file, held in {'s': script, 'c': capture, **(left or {})}.items():
            self.write(file, held)
        if not left:
            code, report, told = run(['play', 's', 'c', *self.words(self.outputs)], self.folder)
            if code:
                raise ValueError(f'not played: {code} {report[-200:]} {told}')
            self.write('o', report)
        self.held = held_in(self.folder)
        self.lines = self.held['o'].decode().splitlines()

    @staticmethod
    def words(outputs):
        return [outputs[0], *(word for name in outputs[1:] for word in ('--record', name))]

    def write(self, name, held):
        with open(f'{self.folder}/{name}', 'wb') as it:
            it.write(held)

    def check(self, number, what, changed, wanted=None, seen=None):
        """Checks with some files changed. Anything but what is wanted, or else what is computed, is a fault, and so is a reason without what is seen."""
        files = {**self.held, **changed}
        line, code = verdicts.line_of(self.checker.verdict(files['o'], [files[name] for name in self.outputs]))
        if wanted not in (None, line):
            faults.append(f'{self.name}: {what}: scripts/verdicts.py says {line!r}, and not {wanted!r}')
            line, code = wanted, 0 if wanted == 'check ok\n' else 8
        if not checks:
            return line.split()[2 if code else 1]
        name_of = {name: f'{name}-{number}' if name in changed else name for name in files}
        for name, held in changed.items():
            self.write(name_of[name], held)
        got = run(['check', 's', 'c', name_of['o'], *self.words([name_of[name] for name in self.outputs])], self.folder)
        for name in changed:
            os.remove(f'{self.folder}/{name_of[name]}')
        if got[:2] != (code, line.encode()) or (got[2] == '') != (code == 0):
            faults.append(f'{self.name}: {what}: {got[0]} {got[1]}, and not {code} {line!r}; standard error {got[2]!r}')
        if seen and not got[2].split('\n', 1)[0].endswith(f': {seen}'):
            faults.append(f'{self.name}: {what}: standard error {got[2]!r}, and not {seen!r}')
        return line.split()[2 if code else 1]

    def told(self):
        """What its report tells, and what was heard of that."""
        told = verdicts.Told(self.checker.most, self.held['o'])
        play = self.checker.lanes_in_order(told.calls), tuple(number for number, _ in told.cycles)
        return told, play, self.checker.heard(*play)

    @staticmethod
    def report(lines):
        return {'o': ''.join(f'{line}\n' for line in lines).encode()}


def picked(items, count):
    """The first, the last, and others of them, so many in all."""
    items = list(items)
    ends = [items[0], items[-1]][:min(count, len(items))] if items else []
    return ends + chance.sample(items[1:-1], max(0, min(count - 2, len(items) - 2)))


# Changes, each with its name and the files that are other ones.

OTHER_WORDS = (
    ('stopped', 'starting'), ('starting', 'rolling'), ('rolling', 'stopped'), ('ok', 'OK'), (r'ok \d+', 'refused 16 Exists'), (r'refused \d+ \w+', 'latency 0 0'),
    (r'refused \d+ (\w+)', r'refused 1 \1'), (r'refused \d+ \w+', 'refused 5 NameTaken'), (r'refused \d+ \w+', 'ok 1'), (r'latency', 'ok'), (r'latency \d+ (\d+)', r'latency \1'),
    (' -$', ' 1|1|0'), (r' \d+\|\d+\|\d+$', ' -'), (r'\|(\d+)$', r'|\1|\1'), ('^call', 'cycle'), ('^cycle', 'call'), ('^overrun', 'underrun'), ('^recorder', 'disk'),
    (r'^meter (\w+)', r'meter \1x'), (r'^meter (\w+)', r'midi \1 1 0'), (r'^midi (\w+)', r'midi \1x'), (r'^midi (\w+)', 'midi a:b'), ('^midi', 'meter'),
    (r'^(midi .*)..$', r'\1'), (r'^(midi .*)$', r'\g<1>00'), (r'^(midi .*).$', r'\1'), (r'^(midi .*)..$', r'\1FF'), (r'^(midi .*)$', r'\g<1>' + '00' * 16), (r'^meter (\w+)', 'meter a:b'), ('^end', 'End'), ('^report 1', 'report 2'), ('^report 1', 'report'), ('^report 1', 'jackd 1'),
    ('$', '\r'), ('$', ' '), ('$', ' 1'), ('^', ' '), (' ', '  '), (' ', '\t'), ('^', '\n'), ('^', '# '), (r'(\w+)$', r'\1\0'), (r'(\w+)$', '\\1\xe9'), ('$', ' ' * 600),
)


def numbers_for(number):
    return [number + 1, number - 1, 9999999999999999999, 10**19, 2**32 - 1, 2**32, f'0{number}', 2**32 + number]


def changed_lines(session):
    lines, kinds = session.lines, collections.defaultdict(list)
    for at, line in enumerate(lines):
        kinds[line.split()[0]].append(at)
    for at in sorted(at for places in kinds.values() for at in set(picked(places, 4))):
        line, front, rest = lines[at], lines[:at], lines[at + 1:]
        what = f'line {at + 1}'
        yield f'{what} left out', session.report([*front, *rest])
        yield f'{what} doubled', session.report([*front, line, line, *rest])
        if rest:
            yield f'{what} exchanged with the next', session.report([*front, rest[0], line, *rest[1:]])
        for number in re.finditer(r'\b[0-9]+\b', line):
            for other in numbers_for(int(number[0])):
                yield f'{what}, {number[0]} at {number.start()} as {other}', session.report([*front, f'{line[:number.start()]}{other}{line[number.end():]}', *rest])
        for old, new in OTHER_WORDS:
            other = re.sub(old, new, line, count=1)
            if other != line:
                yield f'{what} as {other[:60]!r}', {'o': session.report([*front, other, *rest])['o'].decode().encode('latin-1')}


def changed_reports(session, others):
    report, lines = session.held['o'], session.lines
    yield 'an empty report', {'o': b''}
    yield 'no LF behind the end', {'o': report[:-1]}
    yield 'CRLF', {'o': report.replace(b'\n', b'\r\n')}
    yield 'a BOM', {'o': b'\xef\xbb\xbf' + report}
    for more in (b'end\n', b'\n', b' ', b'report 1\n', b'\0', report):
        yield f'{more[:9]} behind the end', {'o': report + more}
    for at in picked(range(len(lines)), 8):
        yield f'cut behind {at} lines', session.report(lines[:at])
    for at in picked(range(1, len(report)), 8):
        yield f'cut behind {at} bytes', {'o': report[:at]}
    calls = [at for at, line in enumerate(lines) if line.startswith('call ')]
    for one, other in {tuple(sorted(chance.sample(calls, 2))) for _ in range(8)} if len(calls) > 1 else ():
        exchanged = list(lines)
        exchanged[one], exchanged[other] = lines[other], lines[one]
        yield f'lines {one + 1} and {other + 1} exchanged', session.report(exchanged)
        words = [lines[at].split(' ', 3) for at in (one, other)]
        exchanged[one], exchanged[other] = (' '.join([*words[1 - it][:3], words[it][3]]) for it in (0, 1))
        yield f'the calls of lines {one + 1} and {other + 1} exchanged, and not their replies', session.report(exchanged)
    for other in chance.sample(others, min(3, len(others))):
        yield f'the report of {other.name}', {'o': other.held['o']}


def with_overruns(session, recorder, overruns):
    """The report with these overruns of a recorder, and the file that lacks their blocks."""
    told, play, heard = session.told()
    told.overruns = [it for it in told.overruns if it[0] != recorder] + [(recorder, *it) for it in overruns]
    blocks = len(session.checker.kept(told, heard, recorder))
    at = next(at for at, line in enumerate(session.lines) if line.startswith(f'recorder {recorder} '))
    behind = at + 1 + int(session.lines[at].split()[3])
    rows = [f'recorder {recorder} {blocks} {len(overruns)}', *(f'overrun {recorder} {cycle} {sent} {taken}' for cycle, sent, taken in overruns)]
    return {**session.report([*session.lines[:at], *rows, *session.lines[behind:]]), f'r{recorder}': session.checker.record(told, heard, play, recorder)}


def changed_overruns(session):
    """Overruns that are left out, added and moved, each with the counts of a full ring; the blocks of these are in no file."""
    (told, _, heard), ring, cycles = session.told(), session.checker.script.ring, session.checker.script.cycles
    for recorder in range(session.checker.most['recorder']):
        base = [it[1] for it in told.overruns if it[0] == recorder]

        def counted(lost):
            kept = [cycle for cycle in heard.active[recorder] if cycle not in lost]
            before = [sum(other < cycle for other in kept) for cycle in lost]
            return [(cycle, sent, max(0, sent - ring)) for cycle, sent in zip(lost, before)]

        for lost in ([], base, base[1:], base[:-1], base[::-1], [0, *base], [*base, cycles + 1], [*base, 9999999999999999999], [*base, *base[-1:]], list(range(1, cycles + 1))):
            yield f'recorder {recorder} lost the blocks of {lost[:9]}', with_overruns(session, recorder, counted(lost))
        for cycle in picked(range(1, cycles + 1), 12):
            lost = sorted({*base, cycle})
            yield f'recorder {recorder} lost the block of {cycle} too', with_overruns(session, recorder, counted(lost))


def other_courses(session, count):
    """Other orders, numbers and overruns that can be, with what follows from them."""
    checker, script = session.checker, session.checker.script
    for it in range(count):
        lanes = []
        for calls, segment in script.phases:
            lanes += [0] * len(calls)
            left = [lane for lane, others in segment.lanes.items() for _ in others]
            chance.shuffle(left)
            lanes += left
        replay = checker.replay(tuple(lanes))
        most, numbers, before = {}, [], 0
        for k in range(script.cycles, 0, -1):
            phase = checker.phase_of[k - 1]
            high = min(replay.below(2 * phase + 2), replay.least.get(k, len(replay.accepted)))
            most[k] = min(high, most.get(k + 1, high))
        for k in range(1, script.cycles + 1):
            low = max(before, replay.below(2 * checker.phase_of[k - 1] + 1))
            before = chance.choice([low, chance.randint(low, most[k])])
            numbers.append(before)
        heard, lost = checker.heard(tuple(lanes), tuple(numbers)), []
        for active in heard.active:
            cycles, kept = [], []
            for k in active:
                segment = checker.turns[k - 1]
                begun = sum(other < segment.first for other in kept) if script.threads else 0
                full = len(kept) - script.ring >= begun and not segment.freewheel
                (cycles if full and chance.random() < 0.6 else kept).append(k)
            lost.append(cycles)
        made = explained.Play(script, checker.capture, lanes, numbers, lost)
        changed = {'o': made.report().encode(), **dict(zip(session.outputs, made.files()))}
        if made.faults or checker.verdict(changed['o'], [changed[name] for name in session.outputs]):
            faults.append(f'{session.name}: course {it} is not one that can be: {made.faults[:1]}')
        yield f'course {it}', changed


def changed_files(session, others):
    for place, name in enumerate(session.outputs):
        file = session.held[name]
        frame = int.from_bytes(file[32:34], 'little')
        width = int.from_bytes(file[34:36], 'little') // 8
        block = session.checker.script.phases[0][1].period * frame
        for at in [*range(44), *(it for it in (44, 44 + width - 1, 44 + width, len(file) - width, len(file) - 1) if 44 <= it < len(file)), *picked(range(44, len(file)), 8)]:
            for flipped in (1, 128) if at >= 44 else (1,):
                yield f'byte {at} of {name}', {name: file[:at] + bytes([file[at] ^ flipped]) + file[at + 1:]}
        for kept in {0, 1, 43, 44, 45, len(file) - 1, len(file) - width, len(file) - frame, *picked(range(44, len(file) + 1), 4)}:
            if 0 <= kept < len(file):
                yield f'the first {kept} bytes of {name}', {name: file[:kept]}
        for more in (b'\0', b'\1', b'\0' * frame, file):
            yield f'{name} with {len(more)} bytes behind it', {name: file + more}
        yield f'{name} unfinished', {name: file[:4] + b'\xff' * 4 + file[8:40] + b'\xff' * 4 + file[44:]}
        for at in picked(range(44, len(file) - 2 * block + 1, block), 4):
            cut = file[:at] + file[at + block:]
            yield f'{name} lacks a block at {at}', {name: cut}
            sizes = [(len(cut) - less).to_bytes(4, 'little') for less in (8, 44)]
            yield f'{name} lacks a block at {at}, and its sizes say so', {name: cut[:4] + sizes[0] + cut[8:40] + sizes[1] + cut[44:]}
            yield f'{name} has two blocks at {at} exchanged', {name: file[:at] + file[at + block:at + 2 * block] + file[at:at + block] + file[at + 2 * block:]}
        for other in session.outputs[place + 1:]:
            yield f'{name} and {other} exchanged', {name: session.held[other], other: file}
        other = chance.choice(others)
        yield f'{name} of {other.name}', {name: other.held['p']}
        yield f'{name} of no sample', {name: explained.wave_of(session.checker.script.rate, *((session.checker.script.playback, session.checker.script.bits) if name == 'p' else session.checker.script.recorders[place - 1]), [])}


def changes_of(session, others, courses):
    """All changes of a session, by kinds."""
    return [list(it) for it in (
        changed_lines(session), changed_reports(session, others), changed_overruns(session), other_courses(session, courses), changed_files(session, others))]


def judge(session, changes):
    for part in pool.map(lambda numbered: session.check(numbered[0], *numbered[1]), enumerate(changes)):
        verdicts_told[part] += 1


def judge_cases(folder, cases, top):
    """Plays a session from paper, and checks its report and its files as they are and in each case."""
    paper = {name.split('.')[0]: read(f'{folder}/{name}') for name in os.listdir(folder) if name not in ('lines', 'changes', 'files')}
    paper['o'] = cases.report.encode()
    with_threads = b'\nmode serial' not in paper['s']
    session = Session(os.path.basename(folder), paper['s'], paper['c'], top, paper if with_threads else None)
    for name in sorted({*paper, *session.held}):
        if paper.get(name) != session.held.get(name):
            faults.append(f'{session.name}: a play leaves another file {name} than is written there')
    judge(session, [(what, {'o': report.encode()}, line_for(wrong), cases.told.get(what)) for what, report, wrong in [('as it is', cases.report, 'ok'), *cases.all]])
    judge(session, [case_of_file(paper[case[1]], cases, *case) for case in cases.files])
    return session


def line_for(wrong):
    return 'check ok\n' if wrong == 'ok' else f'check wrong {wrong}\n'


def case_of_file(held, cases, what, name, how, wrong):
    """A case of a file, with what standard error has of the place where it is wrong."""
    changed, seen = changed_file(held, how), cases.told[what]
    if seen:
        place = int(wrong.split()[-1])
        seen = seen.format(place, old=held[place:place + 1].hex() and held[place], new=changed[place:place + 1].hex() and changed[place])
    return what, {name: changed}, line_for(wrong), seen


# What is no case, by the words at these places, and what is answered in its place.
NO_CASES = (
    ({0: 'Check'}, 2, 'fault 2 words'), ({3: ''}, 2, 'fault 2 words'), ({4: '-x'}, 2, 'fault 2 words'), ({4: 'c'}, 2, 'fault 2 words'), ({-2: '--records'}, 2, 'fault 2 words'),
    ({1: 'nothing'}, 3, 'fault 3 read'), ({2: 'nothing'}, 3, 'fault 3 read'), ({3: 'nothing'}, 3, 'fault 3 read'), ({4: 'nothing'}, 3, 'fault 3 read'), ({-1: 'nothing'}, 3, 'fault 3 read'),
    ({3: '.'}, 3, 'fault 3 read'), ({3: 'text', -1: 'nothing'}, 3, 'fault 3 read'), ({2: 'text'}, 4, 'fault 4 wave NotRiff'), ({2: 'text', 3: 'nothing'}, 4, 'fault 4 wave NotRiff'),
    ({1: 'faulty'}, 5, 'fault 5 script 1 Choice'), ({1: 'later'}, 5, 'fault 5 script 1 Choice'), ({1: 'text'}, 5, 'fault 5 script 1 Header'),
    ({1: 'faster'}, 7, 'fault 7 differs Rate 9000 8000'), ({1: 'wider'}, 7, 'fault 7 differs Channels 3 2'), ({1: 'faster', 3: 'nothing'}, 7, 'fault 7 differs Rate 9000 8000'),
    ({3: 'text'}, 8, 'check wrong report 1'),
)


def judge_words(session):
    words, script = ['check', 's', 'c', 'o', *session.words(session.outputs)], session.held['s']
    with_disk = script.replace(b'jackd 2', b'jackd 3', 1).replace(b'recorder 1 8\n', b'recorder 1 8\ndisk 1\n', 1).replace(b'\nperiod 16\n', b'\n', 1)
    files = {
        'text': b'no WAVE file', 'faulty': script.replace(b'jackd 2', b'jackd 9', 1), 'later': with_disk,
        'faster': script.replace(b'rate 8000', b'rate 9000', 1), 'wider': script.replace(b'capture 2', b'capture 3', 1),
    }
    for name, held in files.items():
        session.write(name, held)
    cases = [([*words, 'more'], 2, 'fault 2 words'), ([*words, '--record'], 2, 'fault 2 words'), (words[:4], 2, 'fault 2 words'), (words[:-2], 7, 'fault 7 differs Records 2 1')]
    for changed, code, line in NO_CASES:
        other = list(words)
        for place, word in changed.items():
            other[place] = word
        cases.append((other, code, line))
    for other, code, line in cases:
        got = run(other, session.folder)
        if got[:2] != (code, f'{line}\n'.encode()) or not got[2]:
            faults.append(f'{" ".join(other)}: {got}, and not {code} {line}')
    if os.path.exists('/dev/full'):
        with open('/dev/full', 'wb') as full:
            got = run(words, session.folder, stdout=full)
        if got[0] != 6 or not got[2]:
            faults.append(f'a full standard output: {got}')
    for name in files:
        os.remove(f'{session.folder}/{name}')


def has_disks(script):
    """Whether a script has a disk file: a check refuses it."""
    return re.search(rb'^disk ', read(script), re.M)


def sessions_in(top):
    """The sessions of this script, those of examples/ and those of tests/rows, each with its name, script and capture."""
    text = ''.join(f'{line}\n' for line in WORKED)
    capture = wave(2, 100)
    yield 'worked', text.encode(), capture
    yield 'worked, with threads', text.replace('mode serial', 'mode threads 2').encode(), capture
    yield 'worked, with events', ''.join(f'{line}\n' for line in EVENTFUL).encode(), wave(1, 100)
    os.mkdir(f'{top}/captures')
    subprocess.run([sys.executable, '-B', 'examples/captures.py', f'{top}/captures'], check=True)
    for script in sorted(glob.glob('examples/*.session')):
        name = os.path.basename(script).removesuffix('.session')
        if has_disks(script):
            continue
        yield name, read(script), read(f'{top}/captures/{name}.capture.wav')
    for row in sorted(os.listdir('tests/rows')):
        files = {name.split('.')[0]: f'tests/rows/{row}/{name}' for name in os.listdir(f'tests/rows/{row}')}
        if 'status' in files and int(read(files['status'])) == 0 and any(line.startswith(b'play ') for line in read(files['words']).splitlines()):
            for script in sorted(name for name in files if re.fullmatch(r's(-\d+)?', name)):
                if not has_disks(files[script]):
                    yield f'{row}/{script}', read(files[script]), read(files['c'])


with tempfile.TemporaryDirectory() as top:
    worked = [judge_cases(folder, cases, top) for folder, cases in all_in('tests/verdicts')]
    from_paper = sum(verdicts_told.values())
    sessions = []
    for name, script, capture in sessions_in(top):
        try:
            sessions.append(Session(name, script, capture, top))
        except ValueError as fault:
            faults.append(f'{name}: {fault}')
    for session in sessions:
        if session.check(0, 'as it was played', {}) != 'ok':
            faults.append(f'{session.name}: what was played is not explained, by scripts/verdicts.py')

    # All changes of the first session, and of some others as many as are wanted besides, by turns of their kinds.
    rows = ('a_ring_that_is_full_loses_blocks/s', 'four_recorders_have_files_of_their_own/s', 'a_lane_asks_and_is_refused_beside_the_cycles/s', 'a_freewheel_segment_loses_no_block/s')
    others = [session for session in sessions if '/' not in session.name or session.name in rows]
    if others:
        first = changes_of(others[0], others[1:], 20)
        judge(others[0], list(itertools.chain(*first)))
        if checks:
            judge_words(others[0])
        left = max(0, wanted - sum(map(len, first))) // max(1, len(others) - 1)
        for session in others[1:]:
            kinds = changes_of(session, [it for it in others if it is not session], 5)
            for kind in kinds:
                chance.shuffle(kind)
            judge(session, list(filter(None, itertools.chain(*itertools.zip_longest(*kinds))))[:left])
    for session in [*worked, *sessions]:
        if held_in(session.folder) != session.held:
            faults.append(f'{session.name}: a check changed its files')

changes = sum(verdicts_told.values()) - from_paper
for part in ('ok', 'report', 'call', 'cycle', 'meter', 'midi', 'recorder', 'overrun', 'record', 'playback'):
    if verdicts_told[part] < min(10, wanted // 200):
        faults.append(f'{verdicts_told[part]} changes are answered by {part}')
for fault in faults[:40]:
    print('check-verdicts:', fault)
if not faults:
    alone = '' if checks else ', by scripts/verdicts.py alone, since the program has no check'
    print(f'check-verdicts: passed{alone}: {len(sessions)} plays are explained; {from_paper} cases from paper and {changes} changes, answered by', ', '.join(f'{part} {count}' for part, count in sorted(verdicts_told.items())))
sys.exit(bool(faults))
PY
