#!/usr/bin/env bash
# The graph of each cycle of each session of examples/, and of some rows of tests/rows, is the one that scripts/graphs.py
# computes from the script and the report. With --dot it has the boxes and the arrows that scripts/digraphs.py asks for, also
# where names are words of graphviz, and graphviz draws them, the capture left and the playback right of all; without graphviz
# that is left out. The pictures of the tutorial are those of its sessions. Reports with a number that is one higher or lower,
# and with a line left out, doubled or exchanged with the next, are answered as scripts/graphs.py answers them: what stands
# behind the cycle's line changes nothing. The same holds of the reports of tests/graphs, which no play prints, and what is
# wrong in each of their cases is what is written there (scripts/cases.py reads them). Then the faults of words, files, scripts
# and standard output, and how long the last of 1,000,000 cycles takes.
set -u
# shellcheck source=scripts/program.sh
. "$(dirname "$0")/program.sh" python3
folder=$(mktemp -d)
trap 'rm -rf "$folder"' EXIT
python3 - "$jackd" "$folder" <<'PY'
import glob, html, os, re, shutil, subprocess, sys, time
from concurrent.futures import ThreadPoolExecutor

sys.path.insert(0, 'scripts')
import digraphs
from cases import all_in
from graphs import Script, answer

program, folder = os.path.abspath(sys.argv[1]), sys.argv[2]
faults, pictures, graphs, dots, changed, refused = [], [], 0, 0, 0, 0
pool = ThreadPoolExecutor(os.cpu_count())


def ask(*words, **more):
    done = subprocess.run([program, 'graph', *words], stdout=subprocess.PIPE, stderr=subprocess.PIPE, timeout=100, **more)
    return done.returncode, done.stdout.decode(), done.stderr.decode()


def draw(name, script, report, cycle, lines):
    """Whether the digraph of a cycle is that of its graph's lines; it is kept for graphviz."""
    global dots
    code, text, _ = ask(script, report, str(cycle), '--dot')
    dots += 1
    wrong = digraphs.faults(text, lines)
    if code or wrong:
        faults.append(f'{name}: cycle {cycle} --dot: {code} {wrong}')
    return f'{name}: cycle {cycle}', text, lines


def lay(name, text, lines):
    """Whether graphviz reads this digraph, and draws the capture left and the playback right of all, and each direct connection to the right."""
    laid, wanted = digraphs.Laid(text), digraphs.wanted(lines)
    if laid.code or laid.warnings:
        return [f'{name}: graphviz: {laid.code} {laid.warnings}']
    arrows = [(source, destination, looks) for source, destination, looks in wanted['arrows']]
    if sorted(laid.boxes) != sorted(wanted['boxes']) or laid.arrows != sorted((':'.join(one), ':'.join(other)) for one, other, _ in arrows):
        return [f'{name}: graphviz draws {laid.boxes} and {laid.arrows}']
    pairs = [(one[0], other[0]) for one, other, looks in arrows if 'constraint' not in looks]
    for it in laid.boxes:
        pairs += [('system:capture', it)] if it != 'system:capture' else []
        pairs += [(it, 'system:playback')] if it != 'system:playback' else []
    return [f'{name}: graphviz draws {one} right of {other}' for one, other in pairs if laid.boxes[one] >= laid.boxes[other]]


def compare(name, script, report, cycle):
    """Whether the program answers as scripts/graphs.py does."""
    got = ask(script, report, str(cycle))
    wanted = answer(open(script).read(), open(report).read(), cycle)
    if got[:2] != wanted:
        faults.append(f'{name}: cycle {cycle}: {got[:2]}, and not {wanted}')
    if (got[2] == '') != (got[0] == 0):
        faults.append(f'{name}: cycle {cycle}: standard error {got[2]!r}')
    return got


def changes(lines):
    """Each report that differs by one number, or by a line left out, doubled or exchanged with the next."""
    step = 1 + len(lines) // 25
    for at in range(0, len(lines), step):
        line, front, rest = lines[at], lines[:at], lines[at + 1:]
        for number in re.finditer(r'\b[0-9]+\b', line):
            for other in (int(number[0]) + 1, int(number[0]) - 1):
                yield at, [*front, line[:number.start()] + str(other) + line[number.end():], *rest]
        yield at, [*front, *rest]
        yield at, [*front, line, line, *rest]
        if rest:
            yield at, [*front, rest[0], line, *rest[1:]]


def session(name, script, report):
    """All cycles of a session, and its report with changes, of its cycle in the middle and of its last."""
    global graphs, changed, refused
    count = Script(open(script).read()).cycles
    cycles = range(1, count + 1)
    told = list(pool.map(lambda cycle: compare(name, script, report, cycle), cycles))
    graphs += count
    for cycle, (code, lines, _) in zip(cycles, told):
        if code:
            faults.append(f'{name}: cycle {cycle} has no graph')
        elif cycle % 25 == 1 or cycle == count:
            pictures.append(draw(name, script, report, cycle, lines))
    held = open(report).read().splitlines()
    if not count:
        return
    for cycle in sorted({(count + 1) // 2, count}):
        last = next(at for at, line in enumerate(held) if line.startswith(f'cycle {cycle} '))

        def change(numbered):
            number, (at, lines) = numbered
            other = f'{folder}/changed{number}'
            open(other, 'w').write(''.join(line + '\n' for line in lines))
            got = compare(f'{name} with line {at + 1} changed', script, other, cycle)
            os.remove(other)
            return at, got

        for at, got in pool.map(change, enumerate(changes(held))):
            changed += 1
            refused += got[0] == 8
            if at > last and got[:2] != told[cycle - 1][:2]:
                faults.append(f'{name}: line {at + 1} is behind cycle {cycle}, and changes its graph')


def play(script, capture, place):
    report = f'{place}/report'
    recorders = sum(line.split()[:1] == ['recorder'] for line in open(script))
    words = [program, 'play', script, capture, f'{place}/p.wav']
    for number in range(recorders):
        words += ['--record', f'{place}/r{number}.wav']
    done = subprocess.run(words, stdout=open(report, 'w'), stderr=subprocess.DEVNULL)
    return report if done.returncode == 0 else None


def capture_of(path, channels, rate):
    frame = channels * 2
    head = b'WAVEfmt ' + b''.join(it.to_bytes(size, 'little') for it, size in
        ((16, 4), (1, 2), (channels, 2), (rate, 4), (rate * frame, 4), (frame, 2), (16, 2))) + b'data' + (0).to_bytes(4, 'little')
    open(path, 'wb').write(b'RIFF' + len(head).to_bytes(4, 'little') + head)


ROWS = ('a_loop_of_two_is_late_by_one_cycle', 'a_midi_connection_orders_its_clients', 'a_latency_is_least_and_greatest_of_all_ways',
        'a_refused_call_tells_its_first_refusal', 'a_deactivated_client_is_silent_from_the_next_cycle', 'a_recorder_is_opened_once',
        'a_port_registered_again_was_silent_before', 'the_input_behind_sixteen_is_refused', 'the_client_behind_sixty_four_is_refused',
        'the_connection_behind_512_is_refused', 'a_midi_loop_is_late_by_one_cycle', 'a_closed_log_keeps_its_events', 'a_lane_asks_and_is_refused_beside_the_cycles')

for script in sorted(glob.glob('examples/*.session')):
    report = script.replace('.session', '.report')
    session(os.path.basename(script), script, report)
for row in ROWS:
    for script in sorted(it for it in glob.glob(f'tests/rows/{row}/s*') if not it.endswith('status')):
        words = open(script).read().split()
        place = f'{folder}/row'
        os.makedirs(place, exist_ok=True)
        capture_of(f'{place}/c.wav', int(words[words.index('capture') + 1]), int(words[words.index('rate') + 1]))
        report = play(script, f'{place}/c.wav', place)
        if report:
            session(f'{row}/{os.path.basename(script)}', script, report)

# Reports from paper: of the last cycle what is wrong in each case.
from_paper = 0
for place, cases in all_in('tests/graphs'):
    script, report, other = f'{place}/s', f'{folder}/report', f'{folder}/case'
    open(report, 'w').write(cases.report)
    session(os.path.basename(place), script, report)
    for what, text, wrong in cases.all:
        open(other, 'w').write(text)
        code, line, _ = compare(f'{place}: {what}', script, other, Script(open(script).read()).cycles)
        from_paper += 1
        if (code, line) != (8, f'check wrong {wrong}\n') and (code, wrong) != (0, 'ok'):
            faults.append(f'{place}: {what}: {code} {line!r}, and not {wrong}')

# Names that mean something to graphviz where they stand without quotes: its words, and the sides of a box.
NAMES, PORTS = ('node', 'edge', 'graph', 'digraph', 'subgraph', 'strict', 'capture', 'playback', 'system.capture', '-', '.', '7', '-1.5', 'n', '_'), ('n', 'e', 'w', '_', 'c', '-')
odd = [f'do {it}' for name in NAMES for it in (f'open {name} mix', *(f'register {name}:{port} {way} audio' for port, way in zip(PORTS, 3 * ('in', 'out'))), f'activate {name}')]
odd += [f'do connect {one}:{out} {other}:{into}' for one, other in zip(NAMES, (*NAMES[1:], NAMES[0])) for out, into in (('e', 'n'), ('_', 'w'), ('-', 'c'))]
odd += ['do open none pass', 'do open idle pass', 'do register idle:in in audio']
place = f'{folder}/names'
os.mkdir(place)
capture_of(f'{place}/c.wav', 1, 48000)
open(f'{place}/s', 'w').write('\n'.join(('jackd 1', 'rate 48000', 'period 4', 'capture 1', 'playback 1 16', 'mode serial', *odd, 'run 1', '')))
report = play(f'{place}/s', f'{place}/c.wav', place)
if report:
    session('names', f'{place}/s', report)
else:
    faults.append('a session with odd names was not played')

# The pictures of the tutorial: each is drawn by a command of it, and has the boxes, the words and the arrows of its session's graph.
tutorial = open('docs/TUTORIAL.md').read()
files = dict(re.findall(r'^```text (\S+)\n(.*?)^```$', tutorial, re.M | re.S))
commands = {it[4]: it for it in re.finditer(r'jackd graph (\S+) (\S+) ([0-9]+) --dot \| dot -Tsvg > (\S+\.svg)', tutorial)}
shown = re.findall(r'^!\[[^]]*\]\((\S+\.svg)\)$', tutorial, re.M)
if sorted(commands) != sorted(shown) or sorted(shown) != sorted(map(os.path.basename, glob.glob('docs/*.svg'))):
    faults.append(f'the tutorial draws {sorted(commands)}, shows {sorted(shown)}, and docs/ has {glob.glob("docs/*.svg")}')
for picture, command in sorted(commands.items()):
    place = f'{folder}/{picture}'
    os.mkdir(place)
    capture_of(f'{place}/c.wav', 1, 48000)
    open(f'{place}/s', 'w').write(files[command[1]])
    report = play(f'{place}/s', f'{place}/c.wav', place)
    if not report:
        faults.append(f'the session of docs/{picture} was not played')
        continue
    _, lines, _ = compare(picture, f'{place}/s', report, int(command[3]))
    wanted = digraphs.wanted(lines)
    svg = open(f'docs/{picture}').read()
    told = lambda what: sorted(html.unescape(it).strip() for it in re.findall(rf'<{what}[^>]*>(.*?)</{what}>', svg))
    words = [wanted['title']] + [it for box, _ in wanted['boxes'].values() for it in (*box['inputs'], *box['lines'], *box['outputs'])]
    titles = [wanted['title'], *wanted['boxes']] + [f'{one[0]}:{one[2]}->{other[0]}:{other[2]}' for one, other, _ in wanted['arrows']]
    red = sum('color' in looks for _, _, looks in wanted['arrows'])
    if told('text') != sorted(words) or told('title') != sorted(titles) or len(re.findall('<path [^>]*stroke="red"', svg)) != red:
        faults.append(f'docs/{picture} is another picture than that of {command[1]}, cycle {command[3]}')

# What graphviz makes of the digraphs.
if shutil.which('dot'):
    for found in pool.map(lambda it: lay(*it), pictures):
        faults += found
    laid = f'{len(pictures)} of them by graphviz'
else:
    laid = 'graphviz is left out, no dot'

# Faults of the words, the files and the script.
SCRIPT, REPORT = 'examples/patch.session', 'examples/patch.report'
HELP = "try 'jackd --help'\n"
FAULTS = (
    ((), 2, 'jackd: graph needs SCRIPT, REPORT and CYCLE; SCRIPT is missing\n' + HELP),
    ((SCRIPT, REPORT), 2, 'jackd: graph needs SCRIPT, REPORT and CYCLE; CYCLE is missing\n' + HELP),
    ((SCRIPT, SCRIPT, '1'), 2, f'jackd: SCRIPT and REPORT name one file: {SCRIPT}\n{HELP}'),
    ((SCRIPT, '', '1'), 2, 'jackd: REPORT is empty, and names no file\n' + HELP),
    ((SCRIPT, '-r', '1'), 2, 'jackd: REPORT begins with "-"; a file is named ./-r\n' + HELP),
    ((SCRIPT, REPORT, ''), 2, None),
    ((SCRIPT, REPORT, 'x'), 2, 'jackd: "x" is no cycle: a number from 1 to 4294967295 of one to ten digits\n' + HELP),
    ((SCRIPT, REPORT, '0'), 2, 'jackd: "0" is no cycle: a number from 1 to 4294967295 of one to ten digits\n' + HELP),
    ((SCRIPT, REPORT, ' 1'), 2, 'jackd: " 1" is no cycle: a number from 1 to 4294967295 of one to ten digits\n' + HELP),
    ((SCRIPT, REPORT, '4294967296'), 2, 'jackd: "4294967296" is no cycle: a number from 1 to 4294967295 of one to ten digits\n' + HELP),
    ((SCRIPT, REPORT, '21'), 2, f'jackd: {SCRIPT}: has no cycle 21\n{HELP}'),
    ((SCRIPT, REPORT, '1', '--dto'), 2, 'jackd: no option "--dto"; is "--dot" meant?\n' + HELP),
    ((SCRIPT, REPORT, '1', 'dot'), 2, 'jackd: "dot" is one word too many\n' + HELP),
    ((SCRIPT, REPORT, '1', '--dot', '2'), 2, 'jackd: "2" is one word too many\n' + HELP),
    (('--dot', SCRIPT, REPORT, '1'), 2, 'jackd: "--dot" comes behind SCRIPT, REPORT and CYCLE\n' + HELP),
    (('nothing', REPORT, '1'), 3, 'jackd: nothing: No such file or directory\n'),
    ((SCRIPT, 'nothing', '1'), 3, 'jackd: nothing: No such file or directory\n'),
    ((SCRIPT, 'examples', '1'), 3, 'jackd: examples: Is a directory\n'),
    ((REPORT, SCRIPT, '1'), 5, None),
    (('examples/echo.session', REPORT, '1'), 8, None),
    ((SCRIPT, '/dev/null', '1'), 8, 'jackd: /dev/null:1: no line of this script\'s report, in this place\n'),
)
LINES = {2: 'fault 2 words\n', 3: 'fault 3 read\n', 5: 'fault 5 script 1 Header\n'}
for words, code, told in FAULTS:
    got = ask(*words)
    if got[0] != code or got[1] != LINES.get(code, got[1]) or code == 8 and not got[1].startswith('check wrong '):
        faults.append(f'graph {" ".join(words)}: {got[:2]}')
    if told is not None and got[2] != told:
        faults.append(f'graph {" ".join(words)}: standard error {got[2]!r}, and not {told!r}')
if os.path.exists('/dev/full'):
    with open('/dev/full', 'wb') as full:
        done = subprocess.run([program, 'graph', SCRIPT, REPORT, '1'], stdout=full, stderr=subprocess.PIPE, text=True)
    if done.returncode != 6 or done.stderr != 'jackd: standard output: No space left on device; the graph is cut\n':
        faults.append(f'a full standard output: {done.returncode} {done.stderr!r}')

# The last of 1,000,000 cycles.
CYCLES = 1000000
script, report = f'{folder}/long.session', f'{folder}/long.report'
open(script, 'w').write(f'jackd 1\nrate 48000\nperiod 4\ncapture 1\nplayback 1 16\nmode serial\ndo start\nrun {CYCLES}\n')
with open(report, 'w') as it:
    it.write('report 1\ncall 0 1 ok 1\ncycle 1 1 starting 0 -\n')
    it.write(''.join(f'cycle {k} 1 rolling {4 * (k - 2)} -\n' for k in range(2, CYCLES + 1)) + 'end\n')
took = []
for _ in range(3):
    begun = time.monotonic()
    got = ask(script, report, str(CYCLES))
    took.append(time.monotonic() - begun)
    if got[0] != 0 or not got[1].startswith(f'cycle {CYCLES} change 1\n'):
        faults.append(f'the last of {CYCLES} cycles: {got[:2]}')
speed = os.path.getsize(report) / min(took) / 1e6

for fault in faults[:20]:
    print('check-graph:', fault)
if not faults:
    print(f'check-graph: passed, {graphs} graphs, {dots} of them drawn ({laid}), {changed} changed reports of which {refused} are refused, {from_paper} cases from paper; the last of {CYCLES} cycles in {min(took):.2f} s, {speed:.0f} MB/s')
sys.exit(bool(faults))
PY
