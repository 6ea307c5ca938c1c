#!/usr/bin/env python3
"""The system refuses: each call of a play, a check and a graph in turn, each with the errors that it may have.

faulty_calls.py JACKD SECONDS SEED    tells how many runs, of which calls and errors, and what failed; 1 where anything did

Seven bases: a play in serial mode, one with threads, two recorders and a lane, one of events with workers that steal and share
cycles, one of two disk files in serial mode and one with threads, a check of the second, and a graph of it. Each is deterministic: no
call of a lane stands between cycles, and no ring of a recorder or a disk file has fewer places than there are cycles with threads.
Of each one

    with strace      every call that it makes behind its start (opening, reading, writing, seeking, cutting, syncing, closing, locking and
                     asking for files; asking for memory and giving it back; starting a thread, and waiting) fails once, with one error
                     after the other. strace counts the calls of each thread for itself, so the call of a number fails in each thread
                     that makes so many. In the first round each call fails with each error, as long as there is time, in an order
                     that the seed draws; every further round is another order
    without strace   the file size limit (`ulimit -f`), at every size of a file: a write goes short there, and the next one is refused.
                     The number of open files (`ulimit -n`). Inputs through pipes that give a few bytes at a time. Plays that are
                     killed (SIGKILL) at any time. And, where there is a C compiler, reads and writes that do at most so many bytes

Asked is each time: no signal, an end within 60 seconds, an exit code that README has for it (a fault of an input 3, of an output or
standard output 6, of memory 1, of a thread's start none), inputs and a stranger's file with their bytes, no other file made; and

    0   standard output and every file as without a fault
    1   nothing on standard output, and each output as it was before
    3, 6, and behind a kill   each output as it was before, or a front of what was to be written, but for the sizes in its header, and behind an output
           that was not made no output was; standard output is a front of the report, or the fault's line

An interrupted call (EINTR) and one that fails in closing a file is no fault, nor a sync that a file system has not (EINVAL).
"""
import collections
import os
import random
import re
import resource
import shutil
import signal
import subprocess
import sys
import tempfile
import time

sys.dont_write_bytecode = True
sys.path.insert(0, os.path.dirname(os.path.abspath(__file__)))
import explained
from rooms import leave_none, room_in_memory

# The errors that a call may answer by its manual page, and ENOSYS where a library goes on without it.
ERRORS = {
    'openat': 'EIO ENOSPC EMFILE ENFILE ENOMEM EACCES EROFS EINTR',
    'read': 'EIO ENOMEM EAGAIN EINTR',
    'write': 'ENOSPC EIO EDQUOT EFBIG EAGAIN EPIPE EINTR',
    'lseek': 'EIO EINVAL ESPIPE EOVERFLOW',
    'ftruncate': 'EIO ENOSPC EFBIG EPERM EINTR',
    'fsync': 'EIO ENOSPC EDQUOT EINVAL EINTR',
    'close': 'EIO ENOSPC EDQUOT EINTR',
    'flock': 'EAGAIN ENOLCK EINTR',
    'statx': 'EIO ENOMEM EACCES ENOSYS',
    'mmap': 'ENOMEM EAGAIN',
    'brk': 'ENOMEM',
    'memory': 'ENOMEM',
    'mremap': 'ENOMEM',
    'mprotect': 'ENOMEM',
    'madvise': 'ENOMEM EAGAIN',
    'clone3': 'EAGAIN ENOMEM EPERM ENOSYS',
    'clone': 'EAGAIN ENOMEM',
    'futex': 'EINTR EAGAIN',
}
# How strace is to be asked for an error. The system answers a brk that it refuses by the old end, which no error's number is.
INJECTED = {'brk': 'retval=0'}
# What no error is documented for, once the arguments are right, and the ends of threads. And munmap: the system refuses it only
# where a mapping is cut in two, which no call here does; the C library aborts where a thread's stack is not taken back.
WITHOUT = {'munmap', 'exit', 'exit_group', 'rt_sigprocmask', 'rt_sigaction', 'rseq', 'set_robust_list', 'sched_yield', 'sigaltstack', 'gettid', 'getrandom', 'prlimit64', 'restart_syscall'}
STRANGER = b'another program keeps this\n'


def script(mode, *rest, version=1, period=64, recorders=1, cycles=40):
    header = [f'jackd {version}', 'rate 48000', f'period {period}', 'capture 1', 'playback 2 16', f'mode {mode}', 'ring 64', *['recorder 1 16'] * recorders]
    more = [line for line in rest if line.startswith(('disk ', 'event '))]
    lines = [*header, *more, 'do open a delay 5', 'do register a:i in audio', 'do register a:o out audio', 'do activate a', 'do connect system:capture_1 a:i', 'do connect a:o system:playback_1']
    for k in range(recorders):
        lines += [f'do open t{k} record {k}', f'do register t{k}:i in audio', f'do activate t{k}', f'do connect a:o t{k}:i']
    lines += [line for line in rest if line.startswith('do ')]
    lines += ['do start', f'run {cycles}', f'lane 1 at {cycles} connect system:capture_1 system:playback_2', f'lane 1 at {cycles} disconnect a:o t0:i']
    return ''.join(f'{line}\n' for line in lines).encode()


def serial(size):
    return script('serial', cycles=size)


def threads(size):
    """No more cycles than the rings have places, so that no block can be lost."""
    return script('threads 2', recorders=2, cycles=min(size, 60), period=64 if size < 60 else 2048)


def events(size):
    """Events, in cycles of so much work that workers are started for them, which steal."""
    calls = [f'do {call}' for name, kind in (('p', 'midiplay 0'), ('q', 'midithru'), ('l', 'midilog'))
        for call in (f'open {name} {kind}', f'register {name}:i in midi', f'register {name}:o out midi', f'activate {name}')]
    calls += [f'do connect {edge}' for edge in ('p:o q:i', 'q:o q:i', 'q:o l:i')]
    for meter in range(9):
        calls += [f'do open m{meter} meter', f'do activate m{meter}', *(f'do {call}' for port in range(1, 17)
            for call in (f'register m{meter}:{port} in audio', f'connect system:capture_1 m{meter}:{port}'))]
    return script('steal 2', *calls, *(f'event 0 {40 * n} 90{n % 128:02x}40' for n in range(30)), version=3, period=4096, cycles=2 if size < 60 else 9)


def tracks(mode, cycles):
    """A file of one channel and one of two, played beside the capture and into the record."""
    calls = [f'do {call}' for disk, ports in ((0, '1'), (1, '12'))
        for call in (f'open d{disk} disk {disk}', *(f'register d{disk}:{port} out audio' for port in ports), f'activate d{disk}')]
    edges = ('d0:1 system:playback_1', 'd1:1 system:playback_1', 'd1:2 system:playback_2', 'd0:1 t0:i')
    return script(mode, 'disk 1', 'disk 2', *calls, *(f'do connect {edge}' for edge in edges), version=3, cycles=cycles)


def disks(size):
    return tracks('serial', size)


def readers(size):
    """No more blocks than a ring has places, so that each is there before the cycles."""
    return tracks('threads 2', min(size, 60))


PLAYS = (serial, threads, events, disks, readers)


def file_of(text, step=7919, channels=1):
    """A file as long as the session."""
    period, cycles = (int(re.search(rb'(?m)^%s (\d+)$' % word, text)[1]) for word in (b'period', b'run'))
    return explained.wave_of(48000, channels, 16, [(n * step % 65536 - 32768) * 65536 for n in range(channels * period * cycles)])


class Base:
    """A run as it is without a fault: its words, its inputs, and what it leaves."""

    def __init__(self, name, words, given, made):
        self.name, self.words, self.given, self.made, self.out, self.calls = name, words, given, made, b'', []


def put(name, held):
    with open(name, 'wb') as it:
        it.write(held)


def held_in(name):
    with open(name, 'rb') as it:
        return it.read()


def front(there, wanted):
    """Whether bytes are a front of a file, but for the two sizes in its header, which may be open."""
    there = bytearray(there)
    for place in (4, 40):
        if bytes(there[place:place + 4]) == b'\xff' * len(there[place:place + 4]):
            there[place:place + 4] = wanted[place:place + 4][:max(0, len(there) - place)]
    return wanted.startswith(bytes(there))


class Bench:
    """A folder in which runs are refused something."""

    def __init__(self, jackd):
        self.jackd = jackd
        os.chdir(room_in_memory())
        self.faults, self.runs, self.codes, self.tried = [], collections.Counter(), collections.Counter(), set()

    def run(self, words, before=(), **more):
        """Exit code, standard output and standard error; of a run that does not end the signal that ends it."""
        out = more.pop('stdout', subprocess.PIPE)
        ran = subprocess.Popen([*before, self.jackd, *words], stdin=subprocess.DEVNULL, stdout=out, stderr=subprocess.PIPE, start_new_session=True, restore_signals=False, **more)
        try:
            out, told = ran.communicate(timeout=60)
        except subprocess.TimeoutExpired:
            os.killpg(ran.pid, signal.SIGKILL)
            out, told = ran.communicate()
            return None, out or b'', told
        return ran.returncode, out or b'', told

    def bases(self, size):
        """The seven, each played or made once."""
        found = []
        for session in PLAYS:
            text = session(size)
            given = {f'{session.__name__}.s': text, f'{session.__name__}.c': file_of(text)}
            names = [f'{session.__name__}.p', *(f'{session.__name__}.r{k}' for k in range(text.count(b'\nrecorder ')))]
            words = ['play', *given, names[0], *(word for name in names[1:] for word in ('--record', name))]
            for k, channels in enumerate(re.findall(rb'\ndisk (\d)', text)):
                given[f'{session.__name__}.d{k}'] = file_of(text, 104729 + k, int(channels))
                words += ['--disk', f'{session.__name__}.d{k}']
            found.append(self.begun(Base(session.__name__, words, given, dict.fromkeys(names, b''))))
        played = found[1]
        given = {**played.given, 'threads.o': played.out, **played.made}
        found.append(self.begun(Base('check', ['check', *played.given, 'threads.o', *played.words[3:]], given, {})))
        found.append(self.begun(Base('graph', ['graph', 'threads.s', 'threads.o', '3'], {name: given[name] for name in ('threads.s', 'threads.o')}, {})))
        return found

    def begun(self, base):
        """A base with what it leaves."""
        self.lay(base, False)
        code, base.out, told = self.run(base.words)
        if code or told:
            raise SystemExit(f'soak: faults: {base.name}: exit code {code}: {told}')
        base.made = {name: held_in(name) for name in base.made}
        return base

    def lay(self, base, there):
        """The folder as it is before a run: inputs, a stranger's file and, where they are there, outputs that hold something else."""
        for name in os.listdir('.'):
            if os.path.isdir(name):
                shutil.rmtree(name)
            else:
                os.remove(name)
        self.old = {name: b'what stood in ' + name.encode() * 30 for name in base.made} if there else {}
        for name, held in {**base.given, **self.old, 'stranger': STRANGER}.items():
            put(name, held)

    def judge(self, what, base, ran, codes, out=None):
        """What is wrong with a run that was refused something, by the exit codes that it may have."""
        code, printed, told = ran
        printed = printed if out is None else out
        wrong = []
        self.codes[code] += 1
        if code is None:
            wrong.append('no end in 60 seconds')
        elif code not in codes:
            wrong.append(f'exit code {code}, not {" or ".join(map(str, sorted(codes)))}: {told[-200:]!r}')
        outputs = {name: held_in(name) if os.path.exists(name) else None for name in base.made}
        for name, held in {**base.given, 'stranger': STRANGER}.items():
            if not os.path.exists(name) or held_in(name) != held:
                wrong.append(f'{name} was changed')
        left = set(os.listdir('.')) - {*base.given, *base.made, 'stranger', 'trace', 'out', 'pipe'}
        if left:
            wrong.append(f'{sorted(left)} were made')
        before = {name: self.old.get(name) for name in base.made}
        if code == 0:
            wrong += [f'{name} is another file' for name, held in outputs.items() if held != base.made[name]]
            if printed != base.out:
                wrong.append(f'standard output is {printed[-80:]!r}')
        elif code == 1:
            wrong += [f'{name} is not as it was' for name, held in outputs.items() if held != before[name]]
            if printed:
                wrong.append(f'standard output is {printed[-80:]!r}')
        elif code in (3, 6, -signal.SIGKILL):
            wrong += [f'{name} is neither as it was nor a front' for name, held in outputs.items() if held != before[name] and held is not None and not front(held, base.made[name])]
            names = list(outputs)
            wrong += [f'{later} was made, and {name} was not' for name, later in zip(names, names[1:]) if outputs[name] is None and outputs[later] is not None]
            if not (code == 3 and printed == b'fault 3 read\n') and not base.out.startswith(printed):
                wrong.append(f'standard output is {printed[-80:]!r}')
        if code in (1, 3, 6) and not told and not what.endswith('of standard error'):
            wrong.append('nothing on standard error')
        self.faults += [f'{base.name}: {what}: {it}' for it in wrong]

    # With strace.

    def calls_of(self, base):
        """The calls that a base makes behind its start: of each thread the name, the number and the file, with what may be answered."""
        self.lay(base, False)
        self.run(base.words, ['strace', '-f', '-y', '-qq', '-s', '200', '-o', 'trace'])
        started, counts, found, main = False, collections.Counter(), {}, None
        for line in held_in('trace').decode('latin-1').splitlines():
            row = re.match(r'(\d+) +(\w+)\((.*)', line)
            if not row:
                continue
            thread, call, rest = row.groups()
            main = main or thread
            counts[thread, call] += 1
            if started and call not in WITHOUT:
                found.setdefault((call, counts[thread, call]), []).append((thread == main, self.of(base, call, rest)))
            started = started or call == 'getrandom'
        # A number that the loader has used in the first thread is none that can be refused in another alone.
        starts = collections.Counter()
        for line in held_in('trace').decode('latin-1').splitlines():
            call = re.match(r'\d+ +(\w+)\(', line)
            if call and call[1] == 'getrandom':
                break
            starts[call and call[1]] += 1
        calls = [(call, number, [of for _, of in where]) for (call, number), where in sorted(found.items()) if number > starts[call]]
        # Memory that is over from a call on: the first thread's brk and mmap, by how many of each there were.
        asked, over = collections.Counter(), []
        for line in held_in('trace').decode('latin-1').splitlines():
            row = re.match(rf'{main} +(brk|mmap)\(', line)
            if row:
                asked[row[1]] += 1
                over.append(('memory', (asked['brk'], asked['mmap']), ['memory']))
        return calls + over[starts['brk'] + starts['mmap']:]

    @staticmethod
    def of(base, call, rest):
        """What a call is of: an input, an output, standard output or standard error, memory, or a thread."""
        if call in ('mmap', 'brk', 'mremap', 'mprotect', 'madvise'):
            return 'memory'
        if call in ('clone', 'clone3', 'futex'):
            return 'a thread'
        name = re.search(r'AT_FDCWD[^,]*, "(.*?)"', rest) or re.match(r'\d+<(.*?)>', rest)
        if rest.startswith(('1<', '1,')):
            return 'standard output'
        if rest.startswith(('2<', '2,')):
            return 'standard error'
        name = os.path.basename(name[1]) if name else ''
        return f'input {name}' if name in base.given else f'output {name}' if name in base.made else 'a file'

    @staticmethod
    def codes_for(call, error, of, telling):
        """The exit codes that a call may end with that is refused with an error."""
        if error == 'EINTR' and call != 'flock' or call in ('close', 'clone', 'clone3', 'futex', 'madvise') or of == 'standard error' or telling:
            return {0}
        if of == 'memory':
            return {0, 1}
        if call == 'fsync':
            return {0} if error == 'EINVAL' else {6}
        if call == 'flock':
            return {'EAGAIN': {6}, 'ENOLCK': {0}}.get(error, {0, 6})
        if call == 'statx' and error == 'ENOSYS':
            return {0}
        if of.startswith('input'):
            return {3} if call in ('openat', 'read') else {0, 3}
        if of in ('standard output',) or of.startswith('output'):
            return {6} if call in ('openat', 'write', 'ftruncate') else {0, 6}
        return {0, 3, 6}

    def refused(self, base, call, number, where, error, there):
        """A run in which the call of this number is refused with an error."""
        codes = set()
        for of in where:
            codes |= self.codes_for(call, error, of, False)
        self.lay(base, there)
        if call == 'memory':
            refusing = [f'inject=brk:retval=0:when={number[0] + 1}+', '-e', f'inject=mmap:error=ENOMEM:when={number[1] + 1}+']
        else:
            refusing = [f'inject={call}:{INJECTED.get(call, f"error={error}")}:when={number}']
        traced = 'brk,mmap' if call == 'memory' else call
        ran = self.run(base.words, ['strace', '-f', '-qq', '-o', 'trace', '-e', f'trace={traced}', '-e', *refusing])
        self.runs['strace'] += 1
        self.tried.add((call, error))
        of = ', '.join(sorted(set(where)))
        self.judge(f'{call} {number} refused with {error}, of {of}', base, ran, codes)

    def with_strace(self, bases, chance, until):
        """All calls of all bases, with all errors, in an order that is drawn, until the time is over; how many there were."""
        plan = []
        for base in bases:
            base.calls = self.calls_of(base)
            plan += [(base, *call, error) for call in base.calls for error in ERRORS.get(call[0], '').split()]
            unknown = {call for call, _, _ in base.calls} - {*ERRORS}
            if unknown:
                self.faults.append(f'{base.name}: makes calls that are not refused here: {sorted(unknown)}')
        chance.shuffle(plan)
        # Those of one kind first, so that a short time tries one of each.
        seen, first, rest = set(), [], []
        for it in plan:
            (rest if (it[0].name, it[1], it[4]) in seen else first).append(it)
            seen.add((it[0].name, it[1], it[4]))
        for tried, (base, call, number, where, error) in enumerate([*first, *rest]):
            # On a busy machine a few of them all the same.
            if time.monotonic() > until and tried >= 30 or len(self.faults) > 20:
                return tried, len(plan)
            self.refused(base, call, number, where, error, chance.random() < 0.5)
        return len(plan), len(plan)

    # Without strace.

    def limited(self, base, kind, most, codes, there, what):
        """A run under a limit of the system."""
        self.lay(base, there)
        ran = self.run(base.words, preexec_fn=lambda: resource.setrlimit(kind, (most, most)))
        self.runs[what] += 1
        self.judge(f'{what} {most}', base, ran, codes)

    def file_sizes(self, bases, chance, until):
        """The file size limit at each size up to that of the greatest output, those near its ends and the header first."""
        for base in bases:
            if not base.made:
                continue
            whole = max(map(len, base.made.values()))
            sizes = list(range(whole + 1))
            near = [size for size in sizes if size < 60 or size > whole - 3]
            drawn = chance.sample(near, len(near)) + chance.sample(sizes, len(sizes))
            for tried, size in enumerate(drawn):
                if time.monotonic() > until and tried >= 10:
                    break
                self.limited(base, resource.RLIMIT_FSIZE, size, {0} if size >= whole else {6}, chance.random() < 0.5, 'files of at most')

    def open_files(self, bases):
        """So few open files that an input or an output can't be opened: the loader needs four numbers, the first file a fourth."""
        for base in bases:
            for most in range(4, 12):
                self.limited(base, resource.RLIMIT_NOFILE, most, {0, 3, 6}, most % 2 == 0, 'open files at most')

    def pipes(self, bases, chance):
        """Inputs that come through pipes, a few bytes at a time, and standard output into one that is read so."""
        for base in bases:
            if not base.made:
                continue
            self.lay(base, False)
            os.mkfifo('pipe')
            name = chance.choice([name for name in base.given])
            held, words = base.given[name], ['pipe' if word == name else word for word in base.words]
            writer = os.fork()
            if not writer:
                with open('pipe', 'wb', buffering=0) as it:
                    at = 0
                    while at < len(held):
                        at += it.write(held[at:at + chance.choice([1, 2, 3, 7, 500, 4095])])
                os._exit(0)
            ran = self.run(words)
            try:
                os.kill(writer, signal.SIGKILL)
            except ProcessLookupError:
                pass
            os.waitpid(writer, 0)
            self.runs['pipes'] += 1
            self.judge(f'{name} through a pipe', base, ran, {0})

    def kills(self, chance, count):
        """Plays that are killed at any time."""
        for base in self.bases(3000)[:len(PLAYS)]:
            began = time.monotonic()
            self.lay(base, False)
            self.run(base.words)
            took = time.monotonic() - began
            for _ in range(count):
                self.lay(base, chance.random() < 0.5)
                with open('out', 'wb') as out:
                    ran = subprocess.Popen([self.jackd, *base.words], stdin=subprocess.DEVNULL, stdout=out, stderr=subprocess.PIPE)
                time.sleep(chance.random() * took)
                ran.kill()
                told = ran.communicate()[1]
                self.runs['kills'] += 1
                self.judge('a kill', base, (ran.returncode, b'', told), {0, -signal.SIGKILL}, held_in('out'))

    def short(self, bases, library):
        """Each read and write does so few bytes."""
        for base in bases:
            for most in (1, 3, 50, 65535):
                self.lay(base, False)
                ran = self.run(base.words, env={**os.environ, 'LD_PRELOAD': library, 'MOST': str(most)})
                self.runs['short reads and writes'] += 1
                self.judge(f'reads and writes of at most {most} bytes', base, ran, {0})


SHORT = r'''
#define _GNU_SOURCE
#include <stdlib.h>
#include <sys/syscall.h>
#include <unistd.h>
static size_t most(size_t count) {
    const char *text = getenv("MOST");
    size_t limit = text ? strtoul(text, 0, 10) : count;
    return count > limit ? limit : count;
}
ssize_t write(int file, const void *bytes, size_t count) { return syscall(SYS_write, file, bytes, most(count)); }
ssize_t read(int file, void *bytes, size_t count) { return syscall(SYS_read, file, bytes, most(count)); }
'''


def library_in(folder):
    """The library of short reads and writes, where there is a C compiler."""
    put(f'{folder}/short.c', SHORT.encode())
    made = shutil.which('gcc') and subprocess.run(['gcc', '-O1', '-shared', '-fPIC', '-o', f'{folder}/short.so', f'{folder}/short.c'], capture_output=True).returncode == 0
    return f'{folder}/short.so' if made else None


def traces(folder):
    return shutil.which('strace') and subprocess.run(['strace', '-o', f'{folder}/trace', 'true'], capture_output=True).returncode == 0


def main(jackd, seconds, seed):
    began = time.monotonic()
    bench, chance, tools = Bench(os.path.abspath(jackd)), random.Random(seed), leave_none(tempfile.mkdtemp())
    signal.signal(signal.SIGXFSZ, signal.SIG_IGN)
    bases = bench.bases(12)
    library, strace = library_in(tools), traces(tools)
    share = seconds / 4 if strace else seconds
    bench.file_sizes(bases[:len(PLAYS)], chance, began + share)
    bench.open_files(bases)
    bench.pipes(bases, chance)
    bench.kills(chance, 5 if seconds < 60 else 100)
    if library:
        bench.short(bases, library)
    else:
        print('soak: faults: no gcc: short reads and writes are passed over')
    rounds, tried, planned = 0, 0, 0
    if not strace:
        print('soak: faults: no strace: calls that are refused one by one are passed over')
    while strace and (not planned or time.monotonic() - began < seconds) and len(bench.faults) <= 20:
        done, planned = bench.with_strace(bases, chance, began + seconds)
        tried, rounds = tried + done, rounds + (done == planned)
        # Behind a whole round longer sessions: buffers are filled and written in their middle.
        bases = bench.bases(chance.choice([12, 700, 2000]))
    for fault in bench.faults[:20]:
        print('soak: faults:', fault[:600])
    calls = collections.Counter(call for call, _ in bench.tried)
    print(f'soak: faults: seed {seed}, {sum(bench.runs.values())} runs that were refused something, in {time.monotonic() - began:.0f} s:', ', '.join(f'{count} {what}' for what, count in bench.runs.items()) + f'; {len(bench.faults)} failures')
    if strace:
        print(f'soak: faults: {rounds} whole rounds of calls, {tried} of {planned} in the last;', ', '.join(f'{call} by {count} errors' for call, count in sorted(calls.items())))
    print('soak: faults:', ', '.join(f'code {code} {count}' for code, count in sorted(bench.codes.items(), key=str)))
    return bool(bench.faults)


if __name__ == '__main__':
    if len(sys.argv) != 4:
        sys.exit(__doc__)
    sys.exit(main(sys.argv[1], float(sys.argv[2]), sys.argv[3]))
