#!/usr/bin/env bash
# A lack of memory, at each allocation of a play in turn, in serial mode, with threads and with threads that steal, and with disk
# files in serial mode and with threads, is answered by exit code 1, which is told, with no report and no file made, or makes no
# difference, as where a vector's growth then asks for less (two at most); and a longer session makes no more allocations up to
# the end of its report (behind that it may be told which blocks a busy machine lost). Where workers steal, a deque may grow in a
# cycle: so often (seven times a worker, at most) an allocation more or less makes no difference, and none of a session's length.
# So is it at each allocation of a check, whose files stay; and a check of a hundred times as many cycles makes at most 16 more, by
# which lists grow while the report is read: its cycles make none.
# Each start of a thread takes memory of its own; where that is refused or the start is, each in turn and all of them, the play
# is as with it. Workers are started in heavy cycles alone. The program runs under an allocator that refuses one call, and a
# start of threads that refuses one or all.
set -u
# shellcheck source=scripts/program.sh
. "$(dirname "$0")/program.sh" python3 gcc
folder=$(mktemp -d)
trap 'rm -rf "$folder"' EXIT

# An allocator and a start of threads in front of the C library's: they refuse the allocation of the number $REFUSED and the
# start of the number $UNSTARTED, or all starts where that is `all`, and write into $COUNT how many of each there were, and how many
# allocations came before the last write to standard output.
cat > "$folder/refusing.c" <<'C'
#define _GNU_SOURCE
#include <dlfcn.h>
#include <errno.h>
#include <fcntl.h>
#include <pthread.h>
#include <stdio.h>
#include <stdlib.h>
#include <string.h>
#include <sys/syscall.h>
#include <unistd.h>

static unsigned long calls, refused, starts, unstarted, printed;

static unsigned long number_of(const char *name) {
    const char *text = getenv(name);
    if (text && !strcmp(text, "all")) return -1UL;
    return text ? strtoul(text, 0, 10) : 0;
}

__attribute__((constructor)) static void begin(void) {
    refused = number_of("REFUSED");
    unstarted = number_of("UNSTARTED");
    calls = starts = printed = 0;
}

static int refuses(void) {
    return __atomic_add_fetch(&calls, 1, __ATOMIC_SEQ_CST) == refused;
}

int pthread_create(pthread_t *thread, const pthread_attr_t *kind, void *(*run)(void *), void *given) {
    static int (*real)(pthread_t *, const pthread_attr_t *, void *(*)(void *), void *);
    unsigned long number = __atomic_add_fetch(&starts, 1, __ATOMIC_SEQ_CST);
    if (unstarted == number || unstarted == -1UL) return EAGAIN;
    if (!real) real = dlsym(RTLD_NEXT, "pthread_create");
    return real(thread, kind, run, given);
}

void *malloc(size_t size) {
    static void *(*real)(size_t);
    if (!real) real = dlsym(RTLD_NEXT, "malloc");
    if (refuses()) { errno = ENOMEM; return 0; }
    return real(size);
}

void *realloc(void *old, size_t size) {
    static void *(*real)(void *, size_t);
    if (!real) real = dlsym(RTLD_NEXT, "realloc");
    if (refuses()) { errno = ENOMEM; return 0; }
    return real(old, size);
}

int posix_memalign(void **place, size_t align, size_t size) {
    static int (*real)(void **, size_t, size_t);
    if (!real) real = dlsym(RTLD_NEXT, "posix_memalign");
    return refuses() ? ENOMEM : real(place, align, size);
}

void *aligned_alloc(size_t align, size_t size) {
    static void *(*real)(size_t, size_t);
    if (!real) real = dlsym(RTLD_NEXT, "aligned_alloc");
    if (refuses()) { errno = ENOMEM; return 0; }
    return real(align, size);
}

ssize_t write(int file, const void *bytes, size_t count) {
    static ssize_t (*real)(int, const void *, size_t);
    if (!real) real = dlsym(RTLD_NEXT, "write");
    if (file == 1) printed = __atomic_load_n(&calls, __ATOMIC_SEQ_CST);
    return real(file, bytes, count);
}

static void end(int code) {
    char text[96];
    int file = open(getenv("COUNT"), O_WRONLY | O_CREAT | O_TRUNC, 0600);
    int length = snprintf(text, sizeof text, "%lu %lu %lu", calls, starts, printed);
    if (file < 0 || write(file, text, length) < 0) code = 99;
    syscall(SYS_exit_group, code);
}

void _exit(int code) { end(code); __builtin_unreachable(); }

void exit(int code) { end(code); __builtin_unreachable(); }
C
gcc -O1 -shared -fPIC -o "$folder/refusing.so" "$folder/refusing.c" -ldl || exit 1

python3 - "$jackd" "$folder" <<'PY'
import os, re, subprocess, sys
jackd, folder = sys.argv[1:3]
os.chdir(folder)
made = ['playback', 'record']


def wave(data, channels=1):
    header = b'RIFF' + (36 + len(data)).to_bytes(4, 'little') + b'WAVEfmt ' + (16).to_bytes(4, 'little')
    header += bytes([1, 0, channels, 0]) + (48000).to_bytes(4, 'little') + (96000 * channels).to_bytes(4, 'little') + bytes([2 * channels, 0, 16, 0])
    return header + b'data' + len(data).to_bytes(4, 'little') + data


def script(mode, period, calls, cycles, changes, version=1, events=()):
    lines = [f'jackd {version}', 'rate 48000', f'period {period}', 'capture 1', 'playback 2 16', f'mode {mode}', 'ring 16', 'recorder 1 16', *events,
        'do open a delay 5', 'do register a:i in audio', 'do register a:o out audio', 'do activate a',
        'do open t record 0', 'do register t:i in audio', 'do activate t',
        'do connect system:capture_1 a:i', 'do connect a:o system:playback_1', 'do connect a:o t:i', *calls, 'do start', f'run {cycles}']
    return '\n'.join([*lines, *changes]) + '\n'


def serial(cycles):
    return script('serial', 64, [], cycles, ['lane 1 at 2 connect system:capture_1 system:playback_2', 'lane 1 at 3 disconnect a:o t:i'])


def threads(cycles, period=4096, mode='threads 2', **more):
    """A lane, whose calls no cycle has, and a recorder in threads, and cycles with so much work that two workers share them."""
    calls = list(more.pop('calls', ()))
    for meter in range(9):
        calls += [f'do open m{meter} meter', f'do activate m{meter}', *(f'do {call}' for port in range(1, 17)
            for call in (f'register m{meter}:{port} in audio', f'connect system:capture_1 m{meter}:{port}'))]
    return script(mode, period, calls, cycles, [f'lane 1 at {cycles} connect system:capture_1 system:playback_2',
        f'lane 1 at {cycles} disconnect a:o t:i'], **more)


def light(cycles):
    """Cycles with less work, for which no worker is started."""
    return threads(cycles, 64)


def steals(cycles):
    """The same, with workers that steal, and with events: a list, a merge in a loop, and a log that is full soon."""
    calls = [f'do {call}' for name, kind in (('p', 'midiplay 0'), ('q', 'midithru'), ('l', 'midilog'))
        for call in (f'open {name} {kind}', f'register {name}:i in midi', f'register {name}:o out midi', f'activate {name}')]
    calls += [f'do connect {edge}' for edge in ('p:o q:i', 'q:o q:i', 'q:o l:i')]
    return threads(cycles, mode='steal 2', calls=calls, version=3, events=[f'event 0 {n} 90{n % 128:02x}40' for n in range(700)])


def disks(cycles, mode='serial', changes=('lane 1 at 2 disconnect d0:1 system:playback_1', 'lane 1 at 3 deactivate d1')):
    """Two disk files, which are played beside a recorder. The ring holds all blocks of eight cycles."""
    calls = []
    for disk, ports in ((0, '1'), (1, '12')):
        calls += [f'do open d{disk} disk {disk}', *(f'do register d{disk}:{port} out audio' for port in ports), f'do activate d{disk}']
        calls += [f'do connect d{disk}:{port} system:playback_{port}' for port in ports]
    return script(mode, 64, calls, cycles, list(changes), 3, ['disk 1', 'disk 2'])


def readers(cycles):
    """The same with threads, of which each disk file has one."""
    return disks(cycles, 'threads 2', [])


def file_of(text, channels=1):
    """A capture or a disk file that is as long as the session, so that nothing is told of it."""
    period, cycles = (int(re.search(rf'^{word} (\d+)$', text, re.M)[1]) for word in ('period', 'run'))
    size = 2 * channels * period * cycles
    return wave((bytes(range(256)) * (size // 256 + 1))[:size], channels)


def play(text, refused=0, unstarted=0):
    for name in made:
        if os.path.exists(name):
            os.remove(name)
    with open('script', 'w') as it:
        it.write(text)
    given, words = {'capture': file_of(text)}, ['play', 'script', 'capture', 'playback', '--record', 'record']
    for disk, channels in enumerate(re.findall(r'^disk (\d)$', text, re.M)):
        given[f'disk{disk}'] = file_of(text, int(channels))
        words += ['--disk', f'disk{disk}']
    for name, held in given.items():
        with open(name, 'wb') as it:
            it.write(held)
    return run(words, refused, unstarted)


def check(report, refused=0):
    with open('report', 'wb') as it:
        it.write(report)
    return run(['check', 'script', 'capture', 'report', 'playback', '--record', 'record'], refused)


def run(words, refused, unstarted=0):
    if os.path.exists('count'):
        os.remove('count')
    where = {**os.environ, 'LD_PRELOAD': f'{folder}/refusing.so', 'COUNT': 'count', 'REFUSED': str(refused), 'UNSTARTED': str(unstarted)}
    ran = subprocess.run([jackd, *words], env=where, capture_output=True, timeout=60)
    files = [open(name, 'rb').read() if os.path.exists(name) else None for name in made]
    counts = open('count').read().split() if os.path.exists('count') else [0, 0, 0]
    return (ran.returncode, ran.stdout, ran.stderr, *files), *map(int, counts)


def told(got):
    return f'it ended with {got[0]}, {got[1][-80:]}, {got[2][:80]}, files {[it is not None for it in got[3:]]}'


def faults(session, workers, grown=0):
    """How often a play allocates, and what it does where that is refused; a cycle may make so many allocations more."""
    whole, count, starts, printed = play(session(8))
    longer, _, later, more = play(session(800))
    if whole[0] or longer[0]:
        yield f'with ample memory {told(whole)}, and {told(longer)}'
        return
    if count == 0 or printed == 0:
        yield 'no allocation was counted'
    if abs((printed - starts) - (more - later)) > grown:
        yield f'{printed} allocations and {starts} threads for 8 cycles, and {more} and {later} for 800'
    if later - starts != workers * 792:
        yield f'{starts} threads for 8 cycles, and {later} for 800'
    if session is light:
        return
    harmless = 0
    for refused in range(1, count + 1):
        got, *_ = play(session(8), refused=refused)
        harmless += got == whole
        if got != whole and got != (1, b'', b'jackd: out of memory; no file was made\n', None, None):
            yield f'allocation {refused} of {count} refused: {told(got)}'
    if harmless > 2 + starts + grown:
        yield f'{harmless} allocations make no difference, with {starts} threads'
    for unstarted in [*range(1, starts + 1), 'all']:
        got, *_ = play(session(8), unstarted=unstarted)
        if got != whole:
            yield f'thread {unstarted} of {starts} not started: {told(got)}'
    print(f'check-memory: {session.__name__}: {count} allocations refused, one a play: {count - harmless} answered by 1 with no file, '
        f'{harmless} made no difference; {starts} threads not started, one a play and all')


def check_faults(session):
    """A check of a play. Lists grow while the report is read, by doubling, so that a hundred times as many cycles make a few allocations more."""
    counts = []
    for cycles in (800, 8):
        (code, report, _, *files), *_ = play(session(cycles))
        whole, count, starts, _ = check(report)
        if whole != (0, b'check ok\n', b'', *files) or starts:
            yield f'with ample memory {told(whole)}, {starts} threads'
            return
        counts.append(count)
    if not 0 <= counts[0] - counts[1] <= 16:
        yield f'{counts[1]} allocations for 8 cycles, and {counts[0]} for 800'
    harmless = 0
    for refused in range(1, count + 1):
        got, *_ = check(report, refused)
        harmless += got == whole
        if got != whole and got != (1, b'', b'jackd: out of memory; no file was made\n', *files):
            yield f'allocation {refused} of {count} refused: {told(got)}'
    if harmless > 2:
        yield f'{harmless} allocations make no difference'
    print(f'check-memory: check of {session.__name__}: {count} allocations refused, one a check: {count - harmless} answered by 1, {harmless} made no difference')


sessions = ((serial, 0), (threads, 1), (light, 0), (steals, 1, 14), (disks, 0), (readers, 0))
wrong = [f'{session.__name__}: {fault}' for session, *numbers in sessions for fault in faults(session, *numbers)]
wrong += [f'check of {session.__name__}: {fault}' for session in (serial, threads, steals) for fault in check_faults(session)]
for fault in wrong[:10]:
    print('check-memory:', fault)
sys.exit(bool(wrong))
PY
