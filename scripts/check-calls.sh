#!/usr/bin/env bash
# What the program asks of the system, as strace sees it in a run of each command and of some mistakes: it opens the files that are
# named, and those with which the system starts any program, and no other. Inputs are opened for reading alone. Outputs are opened
# for writing, are not emptied by that, and are locked before anything is written to them. It reads what it opened, and not standard
# input; it writes to its outputs, to standard output and to standard error, and nowhere else. It opens no socket, starts no program
# and no process besides its own threads, sends no signal, removes, renames and makes nothing else, and changes no rights and no owner.
set -u
# shellcheck source=scripts/program.sh
. "$(dirname "$0")/program.sh" python3 strace
checks=no
"$jackd" --help | grep -q 'jackd check ' && checks=checks
folder=$(mktemp -d)
trap 'rm -rf "$folder"' EXIT
sh examples/captures.sh "$folder" || exit 1
cp examples/*.session examples/*.report "$folder"
if ! strace -o "$folder/trace" true 2> /dev/null; then
  echo 'check-calls: passed over, strace can trace no program here'
  exit 0
fi
python3 - "$jackd" "$checks" "$folder" <<'PY'
import os, re, subprocess, sys

jackd, checks, folder = sys.argv[1], sys.argv[2] == 'checks', os.path.realpath(sys.argv[3])
os.chdir(folder)
faults, runs = [], 0

NEVER = re.compile(r'''
    socket|socketpair|connect|bind|listen|accept4?|send(to|msg|mmsg)|recv(from|msg|mmsg)          # no network
    |v?fork|execveat|t?g?kill|rt_(tg)?sigqueueinfo|pidfd_\w+|ptrace|process_vm_\w+                # no process, no signal
    |unlink(at)?|rename(at2?)?|mkdir(at)?|rmdir|(sym)?link(at)?|mknod(at)?|truncate|creat|open    # nothing removed, nothing else made
    |f?chmod(at2?)?|[fl]?chown(at)?|utimensat|utimes?|[fl]?(set|remove)xattr                      # no rights, no times
    |f?chdir|chroot|umask|u?mount2?|set\w*[ug]id\w*|capset|bpf|io_uring_\w+|\w+_module            # nothing of the system's
    ''', re.X)
# The loader's: its list of libraries, and the C library.
STARTS = re.compile(r'/etc/ld\.so\.\w+|(/usr)?/lib\S*/(libc|libm|libgcc_s|libpthread|libdl|ld-linux-x86-64)\.so\.\d')


def run(what, wanted, words, inputs=(), outputs=(), **more):
    """Runs the program under strace, and looks at each call."""
    global runs
    runs += 1
    traced = ['strace', '-f', '-y', '-qq', '-s', '200', '-o', 'trace', jackd, *words]
    code = subprocess.run(traced, stdin=subprocess.DEVNULL, stdout=subprocess.PIPE, stderr=subprocess.PIPE, timeout=100).returncode
    if code != wanted:
        faults.append(f'{what}: exit code {code}, not {wanted}')
    told = lambda line: faults.append(f'{what}: {line[:160]}')
    inputs, outputs = ({os.path.realpath(it) for it in names} for names in (inputs, outputs))
    locked, programs = set(), 0
    for line in open('trace', errors='replace'):
        line = re.sub(r'^\d+ +', '', line.rstrip('\n'))
        found = re.match(r'(?:<\.\.\. )?(\w+)(?:\(| resumed>)(.*)', line)
        if not found:
            continue
        call, rest = found.groups()
        if NEVER.fullmatch(call):
            told(line)
        elif call == 'execve':
            programs += 'resumed>' not in line
        elif call in ('clone', 'clone3') and 'resumed>' not in line and 'CLONE_THREAD' not in rest:
            told(line)
        elif call == 'openat' and 'resumed>' not in line:
            name, flags = re.match(r'AT_FDCWD(?:<.*?>)?, "(.*?)", ([A-Z_|]+)', rest).groups()
            path = os.path.realpath(name)
            reads, writes = 'O_RDONLY' in flags, 'O_WRONLY' in flags and 'O_TRUNC' not in flags
            if not (reads and (path in inputs or STARTS.fullmatch(name)) or writes and path in outputs):
                told(line)
        elif call in ('write', 'pwrite64', 'writev', 'ftruncate', 'flock') and 'resumed>' not in line:
            number, path = re.match(r'(\d+)(?:<(.*?)>)?', rest).groups()
            if call == 'flock':
                locked.add(path)
                if 'LOCK_EX|LOCK_NB' not in rest:
                    told(line)
            elif not (number in ('1', '2') and call != 'ftruncate' or path in outputs and path in locked):
                told(line)
        elif call in ('read', 'pread64', 'readv') and 'resumed>' not in line:
            path = re.match(r'\d+(?:<(.*?)>)?', rest)[1]
            if path not in inputs and not STARTS.fullmatch(path):
                told(line)
    if programs != 1:
        faults.append(f'{what}: {programs} programs were started')


def play(name, records, wanted=0, capture=None, script=None, disks=()):
    """A play of a session of examples/, with its outputs in the same folder."""
    inputs = script or f'{name}.session', capture or f'{name}.capture.wav'
    outputs = [f'{name}.playback.wav', *(f'{name}.record{it}.wav' for it in range(records))]
    named = [*(word for it in outputs[1:] for word in ('--record', it)), *(word for it in disks for word in ('--disk', it))]
    run(f'a play of {inputs[0]}', wanted, ['play', *inputs, outputs[0], *named], [*inputs, *disks], outputs)


open('faulty', 'w').write('jackd 1\nrate 1\n')
for name, records in (('straight', 0), ('metronome', 0), ('notes', 0), ('patch', 2), ('bench', 2), ('echo', 1), ('periods', 1), ('threads', 1)):
    play(name, records)
play('tracks', 1, disks=['tracks.disk0.wav', 'tracks.disk1.wav'])
play('tracks', 1, 3, disks=['tracks.disk0.wav', 'missing'])
play('tracks', 1, 7, disks=['tracks.disk1.wav', 'tracks.disk0.wav'])
play('straight', 0, 5, script='faulty')
play('straight', 0, 4, capture='faulty')
play('straight', 0, 3, capture='missing')
play('straight', 0, 7, capture='patch.capture.wav')
run('a play onto its capture', 6, ['play', 'straight.session', 'straight.capture.wav', './straight.capture.wav'], ['straight.session', 'straight.capture.wav'], ['straight.capture.wav'])
run('a play into a folder that is missing', 6, ['play', 'straight.session', 'straight.capture.wav', 'missing/p'], ['straight.session', 'straight.capture.wav'], ['missing/p'])
run('a graph', 0, ['graph', 'patch.session', 'patch.report', '3'], ['patch.session', 'patch.report'])
run('a digraph', 0, ['graph', 'patch.session', 'patch.report', '3', '--dot'], ['patch.session', 'patch.report'])
run('a graph of another report', 8, ['graph', 'straight.session', 'patch.report', '1'], ['straight.session', 'patch.report'])
run('a rehearsal', 0, ['rehearse', '7'])
run('the help', 0, ['--help'])
run('the version', 0, ['--version'])
run('words of no command', 2, ['plai', 'a', 'b', 'c'])
if checks:
    for name, records in (('patch', 2), ('threads', 1)):
        report = f'{name}.played'
        words = [f'{name}.session', f'{name}.capture.wav']
        files = [f'{name}.playback.wav', *(f'{name}.record{it}.wav' for it in range(records))]
        named = [files[0], *(word for it in files[1:] for word in ('--record', it))]
        with open(report, 'wb') as out:
            subprocess.run([jackd, 'play', *words, *named], stdout=out, stderr=subprocess.DEVNULL)
        run(f'a check of {name}', 0, ['check', *words, report, *named], [*words, report, *files])
        run(f'a check of {name} with another playback', 8, ['check', *words, report, 'straight.playback.wav', *named[1:]], [*words, report, 'straight.playback.wav', *files[1:]])
for it in faults[:20]:
    print('check-calls:', it)
if not faults:
    print(f'check-calls: passed, {runs} runs' + ('' if checks else '; the program has no check'))
sys.exit(bool(faults))
PY
