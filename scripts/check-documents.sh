#!/usr/bin/env bash
# Each result that README.md and docs/*.md print is what the program gives. In these documents a fenced block whose first
# line has two words, as in ```text first.session, is a file of that name; a ```console block is commands behind `$ `, each
# with what it prints. A document's blocks are run in their order, in a folder of their own, with `jackd` on the path; that of
# examples/README.md has the files of examples/.
# A command that needs a tool that is missing is passed over. The files of docs/TUTORIAL.md are those of examples/tutorial/.
set -u
# shellcheck source=scripts/program.sh
. "$(dirname "$0")/program.sh" python3
python3 - "$jackd" README.md examples/README.md docs/*.md <<'PY'
import glob, os, re, shutil, subprocess, sys, tempfile

program, documents = os.path.abspath(sys.argv[1]), sys.argv[2:]
missing = [it for it in ('dot', 'sox', 'ffprobe', 'man') if not shutil.which(it)]
block = re.compile(r'^```(\S+)(?: (\S+))?\n(.*?)^```$', re.M | re.S)
faults = commands = 0


def calls(text):
    """The commands of a block, each with what it prints."""
    parts = re.split(r'^\$ (.*)\n', text, flags=re.M)
    if parts[0]:
        raise SystemExit(f'check-documents: a block begins without a command: {parts[0][:60]}')
    return list(zip(parts[1::2], parts[2::2]))


def run(words, place, path):
    """What these commands print, one after the other in one shell, with standard error behind."""
    mark = 'the end of one command'
    script = ''.join(f'{it}\n{{ mark=$?; echo; echo "{mark}"; (exit $mark); }} 2>/dev/null\n' for it in words)
    done = subprocess.run(['bash', '-c', script], cwd=place, env={**os.environ, 'PATH': path, 'TMPDIR': place}, stdout=subprocess.PIPE, stderr=subprocess.DEVNULL, text=True)
    return done.stdout.split(f'\n{mark}\n')


for document in documents:
    blocks = block.findall(open(document).read())
    with tempfile.TemporaryDirectory() as folder:
        place, tool = f'{folder}/work', f'{folder}/tool'
        os.mkdir(tool)
        if os.path.dirname(document) == 'examples':
            shutil.copytree('examples', place)
        else:
            os.mkdir(place)
        os.symlink(program, f'{tool}/jackd')
        path = f'{tool}:{os.environ["PATH"]}'
        for language, name, text in blocks:
            if name:
                open(f'{place}/{name}', 'w').write(text)
            elif language == 'console':
                wanted = []
                for command, result in calls(text):
                    lacking = [it for it in missing if re.search(rf'(^|\|) *{it} ', command)]
                    if lacking:
                        print(f'check-documents: {document}: passed over, no {lacking[0]}: {command[:60]}')
                    else:
                        wanted.append((command, result))
                printed = run([it for it, _ in wanted], place, path)
                if len(printed) != len(wanted) + 1:
                    raise SystemExit(f'check-documents: {document}: {len(printed) - 1} of {len(wanted)} commands ran: {wanted[0][0][:60]}')
                for (command, result), got in zip(wanted, printed):
                    commands += 1
                    if got != result:
                        faults += 1
                        print(f'check-documents: {document}: {command}\n-- printed\n{got}-- and not\n{result}', end='')
named = {name: text for _, name, text in block.findall(open('docs/TUTORIAL.md').read()) if name}
kept = {os.path.basename(it): open(it).read() for it in glob.glob('examples/tutorial/*')}
for name in sorted({*named, *kept}):
    if named.get(name) != kept.get(name):
        faults += 1
        print(f'check-documents: {name} differs in docs/TUTORIAL.md and in examples/tutorial/')
if not faults:
    print(f'check-documents: passed, {commands} commands')
sys.exit(faults != 0)
PY
