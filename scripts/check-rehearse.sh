#!/usr/bin/env bash
# What the program tells of a rehearsal is what scripts/rehearsal.py computes of its number from docs/FORMATS.md alone, and what
# a play of its two files gives: for the ends of the numbers and $NUMBERS others (50), drawn from $SEED (1).
set -u
# shellcheck source=scripts/program.sh
. "$(dirname "$0")/program.sh" python3
folder=$(mktemp -d)
trap 'rm -rf "$folder"' EXIT
python3 - "$jackd" "$folder" <<'PY'
import os, random, subprocess, sys

jackd, folder = sys.argv[1:]
others = random.Random(int(os.environ.get('SEED', 1))).sample(range(2**32), int(os.environ.get('NUMBERS', 50)))
numbers, faults = [0, 1, 7, 2**32 - 1, *others], []


def told(*words, code=0):
    """Standard output of a program that ends with this code."""
    ran = subprocess.run(words, stdout=subprocess.PIPE, text=True)
    if ran.returncode != code:
        faults.append(f'{" ".join(words)}: exit code {ran.returncode}, not {code}')
    return ran.stdout


def same(what, given, wanted):
    if given != wanted:
        faults.append(f'{what}:\n{given}is not\n{wanted}')


lines = told('scripts/rehearsal.py', *map(str, numbers)).splitlines(keepends=True)
summaries = [''.join(lines[at : at + 6]) for at in range(0, len(lines), 6)]
same('the numbers', [text.split()[1] for text in summaries], [str(number) for number in numbers])
for number, summary in zip(numbers, summaries):
    same(f'rehearse {number}', told(jackd, 'rehearse', str(number)), summary)
same('rehearse 007', told(jackd, 'rehearse', '007'), summaries[2])

# Its two files, as the program plays them.
s, c, p, r, out = (os.path.join(folder, name) for name in ('s', 'c', 'p', 'r', 'out'))
told('scripts/rehearsal.py', '--files', '7', s, c)
with open(out, 'w', encoding='ascii') as it:
    it.write(told(jackd, 'play', s, c, p, '--record', r))
same('a play of its files', 'rehearse 7\n' + told('scripts/rehearsal.py', '--played', p, r, out), summaries[2])

for fault in faults:
    print('check-rehearse:', fault)
if not faults:
    print(f'check-rehearse: passed, {len(numbers)} numbers')
sys.exit(bool(faults))
PY
