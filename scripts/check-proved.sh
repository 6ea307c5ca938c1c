#!/usr/bin/env bash
# docs/PROVED.md names each promise once, of a crate that is there, each edit, in bold where the gate tries it, and each check of
# scripts/ once; docs/CRATES.md and crates.txt have each crate, once, in the same layers and order; docs/DECISIONS.md has the index
# that scripts/decisions.py makes. Where python3 is missing the check is passed over.
set -u
cd "$(dirname "$0")/.."
if ! command -v python3 >/dev/null; then
  echo "check-proved: passed over, no python3"
  exit 0
fi
python3 - <<'PY'
import os, re, sys

sys.dont_write_bytecode = True
sys.path.insert(0, 'scripts')
import decisions

faults = []
crates = set(os.listdir('crates'))
page = open('docs/PROVED.md').read()
table = page.split('## Promise by promise')[1].split('\n## ')[0]
rows = [[cell.strip() for cell in line.strip().strip('|').split(' | ')] for line in table.splitlines() if re.match(r'\| [a-z]\w* \|', line)]
seen, carried, named = set(), set(), set()
for crate, promise, *rest in rows:
    if crate == 'crate':
        continue
    if (crate, *rest) in carried and rest[0] != 'the same':
        faults.append(f'PROVED.md has two promises of {crate} by the same call, clause and edits: {promise}')
    carried.add((crate, *rest))
    if crate not in crates:
        faults.append(f'PROVED.md tells of a crate {crate}')
    if (crate, promise) in seen:
        faults.append(f'PROVED.md says twice of {crate}: {promise}')
    seen.add((crate, promise))
    for bold, edit in re.findall(r'(\*\*)?`([a-z0-9]+(?:_[a-z0-9]+)+)`', rest[-1] if len(rest) > 1 else ''):
        folder = 'must-fail' if bold else 'edits'
        named.add((crate, folder, edit))
        if not os.path.exists(f'crates/{crate}/{folder}/{edit}.edit'):
            faults.append(f'PROVED.md names an edit that is not there: crates/{crate}/{folder}/{edit}.edit')

edits = {(crate, folder, it.removesuffix('.edit')) for crate in crates for folder in ('must-fail', 'edits')
         if os.path.isdir(f'crates/{crate}/{folder}') for it in os.listdir(f'crates/{crate}/{folder}')}
for crate, folder, edit in sorted(edits - named):
    faults.append(f'PROVED.md has no promise for crates/{crate}/{folder}/{edit}.edit')

checks = [it for it in os.listdir('scripts') if re.fullmatch(r'check-\w+\.sh', it)]
told = re.findall(r'`scripts/(check-\w+\.sh)`', page.split('## What is only tested')[1].split('\n## ')[0])
for name in sorted({*checks, *told}):
    if told.count(name) != 1 or name not in checks:
        faults.append(f'PROVED.md names scripts/{name} {told.count(name)} times' + ', which is not there' * (name not in checks))

layers = re.findall(r'^(?:## (.+)|\| \[`(\w+)`\]\(\.\./crates/\2/README\.md\).*)$', open('docs/CRATES.md').read(), re.M)
rows = re.findall(r'^(?:# (.+)|(\w+)(?: \S+=\S+)*:.*)$', open('crates.txt').read(), re.M)[1:]
for one, other in zip([*layers, ('', '')], [*rows, ('', '')]):
    if one != other:
        faults.append(f'crates.txt has {"".join(other) or "its end"} where CRATES.md has {"".join(one) or "its end"}')
        break
for name, words in (('docs/CRATES.md', [it for _, it in layers if it]), ('crates.txt', [it for _, it in rows if it])):
    for crate in sorted(crates - set(words)):
        faults.append(f'{name} lacks {crate}')
    for crate in sorted(set(words) - crates):
        faults.append(f'{name} has {crate}, which is not there')
    for crate in sorted({it for it in words if words.count(it) > 1}):
        faults.append(f'{name} has {crate} twice')

_, index, sections = decisions.split(decisions.PAGE.read_text())
if index != decisions.index_of(sections):
    faults.append('the index of DECISIONS.md is not of its sections: scripts/decisions.py writes it anew')

for fault in faults:
    print('check-proved:', fault)
if not faults:
    print(f'check-proved: passed, {len(seen)} promises of {len(crates)} crates, {len(edits)} edits')
sys.exit(bool(faults))
PY
