#!/usr/bin/env python3
"""short_rows.py [LEAST]: makes the rows of crates.txt short.

A name in a row is more than is needed where another crate of the row stands on it. Such names go, each that saves at least LEAST
files (10,000 where none is told) of those that are read along all paths. What the crate cites of them it then reaches through a crate
of its row, which passes the lower crate on as a whole: by `pub use Rattle.LOWER` in its specs/Lib.antt and, where code is cited,
by `pub use LOWER;` in its src/lib.rt. Crates on which none stands keep their rows. Prints what it did; `rt fmt` has to follow in
each crate that changed. It changes names alone: what they mean stays.
"""
import functools
import os
import re
import sys

PARTS = ('src', 'specs', 'proofs')
EDITS = ('must-fail', 'edits')


def texts(crate, parts):
    """The paths of the crate's files in these folders."""
    for part in parts:
        for at, _, names in os.walk(f'crates/{crate}/{part}'):
            yield from (f'{at}/{name}' for name in names if name.endswith(('.rt', '.antt', '.edit')))


def rows():
    """What each crate stands on, of the repository's crates."""
    found = {}
    with open('crates.txt', encoding='utf-8') as file:
        for line in file:
            line = line.split('#')[0].strip()
            if line:
                crate, _, names = line.partition(':')
                found[crate.split()[0]] = names.split()
    return {crate: [name for name in names if name in found] for crate, names in found.items()}


def all_below(graph):
    """By crate all crates below it."""
    @functools.lru_cache(None)
    def below(crate):
        return frozenset().union(*[{name} | below(name) for name in graph[crate]])
    return {crate: below(crate) for crate in graph}


def reads(graph, own):
    """By crate the files that are read along all paths that lead down from it, and the paths that lead down to it."""
    @functools.lru_cache(None)
    def down(crate):
        return own[crate] + sum(down(name) for name in graph[crate])
    above = {crate: [] for crate in graph}
    for crate, names in graph.items():
        for name in names:
            above[name].append(crate)

    @functools.lru_cache(None)
    def up(crate):
        return 1 + sum(up(name) for name in above[crate])
    return {crate: down(crate) for crate in graph}, {crate: up(crate) for crate in graph}


def dropped(graph, least):
    """The names that go, each with its crate: always the one first that saves most. `graph` loses them."""
    own = {crate: len(list(texts(crate, PARTS))) for crate in graph}
    tops = set(graph) - {name for names in graph.values() for name in names}
    gone = []
    while True:
        below, (down, up) = all_below(graph), reads(graph, own)
        spare = [(up[crate] * down[name], crate, name) for crate in graph if crate not in tops for name in graph[crate]
                 if any(name in below[other] for other in graph[crate])]
        saved, crate, name = max(spare, default=(0, '', ''))
        if saved < max(least, 1):
            return gone, sum(down.values())
        graph[crate].remove(name)
        gone.append((crate, name))


class Passing:
    """Which crate passes which lower one on."""

    def __init__(self, graph):
        self.graph, self.below = graph, all_below(graph)
        self.by = {}
        self.passed = {}

    @functools.lru_cache(None)
    def depth(self, crate):
        return 1 + max([self.depth(name) for name in self.graph[crate]], default=0)

    def carrier(self, crate, name):
        """The crate of the row that passes `name` on: one that does already, else one that names it, else the lowest."""
        if (crate, name) not in self.by:
            fit = [it for it in self.graph[crate] if name in self.below[it]]
            self.by[crate, name] = min(fit, key=lambda it: ((it, name) not in self.passed, name not in self.graph[it], self.depth(it)))
        return self.by[crate, name]

    def ask(self, crate, name, code):
        """Has `name` passed on to the crate, its code too where that is cited."""
        carrier = self.carrier(crate, name)
        had = self.passed.get((carrier, name))
        self.passed[carrier, name] = code or bool(had)
        if had != self.passed[carrier, name] and name not in self.graph[carrier]:
            self.ask(carrier, name, self.passed[carrier, name])


def ghost(name):
    return re.compile(rf'(?<![\w.])Rattle\.{name}(?=\.)')


def code(name):
    return re.compile(rf'(?<![\w:.]){name}(?=::)')


def whole(name):
    return re.compile(rf'(?m)^(\s*(?:pub )?use ){name}(?=;| as )')


def cites(crate, name):
    """Whether the crate cites the other one, and whether its code does."""
    any_text = any_code = False
    for path in texts(crate, PARTS):
        with open(path, encoding='utf-8') as file:
            text = file.read()
        any_text = any_text or bool(ghost(name).search(text))
        if path.endswith('.rt'):
            any_code = any_code or bool(code(name).search(text) or whole(name).search(text))
    return any_text, any_code


def rename(crate, names, passing):
    """Has the crate's files cite each of the names through the crate that passes it on. Answers whether any changed."""
    changed = False
    for path in texts(crate, PARTS + EDITS):
        with open(path, encoding='utf-8') as file:
            old = text = file.read()
        for name in names:
            by = passing.carrier(crate, name)
            text = ghost(name).sub(f'Rattle.{by}.specs.{name}', text)
            if path.endswith(('.rt', '.edit')):
                text = whole(name).sub(rf'\g<1>{by}::{name}', code(name).sub(f'{by}::{name}', text))
        if text != old:
            changed = True
            with open(path, 'w', encoding='utf-8') as file:
                file.write(text)
    return changed


def add_lines(path, lines):
    """Puts lines at the end of a file that has not got them."""
    had = []
    if os.path.exists(path):
        with open(path, encoding='utf-8') as file:
            had = file.read().rstrip('\n').split('\n')
    os.makedirs(os.path.dirname(path), exist_ok=True)
    with open(path, 'w', encoding='utf-8') as file:
        file.write('\n'.join([it for it in had if it or len(had) > 1] + [it for it in lines if it not in had]) + '\n')


def shorten(gone):
    """Writes crates.txt without the names that went."""
    with open('crates.txt', encoding='utf-8') as file:
        lines = file.read().split('\n')
    for at, line in enumerate(lines):
        if line.split('#')[0].strip():
            crate, _, names = line.partition(':')
            kept = [name for name in names.split() if (crate.split()[0], name) not in gone]
            lines[at] = ' '.join([crate + ':', *kept])
    with open('crates.txt', 'w', encoding='utf-8') as file:
        file.write('\n'.join(lines))


def main(words):
    graph = rows()
    gone, count = dropped(graph, int(words[0]) if words else 10_000)
    passing = Passing(graph)
    cited = {pair: cites(*pair) for pair in gone}
    for crate, name in sorted(gone, key=lambda pair: (passing.depth(pair[0]), pair[1])):
        if any(cited[crate, name]):
            passing.ask(crate, name, cited[crate, name][1])
    changed = [crate for crate in graph if rename(crate, [name for at, name in gone if at == crate and any(cited[at, name])], passing)]
    for (carrier, name), has_code in sorted(passing.passed.items()):
        by = None if name in graph[carrier] else passing.carrier(carrier, name)
        add_lines(f'crates/{carrier}/specs/Lib.antt', [f'pub use Rattle.{by}.specs.{name}' if by else f'pub use Rattle.{name}'])
        if has_code:
            add_lines(f'crates/{carrier}/src/lib.rt', [f'pub use {by}::{name};' if by else f'pub use {name};'])
        changed += [carrier] * (carrier not in changed)
    shorten(set(gone))
    print(f'{len(gone)} names went; {count} files are read along all paths; changed: {" ".join(sorted(changed)) or "none"}')


if __name__ == '__main__':
    main(sys.argv[1:])
