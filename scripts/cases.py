"""Worked cases of a report or a file that is changed, each with what is wrong first: the folders of tests/verdicts and tests/graphs.

A folder has a script `s` and, where it is checked, a capture `c`, a playback `p` and of each recorder a file, `r0` and so on, in the
forms of tests/rows; and of the report

    lines      the report, a line each. Behind its text stand, between bars, what is wrong where it is left out, where it stands twice,
               where it and the next one change places, and for each of its numbers, where that is one more and where it is one less; `-`
               stands where there is no such change
    o          the report, where no `lines` has it
    changes    more of them, a line each: WRONG: LINES TEXT. In the place of line N, or of lines N-M, stands TEXT, in which \\n and \\r
               are bytes
    files      changes of one of the other files, a line each: WRONG: NAME CHANGE

                   cut N       its first N bytes
                   more HEX    these bytes behind its last one
                   flip N      the lowest bit of byte N is another one
                   N HEX       these bytes from byte N on
                   as WAVE     another WAVE file, as in a .wave of a row

               or several of them, with a comma between. Where an N is FIRST-LAST, each of these numbers is a case, and stands for
               {} in WRONG

In the last two a line that begins with # says what those below it show, and one that begins with = what standard error has of the
case above it, with {} as there, {old} for the byte of that place and {new} for the one that stands there.

What is wrong is `ok`, where nothing is, or a part and its number, and of a file the place. All of it is from paper, by
docs/FORMATS.md alone.
"""
import os
import re

from rows import wave_of


def numbers_in(line):
    """Where the numbers among a line's words begin and end."""
    return [found.span() for found in re.finditer(r'(?<= )[0-9]+(?= |$)', line)]


def with_number(line, place, more):
    begin, end = numbers_in(line)[place]
    return f'{line[:begin]}{int(line[begin:end]) + more}{line[end:]}'


def text_of(lines):
    return ''.join(f'{line}\n' for line in lines)


def changed_file(held, change):
    """A file behind such a change."""
    for part in change.split(', '):
        kind, rest = part.split(' ', 1)
        if kind == 'cut':
            held = held[:int(rest)]
        elif kind == 'more':
            held += bytes.fromhex(rest)
        elif kind == 'as':
            held = wave_of(rest)
        else:
            at = int(rest if kind == 'flip' else kind)
            other = bytes([held[at] ^ 1]) if kind == 'flip' else bytes.fromhex(rest)
            held = held[:at] + other + held[at + len(other):]
    return held


class Cases:
    """The report of a folder, and its cases: what is changed, the changed report, and what is wrong first.

    `told` has what standard error tells of some of them, and `files` the changes of files: what is changed, of which one, how, and what
    is wrong first.
    """

    def __init__(self, folder):
        self.rows = self.table(f'{folder}/lines')
        self.lines = [line for line, _ in self.rows] or self.read(f'{folder}/o')
        self.report, self.told = text_of(self.lines), {}
        self.all = [case for case in self.of_lines() if case[2] != '-'] + [self.of_change(*it) for it in self.changes(f'{folder}/changes')]
        self.files = [case for it in self.changes(f'{folder}/files') for case in self.of_file(*it)]

    @staticmethod
    def read(path):
        if not os.path.exists(path):
            return []
        with open(path) as it:
            return it.read().splitlines()

    def table(self, path):
        rows = [[cell.strip() for cell in re.split(r'\s+\|(?: |$)', line)] for line in self.read(path)]
        return [(line, [left_out, twice, exchanged, *([cell for cell in cells.split(', ') if cell] for cells in numbers)]) for line, left_out, twice, exchanged, *numbers in rows]

    def of_lines(self):
        for at, (line, (left_out, twice, exchanged, more, less)) in enumerate(self.rows):
            front, rest, what = self.lines[:at], self.lines[at + 1:], f'line {at + 1}'
            yield f'{what} left out', text_of([*front, *rest]), left_out
            yield f'{what} twice', text_of([*front, line, line, *rest]), twice
            yield f'{what} and the next change places', text_of([*front, *rest[:1], line, *rest[1:]]), exchanged
            for by, wrong in ((1, more), (-1, less)):
                assert len(wrong) == len(numbers_in(line)), f'{what} has {len(numbers_in(line))} numbers, and {len(wrong)} words for them'
                for place, one in enumerate(wrong):
                    changed = with_number(line, place, by)
                    yield f'{what} as {changed!r}', text_of([*front, changed, *rest]), one

    def changes(self, path):
        """Each change of such a file, with what standard error has of it."""
        found = []
        for line in self.read(path):
            if line.startswith('= '):
                found[-1][1] = line[2:]
            elif not line.startswith('#'):
                found.append([line, None])
        return found

    def of_change(self, change, told):
        wrong, first, last, text = re.fullmatch(r'(ok|[a-z]+ \d+(?: \d+)?): (\d+)(?:-(\d+))?(?: (.*))?', change).groups()
        front, rest = self.lines[:int(first) - 1], self.lines[int(last or first):]
        self.told[change] = told
        return change, text_of(front) + (text or '').replace('\\n', '\n').replace('\\r', '\r') + text_of(rest), wrong

    def of_file(self, change, told):
        wrong, name, how = re.fullmatch(r'(ok|[a-z]+ \d+ (?:\d+|\{\})): (\w+) (.*)', change).groups()
        span = re.search(r'\b(\d+)-(\d+)\b', how)
        for number in range(int(span[1]), int(span[2]) + 1) if span else [None]:
            one = how if number is None else how.replace(span[0], str(number), 1)
            what = f'{name} {one}'
            self.told[what] = told
            yield what, name, one, wrong.replace('{}', str(number))


def all_in(top):
    """The folders of such a place, with their cases."""
    return [(f'{top}/{name}', Cases(f'{top}/{name}')) for name in sorted(os.listdir(top))]
