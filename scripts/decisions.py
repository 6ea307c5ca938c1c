#!/usr/bin/env python3
"""The index of docs/DECISIONS.md: a line for each section, and in it the words with which each of its decisions begins.

    scripts/decisions.py            writes the index anew
    scripts/decisions.py --print    prints it, and writes nothing

A decision begins a paragraph, or an item of a list, with bold words, or has a heading of its own. scripts/check-proved.sh looks
whether the index is the one of the page.
"""

import re
import sys
from pathlib import Path

PAGE = Path(__file__).resolve().parent.parent / 'docs/DECISIONS.md'
HEADING = '## Index\n\n'
BEGINS = re.compile(r'^(?:- )?\*\*(?P<words>.+?)\*\*|^### (?P<heading>.+)$', re.M)


def link(heading):
    """A link to a heading of the page."""
    anchor = re.sub(r'[^\w\- ]', '', heading.lower()).replace(' ', '-')
    return f'[{heading}](#{anchor})'


def split(page):
    """What stands before the index, the index, and the sections behind it."""
    before, _, behind = page.partition(HEADING)
    index, mark, sections = behind.partition('\n## ')
    return before, index, mark.lstrip('\n') + sections


def index_of(sections):
    """The index of these sections."""
    lines = []
    for section in re.split(r'^## ', sections, flags=re.M)[1:]:
        title, body = section.split('\n', 1)
        words = [link(it['heading']) if it['heading'] else it['words'].rstrip('.') for it in BEGINS.finditer(body)]
        lines.append(f'- **{link(title)}**' + (': ' + ' · '.join(words) if words else '') + '\n')
    return ''.join(lines)


def main():
    before, _, sections = split(PAGE.read_text())
    index = index_of(sections)
    if sys.argv[1:] == ['--print']:
        print(index, end='')
    elif sys.argv[1:]:
        sys.exit(__doc__)
    else:
        PAGE.write_text(f'{before}{HEADING}{index}\n{sections}')


if __name__ == '__main__':
    main()
