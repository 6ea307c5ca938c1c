#!/usr/bin/env python3
"""What a digraph of `jackd graph --dot` draws, read by a parser of its own, beside what docs/FORMATS.md, section 11, asks for.

`drawn(text)` reads a digraph, `wanted(lines)` has what has to be drawn of the lines that `jackd graph` puts out without --dot,
and `faults(text, lines)` says where they differ. `Laid(text)` is the picture that graphviz makes of a digraph."""
import re, shlex, subprocess

TOKEN = re.compile(r'"((?:[^"\\]|\\.)*)"|([A-Za-z][A-Za-z0-9]*)|(->|[][{};=:])|(\s+)')


class Fault(Exception):
    """No digraph of the form that FORMATS says."""


class Tokens:
    """A text's tokens: a string is ('"', what stands in it), a word ('word', it), all others stand for themselves."""

    def __init__(self, text):
        self.all, at = [], 0
        while at < len(text):
            it = TOKEN.match(text, at)
            if not it:
                raise Fault(f'no token at {text[at:at + 30]!r}')
            at = it.end()
            if it[1] is not None:
                self.all.append(('"', it[1]))
            elif it[2] is not None:
                self.all.append(('word', it[2]))
            elif it[3] is not None:
                self.all.append((it[3], it[3]))
        self.at = 0

    def kind(self):
        return self.all[self.at][0] if self.at < len(self.all) else None

    def take(self, kind, wanted=None):
        if self.kind() != kind or wanted not in (None, self.all[self.at][1]):
            raise Fault(f'{self.all[self.at:self.at + 3]}, and not {wanted or kind}')
        self.at += 1
        return self.all[self.at - 1][1]

    def has(self, kind):
        """Whether this kind comes next; it is taken then."""
        self.at += (it := self.kind() == kind)
        return it

    def value(self):
        return self.take('"') if self.kind() == '"' else self.take('word')

    def attributes(self):
        found = {}
        if self.has('['):
            while not self.has(']'):
                name = self.take('word')
                self.take('=')
                if name in found:
                    raise Fault(f'{name} twice')
                found[name] = self.value()
        return found

    def end(self):
        """A box, a field of it, and a side: the end of an arrow."""
        name = self.take('"')
        self.take(':')
        field = self.take('"')
        self.take(':')
        return name, field, self.take('word')


def fields_of(label):
    """The fields of a record's label: of each its port or None, and its lines; a list where it has fields of its own."""
    at = 0

    def some():
        nonlocal at
        found = []
        while True:
            if label[at:at + 1] == '{':
                at += 1
                found.append(some())
                if label[at:at + 1] != '}':
                    raise Fault(f'a bracket stays open: {label!r}')
                at += 1
            else:
                it = re.compile(r'(?:<([^<>{}|\\ ]+)> )?((?:[^<>{}|\\]|\\n)*)').match(label, at)
                at = it.end()
                lines = it[2].split('\\n')
                if any(not line or re.search('^ | $|  ', line) for line in lines):
                    raise Fault(f'a field that is empty, or a stray blank: {label!r}')
                found.append((it[1], lines))
            if label[at:at + 1] != '|':
                return found
            at += 1

    found = some()
    if at != len(label):
        raise Fault(f'no label: {label!r}')
    return found


def box_of(label):
    """The inputs, the lines and the outputs of a box's label."""
    found = fields_of(label)
    if len(found) != 1 or not isinstance(found[0], list):
        raise Fault(f'no box: {label!r}')
    sides = {'inputs': [], 'lines': None, 'outputs': []}
    for it in found[0]:
        if isinstance(it, tuple):
            if it[0] is not None or sides['lines'] is not None:
                raise Fault(f'more than one middle: {label!r}')
            sides['lines'] = it[1]
        else:
            side = 'inputs' if sides['lines'] is None else 'outputs'
            if sides[side] or any(isinstance(field, list) or field[1] != [field[0]] for field in it):
                raise Fault(f'no side: {label!r}')
            sides[side] = [field[0] for field in it]
    return sides


def drawn(text):
    """What a digraph draws: its attributes, the attributes of all boxes, the boxes, the ranks and the arrows."""
    tokens = Tokens(text)
    tokens.take('word', 'digraph')
    found = {'title': tokens.take('"'), 'picture': {}, 'nodes': None, 'boxes': {}, 'ranks': {}, 'arrows': []}
    tokens.take('{')
    while not tokens.has('}'):
        if tokens.has('{'):
            tokens.take('word', 'rank')
            tokens.take('=')
            rank = tokens.value()
            tokens.take(';')
            found['ranks'].setdefault(rank, []).append(tokens.take('"'))
            tokens.take(';')
            tokens.take('}')
            continue
        if tokens.kind() == 'word':
            name = tokens.take('word')
            if name == 'node' and found['nodes'] is None and not found['boxes']:
                found['nodes'] = tokens.attributes()
            else:
                tokens.take('=')
                if name in found['picture']:
                    raise Fault(f'{name} twice')
                found['picture'][name] = tokens.value()
        elif tokens.all[tokens.at + 1][0] == ':':
            source = tokens.end()
            tokens.take('->')
            found['arrows'].append((source, tokens.end(), tokens.attributes()))
        else:
            name = tokens.take('"')
            if name in found['boxes']:
                raise Fault(f'the box {name} twice')
            attributes = tokens.attributes()
            found['boxes'][name] = (box_of(attributes.pop('label')), attributes)
        tokens.take(';')
    if tokens.kind() is not None:
        raise Fault('something behind the end')
    return found


LOOKS = {
    ('audio', 'direct'): {},
    ('midi', 'direct'): {'style': 'dashed'},
    ('audio', 'feedback'): {'color': 'red', 'style': 'bold', 'constraint': 'false'},
    ('midi', 'feedback'): {'color': 'red', 'style': 'bold,dashed', 'constraint': 'false'},
}


def wanted(lines):
    """What has to be drawn of a graph's lines."""
    words = [line.split() for line in lines.splitlines()]
    of = lambda what: [it[1:] for it in words if it[0] == what]
    ports = {name: (way, kind) for name, way, kind in of('port')}
    of_client = lambda client, way: [it.split(':')[1] for it in ports if it.split(':')[0] == client and ports[it][0] == way]
    boxes = {
        'system:capture': ({'inputs': [], 'lines': ['system', 'capture'], 'outputs': of_client('system', 'out')}, {}),
        'system:playback': ({'inputs': of_client('system', 'in'), 'lines': ['system', 'playback'], 'outputs': []}, {}),
    }
    for name, *kind, activity in of('client'):
        if name != 'system':
            looks = {} if activity == 'active' else {'color': 'grey', 'fontcolor': 'grey'}
            boxes[name] = ({'inputs': of_client(name, 'in'), 'lines': [name, ' '.join(kind)], 'outputs': of_client(name, 'out')}, looks)

    def end(port, system, side):
        client, own = port.split(':')
        return (system if client == 'system' else client), own, side

    arrows = [(end(source, 'system:capture', 'e'), end(destination, 'system:playback', 'w'), LOOKS[ports[source][1], mark])
              for source, destination, mark in of('connected')]
    _, cycle, _, change = words[0]
    title = f'cycle {cycle}, change {change}'
    return {'title': title, 'picture': {'label': title, 'rankdir': 'LR'}, 'nodes': {'shape': 'record'}, 'boxes': boxes,
            'ranks': {'source': ['system:capture'], 'sink': ['system:playback']}, 'arrows': arrows}


def faults(text, lines):
    """Where a digraph is not that of a graph's lines."""
    try:
        one, other = drawn(text), wanted(lines)
    except (Fault, IndexError, KeyError) as fault:
        return [f'no digraph: {fault}']
    found = [f'{what}: {one[what]}, and not {other[what]}' for what in one if one[what] != other[what]]
    if list(one['boxes']) != list(other['boxes']):
        found.append('the order of the boxes')
    return found


class Laid:
    """What graphviz makes of a digraph: its boxes with their places from the left, its arrows, and what it warns of."""

    def __init__(self, text):
        done = subprocess.run(['dot', '-Tplain-ext'], input=text.encode(), stdout=subprocess.PIPE, stderr=subprocess.PIPE, timeout=600)
        self.code, self.warnings = done.returncode, done.stderr.decode()
        words = [shlex.split(line) for line in done.stdout.decode().replace('\\\n', '').splitlines()]
        self.boxes = {it[1]: float(it[2]) for it in words if it[0] == 'node'}
        self.arrows = sorted((it[1], it[2]) for it in words if it[0] == 'edge')
