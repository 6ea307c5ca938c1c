#!/usr/bin/env python3
"""Which graph a cycle used, by docs/FORMATS.md alone: the answer of `jackd graph`, computed a second time.

`answer(script, report, cycle)` gives the exit code and standard output."""
import re

NAMES = ('NoClient NoPort IsOpen IsSystem NameTaken AlreadyActive NotActive ClientsFull PortsFull NoSource NoDestination NotOutput '
         'NotInput TypeDiffers Inactive Exists Full NotConnected Busy NotMaster InUse').split()
REFUSALS = {name: number for number, name in enumerate(NAMES, 1)}
NUMBER = r'(?:0|[1-9][0-9]{0,18})'
CALL = re.compile(rf'call ({NUMBER}) ({NUMBER}) (?:ok ({NUMBER})|refused ({NUMBER}) (\w+)|latency ({NUMBER}) ({NUMBER}))')
CYCLE = re.compile(rf'cycle ({NUMBER}) ({NUMBER}) (stopped|starting|rolling) ({NUMBER}) (-|{NUMBER}\|{NUMBER}\|{NUMBER})')


class Script:
    """The calls of a script, lane by lane, and its channels and cycles."""

    def __init__(self, text):
        self.calls = {lane: [] for lane in range(5)}
        self.cycles = 0
        for line in text.split('\n'):
            words = line.split()
            if not words or words[0].startswith('#'):
                continue
            if words[0] == 'capture':
                self.capture = int(words[1])
            elif words[0] == 'playback':
                self.playback = int(words[1])
            elif words[0] in ('run', 'freewheel'):
                self.cycles += int(words[1])
            elif words[0] == 'do':
                self.calls[0].append(words[1:])
            elif words[0] == 'lane':
                self.calls[int(words[1])].append(words[4:])
        self.count = sum(map(len, self.calls.values()))


class Client:
    def __init__(self, name, kind, active=False):
        self.name, self.kind, self.active = name, kind, active


class Graph:
    """Clients in order of opening, ports [name, way, type] in order of birth, connections [source, destination, mark]."""

    def __init__(self, capture, playback):
        self.clients = [Client('system', ['device'], True)]
        self.ports = [[f'system:capture_{i}', 'out', 'audio'] for i in range(1, capture + 1)]
        self.ports += [[f'system:playback_{i}', 'in', 'audio'] for i in range(1, playback + 1)]
        self.edges, self.master = [], None

    def client(self, name):
        return next((it for it in self.clients if it.name == name), None)

    def port(self, name):
        return next((it for it in self.ports if it[0] == name), None)

    def node(self, port):
        return port.rsplit('_', 1)[0] if port.startswith('system:') else port.split(':')[0]

    def leads(self, start, end):
        """Whether direct edges lead from one node to another, over one edge at least."""
        met, left = set(), [start]
        while left:
            node = left.pop()
            for source, destination, mark in self.edges:
                behind = self.node(destination)
                if mark == 'direct' and self.node(source) == node and behind not in met:
                    met.add(behind)
                    left.append(behind)
        return end in met

    def mark(self, source, destination):
        source, destination = self.node(source), self.node(destination)
        return 'feedback' if source == destination or self.leads(destination, source) else 'direct'

    def without(self, gone):
        """Takes the edges away of which this holds, and tests each feedback edge again."""
        kept = [edge for edge in self.edges if not gone(edge)]
        if len(kept) == len(self.edges):
            return
        self.edges = kept
        for edge in self.edges:
            if edge[2] == 'feedback':
                edge[2] = self.mark(edge[0], edge[1])

    def refusal(self, command):
        name, *rest = command
        if name == 'open':
            if self.client(rest[0]):
                return 'IsOpen'
            if len(self.clients) >= 65:
                return 'ClientsFull'
            if rest[1] in ('record', 'guest', 'disk') and any(it.kind == rest[1:] for it in self.clients):
                return 'InUse'
        elif name in ('close', 'activate', 'deactivate', 'slow', 'timebase', 'timebase_if', 'release'):
            client = self.client(rest[0])
            if not client:
                return 'NoClient'
            if rest[0] == 'system':
                return 'IsSystem'
            if name == 'activate' and client.active:
                return 'AlreadyActive'
            if name == 'deactivate' and not client.active:
                return 'NotActive'
            if name == 'timebase_if' and self.master not in (None, rest[0]):
                return 'Busy'
            if name == 'release' and self.master != rest[0]:
                return 'NotMaster'
        elif name == 'register':
            owner = rest[0].split(':')[0]
            if not self.client(owner):
                return 'NoClient'
            if owner == 'system':
                return 'IsSystem'
            if self.port(rest[0]):
                return 'NameTaken'
            if sum(it[0].split(':')[0] == owner and it[1] == rest[1] for it in self.ports) >= 16:
                return 'PortsFull'
        elif name == 'unregister':
            if not self.port(rest[0]):
                return 'NoPort'
            if rest[0].startswith('system:'):
                return 'IsSystem'
        elif name == 'latency':
            if not self.port(rest[1]):
                return 'NoPort'
        elif name in ('connect', 'disconnect'):
            source, destination = map(self.port, rest)
            if not source:
                return 'NoSource'
            if not destination:
                return 'NoDestination'
            there = any(edge[:2] == rest for edge in self.edges)
            if name == 'disconnect':
                return None if there else 'NotConnected'
            if source[1] != 'out':
                return 'NotOutput'
            if destination[1] != 'in':
                return 'NotInput'
            if source[2] != destination[2]:
                return 'TypeDiffers'
            if not all(self.client(port.split(':')[0]).active for port in rest):
                return 'Inactive'
            if there:
                return 'Exists'
            if len(self.edges) >= 512:
                return 'Full'
        return None

    def change(self, command):
        name, *rest = command
        if name == 'open':
            self.clients.append(Client(rest[0], rest[1:]))
        elif name in ('close', 'deactivate'):
            self.without(lambda edge: rest[0] in (edge[0].split(':')[0], edge[1].split(':')[0]))
            if self.master == rest[0]:
                self.master = None
            self.client(rest[0]).active = False
            if name == 'close':
                self.clients.remove(self.client(rest[0]))
                self.ports = [it for it in self.ports if it[0].split(':')[0] != rest[0]]
        elif name == 'activate':
            self.client(rest[0]).active = True
        elif name == 'register':
            self.ports.append(list(rest))
        elif name == 'unregister':
            self.without(lambda edge: rest[0] in edge[:2])
            self.ports.remove(self.port(rest[0]))
        elif name == 'connect':
            self.edges.append([*rest, self.mark(*rest)])
        elif name == 'disconnect':
            self.without(lambda edge: edge[:2] == rest)
        elif name in ('timebase', 'timebase_if'):
            self.master = rest[0]
        elif name == 'release':
            self.master = None

    def latency(self, mode, name):
        """The least and the greatest of all ways, since capture or until playback."""
        way = 'in' if mode == 'capture' else 'out'
        here, there = (1, 0) if mode == 'capture' else (0, 1)
        joined = lambda ranges: (min(it[0] for it in ranges), max(it[1] for it in ranges)) if ranges else (0, 0)

        def of(port):
            owner = port[0].split(':')[0]
            if port[1] == way:
                return joined([of(self.port(edge[there])) for edge in self.edges if edge[here] == port[0] and edge[2] == 'direct'])
            if owner == 'system':
                return (0, 0)
            kind = self.client(owner).kind
            delay = int(kind[1]) if kind[0] == 'delay' else 0
            least, most = joined([of(it) for it in self.ports if it[0].split(':')[0] == owner and it[1] == way])
            return (least + delay, most + delay)

        return of(self.port(name))

    def lines(self):
        lines = []
        for client in self.clients:
            lines.append(f'client {client.name} {" ".join(client.kind)} {"active" if client.active else "inactive"}')
            lines += [f'port {" ".join(it)}' for it in self.ports if it[0].split(':')[0] == client.name]
        return lines + [f'connected {" ".join(edge)}' for edge in self.edges]


def front(script, report, cycle):
    """The calls and the line of a cycle that a report tells, or the number of the first line that is wrong."""
    lines = report.split('\n')
    whole = lines[:-1]
    calls, cycles = [], 0
    for number, line in enumerate(whole, 1):
        call, told = CALL.fullmatch(line), CYCLE.fullmatch(line)
        if call and call[3] and int(call[3]) >= 2 ** 32:
            call = None
        if call and call[4] and REFUSALS.get(call[5]) != int(call[4]):
            call = None
        if len(line) > 512:
            return number
        if number == 1:
            if line != 'report 1':
                return number
        elif call and not cycles and len(calls) < script.count:
            calls.append(call)
        elif told and int(told[1]) == cycles + 1 and cycles < script.cycles:
            cycles += 1
            if cycles == cycle:
                return calls, told
        else:
            return number
    return len(whole) + 1


def answer(script_text, report, cycle):
    script = Script(script_text)
    if not 1 <= cycle <= script.cycles:
        return 2, 'fault 2 words\n'
    found = front(script, report, cycle)
    if isinstance(found, int):
        return 8, f'check wrong report {found}\n'
    calls, told = found
    wanted = int(told[2])
    graph, changes, made = Graph(script.capture, script.playback), 0, {}
    for number, call in enumerate(calls, 1):
        if changes == wanted:
            break
        lane, index = int(call[1]), int(call[2])
        made[lane] = made.get(lane, 0) + 1
        if lane > 4 or index != made[lane] or index > len(script.calls[lane]):
            return 8, f'check wrong call {number}\n'
        command = script.calls[lane][index - 1]
        command = [command[0], *(str(int(it)) if re.fullmatch('-?[0-9]+', it) and at > 1 else it for at, it in enumerate(command[1:], 1))]
        refusal = graph.refusal(command)
        if refusal:
            reply = f'refused {REFUSALS[refusal]} {refusal}'
        elif command[0] == 'latency':
            reply = 'latency {} {}'.format(*graph.latency(*command[1:]))
        else:
            reply = f'ok {changes + 1}'
        if not call[0].endswith(f' {lane} {index} {reply}'):
            return 8, f'check wrong call {number}\n'
        if reply.startswith('ok'):
            graph.change(command)
            changes += 1
    if changes != wanted:
        return 8, f'check wrong cycle {cycle}\n'
    lines = [f'cycle {cycle} change {wanted}', *graph.lines(), f'transport {told[3]} {told[4]} {told[5]}', 'end']
    return 0, ''.join(line + '\n' for line in lines)
