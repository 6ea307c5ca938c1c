#!/usr/bin/env python3
"""Whether a report can be of its script, and what it and the files then hold, computed from docs/FORMATS.md alone.

explained.py SCRIPT CAPTURE REPORT [PLAYBACK [RECORD]..] [--disk DISK]..    tells what differs, and ends with 1 where anything does
explained.py --tell SCRIPT CAPTURE REPORT [--disk DISK]..                   prints the report anew, by what it leaves open alone

It is a second computation of all that `jackd play` does with a lawful script and its files. A report leaves open only in which
order the lanes' calls were answered, which number each cycle took, and which cycles were overruns and underruns; these are read
off it and have to be ones that can be. All else (replies, moments, peaks, events, counts, every sample) is computed from them,
so that two runs of a script with threads are each held against their own report. Of a script in serial mode these are computed
too.
"""
import struct
import sys

NAMES = (
    'NoClient NoPort IsOpen IsSystem NameTaken AlreadyActive NotActive ClientsFull PortsFull NoSource NoDestination NotOutput NotInput'
    ' TypeDiffers Inactive Exists Full NotConnected Busy NotMaster InUse'
).split()
LEAST, MOST = -(2**31), 2**31 - 1


def clamped(samples):
    return [LEAST if x < LEAST else MOST if x > MOST else x for x in samples]


class Segment:
    """A segment with the calls of lane 0 before it; of the end, without a segment, only these."""

    def __init__(self, freewheel=False, cycles=0, period=0, first=1):
        self.freewheel, self.cycles, self.period, self.first, self.lanes = freewheel, cycles, period, first, {1: [], 2: [], 3: [], 4: []}


def event_of(digits):
    """The bytes of an event."""
    event = bytes.fromhex(digits)
    if event.hex() != digits or not 1 <= len(event) <= 16 or event[0] < 128:
        raise ValueError(f'no event: {digits}')
    return event


class Script:
    """A lawful script."""

    def __init__(self, text):
        rows = [line.split() for line in text.splitlines()]
        rows = [row for row in rows if row and not row[0].startswith('#')]
        self.threads, self.ring, self.drain, self.fill, self.recorders, self.disks = False, 16, 4, 4, [], []
        # The lists of events: of each event its frame and its bytes.
        self.events = [[] for _ in range(16)]
        # Phases: the calls of lane 0, and the segment behind them.
        self.phases, calls, cycles = [], [], 0
        for place, (word, *rest) in enumerate(rows):
            if word == 'rate':
                self.rate = int(rest[0])
            elif word == 'period' and not self.disks:
                self.period = int(rest[0])
            elif word == 'capture':
                self.capture = int(rest[0])
            elif word == 'playback':
                self.playback, self.bits = map(int, rest)
            elif word == 'mode':
                self.threads = rest[0] in ('threads', 'steal')
            elif word == 'ring':
                self.ring = int(rest[0])
            elif word == 'drain':
                self.drain = int(rest[0])
            elif word == 'fill':
                self.fill = int(rest[0])
            elif word == 'recorder':
                self.recorders.append((int(rest[0]), int(rest[1])))
            elif word == 'disk':
                self.disks.append(int(rest[0]))
            elif word == 'event':
                self.events[int(rest[0])].append((int(rest[1]), event_of(rest[2])))
            elif word == 'do':
                calls.append(rest)
            elif word in ('run', 'freewheel'):
                self.phases.append((calls, Segment(word == 'freewheel', int(rest[0]), self.period, cycles + 1)))
                calls, cycles = [], cycles + int(rest[0])
            elif word == 'lane':
                self.phases[-1][1].lanes[int(rest[0])].append((int(rest[2]), rest[3:]))
            elif word != 'jackd' or place:
                raise ValueError(f'no line of a lawful script in this place: {word}')
        self.phases.append((calls, Segment(first=cycles + 1)))
        self.cycles = cycles


class Client:
    def __init__(self, name, kind, birth):
        self.name, self.kind, self.birth, self.active, self.slow = name, kind, birth, False, 0


class Port:
    def __init__(self, name, way, kind, birth):
        self.name, self.client, self.way, self.kind, self.birth = name, name.split(':')[0], way, kind, birth


def node(port, way):
    """The node of a port: capture and playback are two."""
    client = port.split(':')[0]
    return client if client != 'system' else way


class State:
    """What the calls made so far (section 2)."""

    def __init__(self, script):
        system = Client('system', ['pass'], 0)
        system.active = True
        self.clients, self.ports, self.edges, self.master, self.timeout, self.count = {'system': system}, {}, {}, None, None, 0
        for name, way, count in (('capture', 'out', script.capture), ('playback', 'in', script.playback)):
            for k in range(1, count + 1):
                self.ports[f'system:{name}_{k}'] = Port(f'system:{name}_{k}', way, 'audio', 0)

    # Edges are kept by their two ports, in the order of making, each with whether it is feedback.

    def closes_loop(self, source, destination):
        goal, found = node(source, 'capture'), {node(destination, 'playback')}
        while True:
            more = {node(d, 'playback') for (s, d), feedback in self.edges.items() if not feedback and node(s, 'capture') in found} - found
            if not more:
                return goal in found
            found |= more

    def keep(self, stays):
        left = {edge: feedback for edge, feedback in self.edges.items() if stays(edge)}
        if len(left) < len(self.edges):
            self.edges = left
            for edge, feedback in left.items():
                left[edge] = feedback and self.closes_loop(*edge)

    def leave(self, name):
        """A client's edges and its mastership go."""
        self.keep(lambda edge: name not in (edge[0].split(':')[0], edge[1].split(':')[0]))
        if self.master and self.master[0] == name:
            self.master = None

    def refusal(self, words):
        command, first = words[0], words[1:2] and words[1]
        if command == 'latency':
            return None if words[2] in self.ports else 'NoPort'
        if command in ('start', 'stop', 'locate', 'timeout'):
            return None
        if command in ('connect', 'disconnect'):
            source, destination = self.ports.get(words[1]), self.ports.get(words[2])
            if not source or not destination:
                return 'NoDestination' if source else 'NoSource'
            if command == 'disconnect':
                return None if (words[1], words[2]) in self.edges else 'NotConnected'
            tests = [
                (source.way != 'out', 'NotOutput'),
                (destination.way != 'in', 'NotInput'),
                (source.kind != destination.kind, 'TypeDiffers'),
                (not (self.clients[source.client].active and self.clients[destination.client].active), 'Inactive'),
                ((words[1], words[2]) in self.edges, 'Exists'),
                (len(self.edges) >= 512, 'Full'),
            ]
        elif command == 'unregister':
            tests = [(first not in self.ports, 'NoPort'), (first.split(':')[0] == 'system', 'IsSystem')]
        elif command == 'open':
            held = words[2] in ('record', 'guest', 'disk') and any(words[2:] == client.kind for client in self.clients.values())
            tests = [(first in self.clients, 'IsOpen'), (len(self.clients) > 64, 'ClientsFull'), (held, 'InUse')]
        else:
            client = self.clients.get(first.split(':')[0])
            tests = [(not client, 'NoClient'), (client and client.name == 'system', 'IsSystem')]
            if command == 'activate':
                tests.append((client and client.active, 'AlreadyActive'))
            if command == 'deactivate':
                tests.append((client and not client.active, 'NotActive'))
            if command == 'register':
                tests.append((first in self.ports, 'NameTaken'))
                tests.append((client and sum(port.client == client.name and port.way == words[2] for port in self.ports.values()) >= 16, 'PortsFull'))
            if command == 'timebase_if':
                tests.append((self.master and self.master[0] != first, 'Busy'))
            if command == 'release':
                tests.append((not self.master or self.master[0] != first, 'NotMaster'))
        return next((name for applies, name in tests if applies), None)

    def call(self, words):
        """Makes a call, and gives its reply in words."""
        refused = self.refusal(words)
        if refused:
            return f'refused {NAMES.index(refused) + 1} {refused}'
        command, rest = words[0], words[1:]
        if command == 'latency':
            return 'latency {} {}'.format(*self.latency(*rest))
        self.count += 1
        if command == 'open':
            self.clients[rest[0]] = Client(rest[0], rest[1:], self.count)
        elif command == 'close':
            self.leave(rest[0])
            del self.clients[rest[0]]
            self.ports = {name: port for name, port in self.ports.items() if port.client != rest[0]}
        elif command == 'activate':
            self.clients[rest[0]].active = True
        elif command == 'deactivate':
            self.clients[rest[0]].active = False
            self.leave(rest[0])
        elif command == 'register':
            self.ports[rest[0]] = Port(*rest, self.count)
        elif command == 'unregister':
            del self.ports[rest[0]]
            self.keep(lambda edge: rest[0] not in edge)
        elif command == 'connect':
            self.edges[rest[0], rest[1]] = self.closes_loop(*rest)
        elif command == 'disconnect':
            self.keep(lambda edge: edge != (rest[0], rest[1]))
        elif command == 'timeout':
            self.timeout = int(rest[0])
        elif command == 'slow':
            self.clients[rest[0]].slow = int(rest[1])
        elif command in ('timebase', 'timebase_if'):
            self.master = (rest[0], *map(int, rest[1:]))
        elif command == 'release':
            self.master = None
        return f'ok {self.count}'

    def latency(self, mode, port):
        """Section 6. In playback mode ports, edges and ways are looked at from the other end."""
        into = 'in' if mode == 'capture' else 'out'
        ends = (0, 1) if mode == 'capture' else (1, 0)

        def joined(ranges):
            return (min(a for a, _ in ranges), max(b for _, b in ranges)) if ranges else (0, 0)

        def of(name):
            at = self.ports[name]
            if at.way == into:
                return joined([of(edge[ends[0]]) for edge, feedback in self.edges.items() if edge[ends[1]] == name and not feedback])
            if at.client == 'system':
                return 0, 0
            late = int(self.clients[at.client].kind[1]) if self.clients[at.client].kind[0] == 'delay' else 0
            a, b = joined([of(other.name) for other in self.ports.values() if other.client == at.client and other.way == into])
            return a + late, b + late

        return of(port)

    def graph(self):
        return Graph(self)


class Graph:
    """What a cycle needs of a state, which goes on."""

    def __init__(self, state):
        self.births = {name: port.birth for name, port in state.ports.items()}
        self.active = [client.name for client in state.clients.values() if client.active and client.name != 'system']
        self.slow = [client.slow for client in state.clients.values() if client.active and client.slow]
        self.timeout = state.timeout
        self.tempo = state.master[1:] if state.master and state.clients[state.master[0]].active else None
        edges = list(state.edges.items())
        self.into = {}
        for (source, destination), feedback in edges:
            self.into.setdefault(destination, []).append((source, feedback))
        ports = {}
        for port in state.ports.values():
            ports.setdefault((port.client, port.kind, port.way), []).append(port.name)
        self.playback = ports.get(('system', 'audio', 'in'), [])
        # Each player behind those that feed it directly.
        behind, self.order, done = {}, [], set()
        for (source, destination), feedback in edges:
            if not feedback:
                behind.setdefault(destination.split(':')[0], []).append(source.split(':')[0])

        def visit(name):
            if name in done or name == 'system':
                return
            done.add(name)
            for other in behind.get(name, []):
                visit(other)
            client = state.clients[name]
            of_ways = [ports.get((name, kind, way), []) for kind in ('audio', 'midi') for way in ('in', 'out')]
            self.order.append((client.birth, client.kind, *of_ways))

        for name in self.active:
            visit(name)


def first_memory(kind):
    if kind[0] == 'delay':
        return [[0] * int(kind[1]) for _ in range(16)]
    if kind[0] == 'guest':
        return [[0] * 4800, [0, 0], [0]][int(kind[1])]
    return [] if kind[0] == 'midilog' else 0


def play(kind, memory, moment, period, inputs, outputs):
    """What a client plays on so many outputs, and its memory behind it (sections 3 and 4); the inputs of a disk's player are its block."""
    silence = [0] * period
    at = lambda j: inputs[j] if j < len(inputs) else silence
    name, numbers = kind[0], kind[1:]
    if name in ('pass', 'disk'):
        return [at(j) for j in range(outputs)], memory
    if name == 'gain':
        factor, shift = map(int, numbers)
        return [clamped([x * factor >> shift for x in at(j)]) for j in range(outputs)], memory
    if name == 'mix':
        return [clamped(map(sum, zip(silence, *inputs)))] * outputs, memory
    if name == 'delay':
        lines = [memory[j] + at(j) for j in range(16)]
        return [lines[j][:period] for j in range(outputs)], [line[period:] for line in lines]
    if name == 'tone':
        half, level = map(int, numbers)
        return [[level if (memory + n) % (2 * half) < half else -level for n in range(period)]] * outputs, memory + period
    if name == 'click':
        state, frame, tempo, rate = moment
        beats = lambda n: n * tempo[0] // (60000 * rate)
        clicks = state == 'rolling' and tempo
        return [[int(numbers[0]) if clicks and (n == 0 or beats(n - 1) < beats(n)) else 0 for n in range(frame, frame + period)]] * outputs, memory
    if name == 'meter':
        return [silence] * outputs, max([memory, *(abs(x) for samples in inputs for x in samples)])
    if name == 'guest':
        if numbers[0] == '0':
            given = clamped([x + (old >> 1) for x, old in zip(at(0), memory)])
            memory = memory[period:] + given
        elif numbers[0] == '1':
            line = memory + at(0)
            given, memory = clamped([line[n + 2] + 2 * line[n + 1] + line[n] >> 2 for n in range(period)]), line[-2:]
        else:
            given, memory = memory * period, at(0)[-1:]
        return [given] * outputs, memory
    return [silence] * outputs, memory


def merged(lists):
    """The events of these lists, each with its offset: by offset, and at one offset those of an earlier list first; the first 256."""
    return sorted((event for events in lists for event in events), key=lambda event: event[0])[:256]


def play_midi(kind, log, events, cycle, moment, period, inputs):
    """What a client plays on each MIDI output, and a log's memory behind it, from the script's lists of events (section 3)."""
    if kind[0] == 'midiplay' and moment[0] == 'rolling':
        return [(at - moment[1], event) for at, event in events[int(kind[1])] if moment[1] <= at < moment[1] + period][:256], log
    if kind[0] == 'midithru':
        return merged(inputs), log
    if kind[0] == 'midilog':
        return [], (log + [(cycle, *event) for event in merged(inputs)])[:4096]
    return [], log


class Transport:
    """Section 5: its state, cycle by cycle."""

    def __init__(self, rate):
        self.rate, self.state, self.frame, self.wait, self.target, self.period = rate, 'stopped', 0, 0, None, 0

    def step(self, graph, adopted, period):
        """The cycle that adopts these changes: its state, frame and tempo."""
        wish = ([words[0] for words in adopted if words[0] in ('start', 'stop')] or [None])[-1]
        moves, timeout = self.target is not None, graph.timeout
        if timeout is None:
            timeout = -(-2 * self.rate // period)
        self.frame = self.target if moves else self.frame + (self.period if self.state == 'rolling' else 0)
        self.target = ([int(words[1]) for words in adopted if words[0] == 'locate'] or [None])[-1]
        if self.state == 'stopped':
            self.state, self.wait = ('starting' if wish == 'start' else 'stopped'), 0
        elif wish == 'stop':
            self.state, self.wait = 'stopped', 0
        elif self.state == 'starting' and not moves:
            self.wait += 1
            if self.wait >= min(timeout, max(graph.slow, default=0)):
                self.state, self.wait = 'rolling', 0
        elif moves and (self.state == 'starting' or graph.slow):
            self.state, self.wait = 'starting', 0
        self.period = period
        return self.state, self.frame, graph.tempo, self.rate

    def shown(self, graph):
        if not graph.tempo:
            return f'{self.state} {self.frame} -'
        mbpm, beats, ticks = graph.tempo
        t = self.frame * mbpm * ticks // (60000 * self.rate)
        return f'{self.state} {self.frame} {t // ticks // beats + 1}|{t // ticks % beats + 1}|{t % ticks}'


class Tape:
    """A recorder's blocks, the cycles in which it kept them, and overruns; `lost` has the cycles of these, and is None where serial mode says them."""

    def __init__(self, script, recorder, lost):
        self.script, self.recorder, self.lost = script, recorder, lost
        self.width, self.samples, self.cycles, self.overruns, self.faults = script.recorders[recorder][0], [], [], [], []
        # How many blocks went into the ring, how many had before this segment, and how many left it in serial mode.
        self.kept, self.begun, self.left = 0, 0, 0

    def begin(self):
        self.begun = self.kept

    def cycle(self, k, segment, inputs):
        """A cycle in which these inputs were recorded, or nobody recorded."""
        if segment.freewheel:
            self.left = self.kept
        full = self.kept - self.left == self.script.ring
        loses = full if self.lost is None else k in self.lost
        if loses and (inputs is None or segment.freewheel):
            if self.lost is not None:
                self.faults.append(f'recorder {self.recorder} has an overrun in cycle {k}, which can have none')
        elif loses:
            self.lose(k)
        elif inputs is not None:
            silence = [0] * segment.period
            self.samples += [x for frame in zip(*(inputs + [silence] * self.width)[:self.width]) for x in frame]
            self.cycles.append(k)
            self.kept += 1
        self.left = self.kept if segment.freewheel else min(self.kept, self.left + self.script.drain)

    def lose(self, k):
        """A full ring: so many were taken, no fewer than before, and with threads than were sent before this segment."""
        begun = self.begun if self.script.threads else 0
        taken, least = self.kept - self.script.ring, max([begun, *(taken for _, _, taken in self.overruns)])
        if self.lost is not None and taken < least:
            self.faults.append(f'recorder {self.recorder} has an overrun in cycle {k}, and at most {self.kept - least} blocks were in its ring')
        self.overruns.append((k, self.kept, taken))


class Disk:
    """A disk file's blocks and underruns; `missed` has the cycles of these, and is None where serial mode says them."""

    def __init__(self, script, disk, channels, missed):
        if len(channels) != script.disks[disk]:
            raise ValueError(f'disk file {disk} has {len(channels)} channels')
        self.script, self.disk, self.channels, self.missed, self.underruns, self.faults = script, disk, channels, missed, [], []
        self.blocks = -(-len(channels[0]) // script.period)
        # In how many cycles the player was active and missed none, also past the end; the same before this segment; and how many
        # blocks were put in serial mode.
        self.got, self.begun, self.put = 0, 0, 0

    def begin(self):
        self.begun = self.got

    def cycle(self, k, segment, is_active):
        """What the player has in a cycle, or none where it has nothing: by channel its next block, zeros behind the end."""
        got, ring = min(self.got, self.blocks), self.script.ring
        self.put = min(self.blocks, got + ring, self.blocks if segment.freewheel else self.put + self.script.fill)
        empty = self.put == got < self.blocks
        misses = (empty if self.missed is None else k in self.missed) and is_active and not segment.freewheel
        if self.missed is not None and k in self.missed:
            self.look(k, misses)
        if misses:
            self.underruns.append((k, self.got))
        if misses or not is_active:
            return []
        first, self.got = self.got * segment.period, self.got + 1
        return [(channel[first:first + segment.period] + [0] * segment.period)[:segment.period] for channel in self.channels]

    def look(self, k, misses):
        """An underrun with threads comes behind what the ring held when its segment began, of a file that goes on there."""
        held = self.begun + self.script.ring
        if not misses:
            self.faults.append(f'disk {self.disk} has an underrun in cycle {k}, which can have none')
        elif not held <= self.got <= self.blocks or held == self.blocks:
            self.faults.append(f'disk {self.disk} has an underrun in cycle {k} behind {self.got} of {self.blocks} blocks, and its ring held them up to {held}')


class Play:
    """A report and files, from the order of the calls' lanes, the cycles' numbers, and the cycles of overruns by recorder and of underruns by disk.

    Where one of the four is None it is that of serial mode. `faults` tells what can't be.
    """

    def __init__(self, script, capture, order=None, numbers=None, lost=None, missed=None, disks=()):
        self.script, self.faults = script, []
        if len(disks) != len(script.disks):
            raise ValueError(f'{len(disks)} disk files are given, of {len(script.disks)}')
        self.disks = [Disk(script, d, channels, missed and missed[d]) for d, channels in enumerate(disks)]
        self.replies, self.graphs, self.accepted, self.meters, self.logs = [], [], [], [], []
        self.state = State(script)
        self.graphs.append(self.state.graph())
        self.make_calls(order, numbers)
        if not self.faults:
            self.run_cycles(capture, lost)

    # Calls and numbers.

    def call(self, lane, words):
        index = self.made[lane] = self.made[lane] + 1
        reply = self.state.call(words)
        if reply.startswith('ok'):
            self.accepted.append(words)
            self.graphs.append(self.state.graph())
            if words[0] == 'open' and words[2] in ('meter', 'midilog'):
                (self.meters if words[2] == 'meter' else self.logs).append((words[1], self.state.count))
        self.replies.append(f'call {lane} {index} {reply}')

    def make_calls(self, order, numbers):
        self.made, self.numbers, serial = dict.fromkeys(range(5), 0), [], []
        lanes = iter(order or ())
        for calls, segment in self.script.phases:
            for words in calls:
                if order is not None and next(lanes, None) != 0:
                    self.faults.append(f'call {len(self.replies) + 1} is not of lane 0')
                    return
                self.call(0, words)
            least, left = len(self.accepted), {lane: list(calls) for lane, calls in segment.lanes.items()}
            # By cycle of the segment, the number accepted before each call that asks for it.
            asked = []
            for cycle in range(segment.cycles + 1) if order is None else ():
                for lane in range(1, 5):
                    while left[lane] and left[lane][0][0] <= cycle:
                        self.call(lane, left[lane].pop(0)[1])
                serial.append(len(self.accepted))
            serial = serial[:-1]
            for _ in range(sum(map(len, left.values()))):
                lane = next(lanes, None)
                if not left.get(lane):
                    self.faults.append(f'call {len(self.replies) + 1} is of lane {lane}, which has none then')
                    return
                cycle, words = left[lane].pop(0)
                asked.append((cycle, len(self.accepted), f'{lane} {self.made[lane] + 1}'))
                self.call(lane, words)
            if numbers is not None:
                taken = [least, *numbers[segment.first - 1:segment.first - 1 + segment.cycles]]
                if len(taken) != segment.cycles + 1 or taken != sorted(taken) or taken[-1] > len(self.accepted):
                    self.faults.append(f'numbers from cycle {segment.first} on are {taken[1:]}, and {least} to {len(self.accepted)} can be')
                    return
                self.faults += [f'cycle {segment.first - 1 + cycle} has number {taken[cycle]} before call {call} asks for it' for cycle, before, call in asked if cycle and taken[cycle] > before]
        if next(lanes, None) is not None or len(numbers or ()) > self.script.cycles:
            self.faults.append('there are calls or cycles left over')
        self.numbers = serial if numbers is None else numbers

    # Cycles.

    def run_cycles(self, capture, lost):
        script, transport = self.script, Transport(self.script.rate)
        channels, before = [iter(channel) for channel in capture], 0
        memories, past, past_period = {}, {}, 0
        self.lines, self.heard = [], [[] for _ in range(script.playback)]
        self.tapes = [Tape(script, r, lost and lost[r]) for r in range(len(script.recorders))]
        for _, segment in script.phases:
            for it in (*self.tapes, *self.disks):
                it.begin()
            for k in range(segment.first, segment.first + segment.cycles):
                number, period = self.numbers[k - 1], segment.period
                graph, silence = self.graphs[number], [0] * period
                moment = transport.step(graph, self.accepted[before:number], period)
                before = number
                self.lines.append(f'cycle {k} {number} {transport.shown(graph)}')
                # What ports give in this cycle, and what an input port hears (section 2).
                now = {}
                for c, channel in enumerate(channels, 1):
                    now[f'system:capture_{c}'] = silence if segment.freewheel else [next(channel, 0) for _ in range(period)]

                def heard(port):
                    parts = []
                    for source, feedback in graph.into.get(port, ()):
                        parts.append(carried(source, feedback, silence))
                    return clamped(map(sum, zip(*parts))) if len(parts) > 1 else parts[0] if parts else silence

                def carried(source, feedback, nothing):
                    """What an edge gives, of samples or of events."""
                    birth, before = past.get(source, (None, None))
                    was_there = birth == graph.births[source] and past_period == period
                    return now[source] if not feedback else before if was_there else nothing

                blocks, played = {}, {kind[1] for _, kind, *_ in graph.order if kind[0] == 'disk'}
                had = {str(d): disk.cycle(k, segment, str(d) in played) for d, disk in enumerate(self.disks)}
                for birth, kind, inputs, outputs, midi_inputs, midi_outputs in graph.order:
                    sounds = had[kind[1]] if kind[0] == 'disk' else [heard(port) for port in inputs]
                    notes = [merged(carried(source, feedback, []) for source, feedback in graph.into.get(port, ())) for port in midi_inputs]
                    if kind[0] == 'record':
                        blocks[int(kind[1])] = sounds
                    memory = memories[birth] if birth in memories else first_memory(kind)
                    given, memory = play(kind, memory, moment, period, sounds, len(outputs))
                    events, memories[birth] = play_midi(kind, memory, script.events, k, moment, period, notes)
                    now.update(zip(outputs, given))
                    now.update((port, events) for port in midi_outputs)
                past, past_period = {source: (graph.births[source], given) for source, given in now.items()}, period
                if not segment.freewheel:
                    for channel, port in zip(self.heard, graph.playback):
                        channel += heard(port)
                for r, tape in enumerate(self.tapes):
                    tape.cycle(k, segment, blocks.get(r))
        self.peaks = [(name, memories.get(birth, 0)) for name, birth in self.meters]
        self.logged = [(name, event) for name, birth in self.logs for event in memories.get(birth, ())]
        self.faults += [fault for it in (*self.tapes, *self.disks) for fault in it.faults]

    # What is written.

    def report(self):
        lines = ['report 1', *self.replies, *self.lines, *(f'meter {name} {peak}' for name, peak in self.peaks)]
        lines += [f'midi {name} {cycle} {offset} {event.hex()}' for name, (cycle, offset, event) in self.logged]
        for r, tape in enumerate(self.tapes):
            lines.append(f'recorder {r} {tape.kept} {len(tape.overruns)}')
            lines += [f'overrun {r} {k} {sent} {taken}' for k, sent, taken in tape.overruns]
        for d, disk in enumerate(self.disks):
            lines.append(f'disk {d} {min(disk.got, disk.blocks)} {len(disk.underruns)}')
            lines += [f'underrun {d} {k} {got} {got}' for k, got in disk.underruns]
        return ''.join(f'{line}\n' for line in [*lines, 'end'])

    def files(self):
        """The playback and the records, whole."""
        played = [x for frames in zip(*self.heard) for x in frames]
        script = self.script
        files = [(script.playback, script.bits, played), *((*shape, tape.samples) for shape, tape in zip(script.recorders, self.tapes))]
        return [wave_of(script.rate, *file) for file in files]


def wave_of(rate, channels, bits, samples):
    """A finished WAVE file (section 7)."""
    width = bits // 8
    if width in (2, 4):
        data = struct.pack(f'<{len(samples)}{"hi"[width == 4]}', *(x >> 32 - bits for x in samples))
    else:
        data = b''.join((x >> 32 - bits).to_bytes(width, 'little', signed=True) if width == 3 else bytes([(x >> 24) + 128]) for x in samples)
    shape = struct.pack('<IHHIIHH', 16, 1, channels, rate, rate * channels * width, channels * width, bits)
    padded = data + b'\0' * (len(data) % 2)
    return b'RIFF' + struct.pack('<I', 36 + len(padded)) + b'WAVEfmt ' + shape + b'data' + struct.pack('<I', len(data)) + padded


def samples_of(wave):
    """The channels of a lawful WAVE file, as samples of 32 bits."""
    at, data = 12, None
    while data is None:
        if at >= len(wave):
            raise ValueError('there is no WAVE file')
        name, size = wave[at:at + 4], int.from_bytes(wave[at + 4:at + 8], 'little')
        if name == b'fmt ':
            channels, bits = (int.from_bytes(wave[at + k:at + k + 2], 'little') for k in (10, 22))
        if name == b'data':
            data = wave[at + 8:at + 8 + size]
        at += 8 + size + size % 2
    width = bits // 8
    data = data[:len(data) // (channels * width) * channels * width]
    if width == 1:
        samples = [x - 128 << 24 for x in data]
    else:
        samples = [int.from_bytes(data[k:k + width], 'little', signed=True) << 32 - bits for k in range(0, len(data), width)]
    return [samples[channel::channels] for channel in range(channels)]


def left_open(script, report):
    """What a report leaves open: the lanes of its calls, the numbers of its cycles, and the cycles of overruns by recorder and of underruns by disk."""
    if not script.threads:
        return ()
    rows = [line.split() for line in report.splitlines()]
    lost = [[int(row[2]) for row in rows if row[:2] == ['overrun', str(r)]] for r in range(len(script.recorders))]
    missed = [[int(row[2]) for row in rows if row[:2] == ['underrun', str(d)]] for d in range(len(script.disks))]
    return [int(row[1]) for row in rows if row[:1] == ['call']], [int(row[2]) for row in rows if row[:1] == ['cycle']], lost, missed


def first_difference(one, other):
    return next((k for k, (a, b) in enumerate(zip(one, other)) if a != b), min(len(one), len(other)))


def explain(script, capture, report, disks=()):
    """What is wrong with a report, a text each, and the files that it explains; the capture, the disk files and these are bytes."""
    read = Script(script)
    try:
        choices = left_open(read, report)
    except (ValueError, IndexError):
        return ['the report has a line of no form'], []
    made = Play(read, samples_of(capture), *choices, disks=[samples_of(disk) for disk in disks])
    if made.faults:
        return made.faults, []
    wanted, told = made.report().splitlines(keepends=True), report.splitlines(keepends=True)
    at = first_difference(told, wanted)
    found = [] if told == wanted else [f'line {at + 1} of the report is {told[at:at + 1]}, not {wanted[at:at + 1]}']
    return found, made.files()


def faults_of(script, capture, report, files=(), disks=()):
    """What is wrong with a report and with the files that are made, a text each."""
    found, made = explain(script, capture, report, disks)
    return found + differences(files, made)


def differences(files, made):
    names = ['the playback', *(f'record {r}' for r in range(4))]
    told = zip(names, files, made)
    return [f'{name} has {len(a)} bytes, of {len(b)}, and is another one from byte {first_difference(a, b)} on' for name, a, b in told if a != b]


def main(words):
    tells = words[:1] == ['--tell']
    words, disks = words[tells:], []
    while words[-2:-1] == ['--disk']:
        words, disks = words[:-2], [*words[-1:], *disks]
    if len(words) < 3 or '--disk' in words:
        sys.exit(__doc__)
    held = []
    for name in [*words, *disks]:
        with open(name, 'rb') as it:
            held.append(it.read())
    (script, capture, report, *files), disks = held[:len(words)], held[len(words):]
    script, report = script.decode('ascii', 'replace'), report.decode('ascii', 'replace')
    try:
        read = Script(script)
        if tells:
            made = Play(read, samples_of(capture), *left_open(read, report), disks=[samples_of(disk) for disk in disks])
            sys.stdout.write(''.join(f'{fault}\n' for fault in made.faults) or made.report())
            return bool(made.faults)
        found = faults_of(script, capture, report, files, disks)
    except (ValueError, IndexError) as fault:
        sys.exit(f'explained: the script is not lawful, or does not fit its files: {fault}')
    for fault in found:
        print(f'explained: {fault}')
    return bool(found)


if __name__ == '__main__':
    sys.exit(main(sys.argv[1:]))
