"""Sessions that nobody chose, from a number: those that scripts/check-threads.sh and scripts/schedules.py play with threads.

A session is a list of a script's lines. `random.Random(seed)` draws it, so the same seed gives the same session.
"""
import explained

MODES = ['serial', 'threads 1', 'steal 1', 'threads 2', 'steal 2', 'threads 4', 'steal 4', 'threads 16', 'steal 8']


def head(version, period, channels, bits, mode, *rest):
    """The header, of version 3 where workers steal."""
    version = 3 if mode.startswith('steal') else version
    return [f'jackd {version}', 'rate 8000', f'period {period}', f'capture {channels}', f'playback {channels} {bits}', f'mode {mode}', *rest]


def crowd(chance):
    """30 clients with 16 connections each, of which six hear the capture and the others those before them: with 4,096 frames that is
    work for 16 workers."""
    lines = []
    for number in range(30):
        kind = chance.choice(['pass', 'gain 90 8', 'gain -80 8', 'delay 5', 'mix']) if number > 5 else f'gain {chance.randrange(-20, 20)} 8'
        lines += [f'do open crowd{number} {kind}', *(f'do register crowd{number}:o{way} out audio' for way in range(4)), f'do activate crowd{number}']
        sources = [f'crowd{other}:o{way}' for other in range(number) for way in range(4)] if number > 5 else ['system:capture_1']
        for port in range(16):
            lines += [f'do register crowd{number}:{port} in audio', f'do connect {chance.choice(sources)} crowd{number}:{port}']
    return [*lines, *(f'do connect crowd{number}:o{way} system:playback_1' for number, way in zip(range(26, 30), range(4)))]


def connections(chance, mode, period=4, cycles=300, crowd=()):
    """Two clients and a recorder, which four lanes connect and disconnect while cycles run."""
    edges = ['system:capture_1 a:in', 'a:out system:playback_1', 'system:capture_1 b:in', 'b:out system:playback_1', 'system:capture_1 tape:in']
    lines = head(1, period, 1, 16, mode, 'ring 4', 'recorder 1 16')
    for name, kind in (('a', 'pass'), ('b', 'pass'), ('tape', 'record 0')):
        lines += [f'do open {name} {kind}', f'do register {name}:in in audio', f'do activate {name}']
    lines += ['do register a:out out audio', 'do register b:out out audio', *crowd, f'run {cycles}']
    for lane in range(1, 5):
        calls = sorted((chance.randrange(cycles + 1), chance.random() < 0.6, chance.choice(edges)) for _ in range(30))
        lines += [f'lane {lane} at {asked} {"connect" if joins else "disconnect"} {edge}' for asked, joins, edge in calls]
    return lines


def shared(chance, mode):
    """The same, in cycles that workers share."""
    return connections(chance, mode, 4096, 12, crowd(chance))


KINDS = ['pass', 'pass', 'gain {a} 8', 'mix', 'mix', 'delay {b}', 'tone {c} {a}', 'click {a}', 'meter', 'record 0', 'record 1', 'guest 0', 'guest 1', 'guest 2']


MIDI_KINDS = ['midiplay 0', 'midiplay 1', 'midiplay 2', 'midithru', 'midithru', 'midilog', 'midilog']


def kind_of(chance, kinds, factor, delays, length):
    return chance.choice(kinds).format(a=chance.randrange(-factor, factor), b=chance.choice(delays), c=chance.randrange(1, length))


def command(chance, kinds=KINDS, places='01'):
    """Any command, on few names, so that some are refused. The ports of the places 2 and 3 are of MIDI."""
    client, of = f'c{chance.randrange(10)}', chance.choice([places[:2], places[-2:]])
    ports = [f'c{chance.randrange(10)}:{way}{chance.choice(of)}' for way in 'oi']
    port, system = chance.choice(ports), chance.randrange(1, 3)
    kind = kind_of(chance, kinds, 32768, [0, 3, 8, 20, 100], 40)
    some = lambda *words: words[chance.randrange(len(words))]
    ends = some(' '.join(ports), ' '.join(ports), f'system:capture_{system} {ports[1]}', f'{ports[0]} system:playback_{system}', f'system:capture_{system} system:playback_{system}')
    return chance.choices(
        [f'connect {ends}', f'disconnect {ends}', f'open {client} {kind}', f'close {client}', f'activate {client}', f'deactivate {client}',
         f'register {port} {"out" if ":o" in port else "in"} {some("audio", "audio", "audio", "midi") if port[-1] < "2" else "midi"}', f'unregister {port}',
         some('start', 'stop', f'locate {chance.randrange(20000)}', f'locate {chance.randrange(400)}'), some(f'timeout {chance.randrange(9)}', f'slow {client} {chance.randrange(5)}'),
         f'timebase{some("", "_if")} {client} {chance.randrange(1000, 999999)} {chance.randrange(1, 9)} {chance.randrange(1, 960)}', f'release {client}',
         f'latency {some("capture", "playback")} {port}'],
        [30, 12, 4, 2, 6, 3, 6, 2, 4, 2, 2, 1, 3])[0]


def heading(chance, version, mode):
    return head(version, 8, 2, chance.choice([8, 16, 24, 32]), mode, f'ring {chance.randrange(1, 9)}', 'recorder 2 16', 'recorder 1 24')


def clients(chance, kinds, places):
    """A client of each kind, with these ports in and out, two of each way and type."""
    for k, kind in enumerate(kinds):
        ports = [f'do register c{k}:{way}{place} {long} {"audio" if place < "2" else "midi"}' for way, long in (('i', 'in'), ('o', 'out')) for place in places]
        yield from (f'do open c{k} {kind_of(chance, [kind], 512, [0, 3, 8, 20], 40)}', *ports, f'do activate c{k}')


def segments(chance, *names):
    """Any calls, between segments and on all lanes."""
    lines = []
    for _ in range(chance.randrange(1, 4)):
        lines += [f'do {command(chance, *names)}' for _ in range(chance.randrange(25))]
        if chance.random() < 0.3:
            lines.append(f'period {chance.choice([4, 8, 16])}')
        kind, cycles = ('freewheel', chance.randrange(1, 20)) if chance.random() < 0.2 else ('run', chance.randrange(1, 80))
        lines.append(f'{kind} {cycles}')
        for lane in range(1, 5):
            lines += [f'lane {lane} at {asked} {command(chance, *names)}' for asked in sorted(chance.randrange(cycles + 1) for _ in range(chance.randrange(12)))]
    return lines


def commands(chance, mode):
    """Ten clients with most of their ports, and then any calls."""
    return [*heading(chance, 2, mode), *clients(chance, chance.choices(KINDS, k=10), '01'), *segments(chance)]


def events_of(chance):
    """Three lists: one of a few events, one of many, and one with more than a cycle takes."""
    lists = ((number, frame) for number, count, last in ((0, 30, 600), (1, 200, 600), (2, 300, 12)) for frame in sorted(chance.randrange(last) for _ in range(count)))
    event = lambda: bytes([chance.randrange(128, 256), *(chance.randrange(256) for _ in range(chance.choice([0, 1, 2, 2, 2, 15])))])
    return [f'event {number} {frame} {event().hex()}' for number, frame in lists]


def eventful(chance, mode):
    """As the second, in version 3: mostly MIDI clients, some connected, and a transport that rolls soon."""
    kinds = [*MIDI_KINDS, *chance.choices(KINDS, k=3)]
    chance.shuffle(kinds)
    port = lambda way: f'c{chance.randrange(10)}:{way}{chance.randrange(2, 4)}'
    edges = [f'do connect {port("o")} {port("i")}' for _ in range(30)]
    return [*heading(chance, 3, mode), *events_of(chance), *clients(chance, kinds, '0123'), *edges, 'do start', *segments(chance, KINDS + MIDI_KINDS, '0123')]


def tracks(chance, mode):
    """As the second, in version 3: players of one to four disk files, which are heard; the reader puts no block in some."""
    disks = [chance.randrange(1, 4) for _ in range(chance.randrange(1, 5))]
    players = [f'disk {disk}' for disk in range(len(disks))]
    lines = head(3, 8, 2, chance.choice([8, 16, 24, 32]), mode, f'ring {chance.randrange(1, 9)}', f'fill {chance.choice([0, 0, 1, 2, 4])}',
        'recorder 2 16', 'recorder 1 24', *(f'disk {channels}' for channels in disks))
    kinds = [*players, *chance.choices(KINDS + players, k=10 - len(players))]
    edges = [f'do connect c{k}:o{chance.randrange(2)} system:playback_{chance.randrange(1, 3)}' for k in range(len(players))]
    body = [*clients(chance, kinds, '01'), *edges, *segments(chance, [*KINDS, *players])]
    return [*lines, *(line for line in body if not line.startswith('period '))]


def disk_files(chance, lines):
    """A file for each disk of a script."""
    files = []
    for channels in (int(line.split()[1]) for line in lines if line.startswith('disk ')):
        samples = [chance.randrange(-9999, 9999) * 65536 for _ in range(channels * chance.choice([0, 1, 8, 60, 200, 500, 2000]))]
        files.append(explained.wave_of(8000, channels, chance.choice([8, 16, 24, 32]), samples))
    return files


def chains(mode, cycles=3):
    """Chains of gains, opened one after the other, in which each client hears all before it; a recorder, and events."""
    lines = head(3, 4096, 1, 24, mode, 'recorder 1 24', *(f'event 0 {100 * n} 90{n:02x}40' for n in range(120)))
    for chain, length in enumerate((26, 12, 8, 5, 3, 2)):
        for k in range(length):
            name = f'g{chain}-{k}'
            lines += [f'do open {name} gain {100 + k} 8', f'do register {name}:i in audio', f'do register {name}:o out audio', f'do activate {name}']
            lines += [f'do connect g{chain}-{before}:o {name}:i' for before in range(k)] or [f'do connect system:capture_1 {name}:i']
        lines.append(f'do connect g{chain}-{length - 1}:o system:playback_1')
    for name, kind in (('p', 'midiplay 0'), ('t', 'midithru'), ('l', 'midilog')):
        lines += [f'do open {name} {kind}', f'do register {name}:i in midi', f'do register {name}:o out midi', f'do activate {name}']
    lines += ['do open tape record 0', 'do register tape:i in audio', 'do activate tape', 'do connect g0-25:o tape:i']
    return [*lines, 'do connect p:o t:i', 'do connect t:o t:i', 'do connect t:o l:i', 'do start', f'run {cycles}']


def wave(chance, channels, frames):
    samples = [chance.randrange(-9999, 9999) * 65536 for _ in range(channels * frames)]
    return explained.wave_of(8000, channels, 16, samples)


# Each kind of session, and how many channels its capture has.
KINDS_OF_SESSIONS = ((connections, 1), (commands, 2), (shared, 1), (eventful, 2))
