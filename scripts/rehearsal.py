#!/usr/bin/env python3
"""The rehearsal of a number, computed from docs/FORMATS.md alone.

rehearsal.py NUMBER..            prints each number's summary
rehearsal.py --files NUMBER S C  writes the script and the capture of a number
rehearsal.py --played P R OUT    prints the summary's lines, but for the first, of a play: its playback, record file and report

It is a second computation of all that `jackd rehearse` does: the draws of PCG32 (XSH RR, O'Neill 2014), the calls and their
refusals, feedback, and every sample of every client.

A period of samples is one integer, so that one operation of Python does all frames: the sample x of frame n is the number
x + 2^31 in the 48 bits from bit 48 n on. Sums and products of samples are kept plus 2^47, so that no place is below zero.
"""
import multiprocessing
import struct
import sys
from array import array

CLIENTS, PERIOD, CYCLES, FRAMES = 32, 64, 10_000, 640_000
WORD, LONG = 2**32 - 1, 2**64 - 1
PLACE = 48


def each(number, frames=PERIOD):
    """The number at so many places."""
    return int.from_bytes(number.to_bytes(PLACE // 8, 'little') * frames, 'little')


SILENCE, ZEROS, ONES, LOW, WHOLE = each(2**31), each(2**47), each(1), each(2**32 - 1), each(2**PLACE - 1)
HIGH, FITS, ABOVE, SHIFTED, SHIFTED_ZEROS = each(2**16 - 1), each(2**15), each(2**15 - 1), each(2**40 - 1), each(2**47 - 2**39)


class Draws:
    """PCG32 on stream 1, seeded as its reference code does."""

    def __init__(self, number):
        self.state = 0
        self.word()
        self.state = (self.state + number) & LONG
        self.word()

    def word(self):
        old = self.state
        self.state = (old * 6364136223846793005 + 3) & LONG
        mixed = ((old >> 18 ^ old) >> 27) & WORD
        turn = old >> 59
        return (mixed >> turn | mixed << (32 - turn)) & WORD

    def below(self, most):
        return self.word() % most

    def low_halves(self, count):
        """The low halves of the next so many words, each as a number of 16 bits; the same steps as in `word`, in one loop."""
        state, halves = self.state, []
        for _ in range(count):
            mixed, turn = (state >> 18 ^ state) >> 27 & WORD, state >> 59
            halves.append(((mixed >> turn | mixed << 32 - turn) + 0x8000 & 0xFFFF) - 0x8000)
            state = state * 6364136223846793005 + 3 & LONG
        self.state = state
        return halves


def drawn(number):
    """The body lines and the capture's numbers of 16 bits."""
    draws = Draws(number)
    lines = []
    for i in range(CLIENTS):
        choice = draws.below(4)
        kind = ['pass', None, 'mix', None][choice]
        if choice == 1:
            kind = f'gain {draws.below(512)} 8'
        if choice == 3:
            kind = f'delay {draws.below(256)}'
        lines += [f'do open c{i} {kind}', f'do register c{i}:i in audio', f'do register c{i}:o out audio', f'do activate c{i}']
    lines.append('do connect system:capture_1 c0:i')
    lines += [f'do connect c{draws.below(i)}:o c{i}:i' for i in range(1, CLIENTS)]
    for _ in range(32):
        source = draws.below(32)
        lines.append(f'do connect c{source}:o c{draws.below(32)}:i')
    lines += ['do connect c31:o system:playback_1', f'do connect c{draws.below(32)}:o system:playback_2']
    lines += ['do open tape record 0', 'do register tape:i in audio', 'do activate tape', 'do connect c15:o tape:i', 'do start', f'run {CYCLES}']
    for j in range(1, 64, 2):
        source = draws.below(32)
        ends = f'c{source}:o c{draws.below(32)}:i'
        lines += [f'lane 1 at {100 * j} connect {ends}', f'lane 1 at {100 * (j + 1)} disconnect {ends}']
    return lines, draws.low_halves(2 * FRAMES)


def script_of(lines):
    header = ['jackd 1', 'rate 48000', f'period {PERIOD}', 'capture 2', 'playback 2 16', 'mode serial', 'ring 16', 'drain 16', 'recorder 1 16']
    return ''.join(f'{line}\n' for line in header + lines)


def wave_of(numbers):
    data = struct.pack(f'<{len(numbers)}h', *numbers)
    return struct.pack('<4sI4s4sIHHIIHH4sI', b'RIFF', 36 + len(data), b'WAVE', b'fmt ', 16, 1, 2, 48000, 192000, 4, 16, b'data', len(data)) + data


def clamped(sums):
    """The samples nearest to these sums."""
    # A sum that fits is from 0 to 2^32 - 1 with 2^31 added, so that above bit 32 only the 2^47 is left.
    raised = sums + SILENCE
    high = raised >> 32 & HIGH
    if high == FITS:
        return raised & LOW
    over, under = high + ABOVE >> 16 & ONES, (high >> 15 & ONES) ^ ONES
    most = over * (2**32 - 1)
    return raised & (LOW ^ (most | under * (2**32 - 1))) | most


def mixed(parts):
    return clamped(sum(parts) + ZEROS - len(parts) * SILENCE) if len(parts) > 1 else parts[0] if parts else SILENCE


def gained(samples, factor):
    """The samples times a factor below 512, shifted by 8."""
    products = (samples - SILENCE) * factor + ZEROS
    return clamped((products >> 8 & SHIFTED) + SHIFTED_ZEROS)


def periods_of(numbers):
    """The first of two channels of numbers of 16 bits, as samples, period by period."""
    words = array('H', bytes(PLACE // 8 * FRAMES))
    words[1::3] = array('H', [x + 2**15 for x in numbers[::2]])
    held, size = little(words).tobytes(), PLACE // 8 * PERIOD
    return [int.from_bytes(held[at:at + size], 'little') for at in range(0, len(held), size)]


def stored(samples):
    """The samples of a period as a file of 16 bits has them, each plus 2^15."""
    return little(array('H', samples.to_bytes(PLACE // 8 * PERIOD, 'little')))[1::3]


def little(words):
    if sys.byteorder == 'big':
        words.byteswap()
    return words


class Session:
    """The graph that the calls make, and what its clients play."""

    def __init__(self):
        # Edges in the order of making: source node, destination node and its port, and whether it is feedback.
        self.kinds, self.edges, self.rest, self.past = {}, [], {}, {}

    def leads(self, a, b):
        reached, left = {a}, [a]
        while left:
            node = left.pop()
            for source, _, destination, feedback in self.edges:
                if source == node and not feedback and destination not in reached:
                    reached.add(destination)
                    left.append(destination)
        return b in reached

    def call(self, words):
        """Makes a call, and tells whether it is accepted."""
        if words[0] == 'open':
            self.kinds[words[1]] = words[2:]
            if words[2] == 'delay':
                self.rest[words[1]] = each(2**31, int(words[3]))
        if words[0] == 'connect':
            return self.connect(words[1], words[2])
        if words[0] == 'disconnect':
            return self.disconnect(words[1], words[2])
        return True

    def connect(self, source, port):
        one, other = source.split(':')[0], port.split(':')[0]
        one = source if one == 'system' else one
        other = port if other == 'system' else other
        if any(edge[0] == one and edge[1] == port for edge in self.edges):
            return False
        self.edges.append([one, port, other, self.leads(other, one)])
        return True

    def disconnect(self, source, port):
        one = source.split(':')[0]
        left = [edge for edge in self.edges if not (edge[0] == one and edge[1] == port)]
        if len(left) == len(self.edges):
            return False
        self.edges = left
        for edge in self.edges:
            if edge[3]:
                edge[3] = self.leads(edge[2], edge[0])
        return True

    def order(self):
        """Each client behind those that feed it directly, with the edges into it."""
        done, order = set(), []

        def visit(node):
            if node in done or node not in self.kinds:
                return
            done.add(node)
            for source, _, destination, feedback in self.edges:
                if destination == node and not feedback:
                    visit(source)
            order.append((node, self.kinds[node], self.into(f'{node}:i')))

        for node in self.kinds:
            visit(node)
        return order

    def into(self, port):
        return [(source, feedback) for source, at, _, feedback in self.edges if at == port]

    def heard(self, edges, now):
        return mixed([self.past[source] if feedback else now[source] for source, feedback in edges])

    def cycle(self, order, now):
        """What each client gives, from what the capture does."""
        for node, kind, edges in order:
            samples = self.heard(edges, now)
            if kind[0] == 'gain':
                samples = gained(samples, int(kind[1]))
            if kind[0] == 'delay':
                line = self.rest[node] | samples << PLACE * int(kind[1])
                samples, self.rest[node] = line & WHOLE, line >> PLACE * PERIOD
            now[node] = samples
        return now


def summary(number):
    lines, capture = drawn(number)
    session, replies, lanes = Session(), [], []
    for line in lines:
        words = line.split()
        if words[0] == 'do':
            replies.append(session.call(words[1:]))
        if words[0] == 'lane':
            lanes.append((int(words[3]), words[4:]))
    peak = total = blocks = 0
    changed, periods, session.past = True, periods_of(capture), dict.fromkeys(session.kinds, SILENCE)
    for k in range(CYCLES):
        if changed:
            order, ends, changed = session.order(), [session.into(f'system:playback_{q}') for q in (1, 2)], False
        now = session.cycle(order, {'system:capture_1': periods[k]})
        for edges in ends:
            units = stored(session.heard(edges, now))
            peak, total = max(peak, max(units) - 2**15, 2**15 - min(units)), total + sum(units) - PERIOD * 2**15
        session.past = now
        blocks += 'tape' in session.kinds
        while lanes and lanes[0][0] <= k + 1:
            replies.append(session.call(lanes.pop(0)[1]))
            changed = True
    return f'rehearse {number}\n' + told(len(replies), sum(replies), CYCLES, 44 + 4 * FRAMES, peak, total, 44 + 2 * PERIOD * blocks, blocks)


def told(calls, accepted, cycles, played, peak, total, recorded, blocks):
    return (
        f'calls {calls} accepted {accepted} refused {calls - accepted}\ncycles {cycles} frames {PERIOD * cycles}\n'
        f'playback {played} peak {peak} sum {total}\nrecord {recorded} blocks {blocks} overruns 0\nend\n'
    )


def told_of(playback, record, report):
    """The same lines of a play, from its files and its report."""
    with open(playback, 'rb') as it:
        played = it.read()
    with open(record, 'rb') as it:
        recorded = it.read()
    with open(report, encoding='ascii') as it:
        rows = [line.split() for line in it]
    calls = [row for row in rows if row[0] == 'call']
    units = [x for (x,) in struct.iter_unpack('<h', played[44:])]
    blocks = [int(row[2]) for row in rows if row[:2] == ['recorder', '0'] and row[3] == '0']
    return told(
        len(calls), sum(row[3] == 'ok' for row in calls), sum(row[0] == 'cycle' for row in rows), len(played), max(map(abs, units)), sum(units), len(recorded), blocks[0]
    )


def main(words):
    if words[:1] == ['--files']:
        lines, capture = drawn(int(words[1]))
        with open(words[2], 'w', encoding='ascii', newline='\n') as it:
            it.write(script_of(lines))
        with open(words[3], 'wb') as it:
            it.write(wave_of(capture))
    elif words[:1] == ['--played']:
        sys.stdout.write(told_of(*words[1:4]))
    else:
        with multiprocessing.Pool() as pool:
            for text in pool.imap(summary, map(int, words)):
                sys.stdout.write(text)


if __name__ == '__main__':
    main(sys.argv[1:])
