#!/usr/bin/env python3
"""The first wrong part of a report and its files, as `jackd check` tells it, computed from docs/FORMATS.md alone.

verdicts.py SCRIPT CAPTURE REPORT PLAYBACK [RECORD]..    prints `check ok`, or `check wrong PART NUMBER[ PLACE]` and ends with 8

It stands on the second computation of a play, explained.py, and serves scripts without disk files. What a report leaves open is
taken as it is printed, in every mode: the order of the calls, the numbers of the cycles and the cycles of the overruns. The parts
are looked at in this order, and the first wrong one is told, by the first number that is wrong in it:

    report K         line K is none that a report of the script has in this place, or is the first that is missing
    call K           call K is not the next of its lane, stands before one of an earlier stage, has another reply, or is missing
    cycle K          its number can't be, by the cycle before, by its segment's calls or by one that asks for it; or its moment differs
    meter K          meter K has another name or peak, is missing, or is one too many
    midi K           event K, of those of all logs, is another one, is missing, or is one too many
    recorder K       recorder K - 1 kept another number of blocks than its line tells
    overrun K        overrun K, of those of all recorders, can't be, or not behind the one before it
    record R BYTE    the file of recorder R differs first at BYTE, or one of the two ends there; both are counted from 0
    playback 0 BYTE  and so the playback
"""
import bisect
import re
import sys

import explained

NUMBER, NAME = '(0|[1-9][0-9]{0,18})', '([A-Za-z0-9_.-]{1,32})'
REFUSED = '|'.join(f'refused {number} {name}' for number, name in enumerate(explained.NAMES, 1))
FORMS = {form.split(' ', 1)[0]: re.compile(form) for form in (
    'report 1',
    f'call {NUMBER} {NUMBER} (ok {NUMBER}|{REFUSED}|latency {NUMBER} {NUMBER})',
    f'cycle {NUMBER} {NUMBER} (?:stopped|starting|rolling) {NUMBER} (?:-|{NUMBER}[|]{NUMBER}[|]{NUMBER})',
    f'meter {NAME} {NUMBER}',
    f'midi {NAME} {NUMBER} {NUMBER} ((?:[0-9a-f]{{2}}){{1,16}})',
    f'recorder {NUMBER} {NUMBER} {NUMBER}',
    f'overrun {NUMBER} {NUMBER} {NUMBER} {NUMBER}',
    'end',
)}
# The kinds of lines that one of a kind may stand behind.
BEHIND = {
    'report': {None},
    'call': {'report', 'call'},
    'cycle': {'report', 'call', 'cycle'},
    'meter': {'report', 'call', 'cycle', 'meter'},
    'midi': {'report', 'call', 'cycle', 'meter', 'midi'},
    'recorder': {'report', 'call', 'cycle', 'meter', 'midi', 'recorder', 'overrun'},
    'overrun': {'recorder', 'overrun'},
    'end': {'report', 'call', 'cycle', 'meter', 'midi', 'recorder', 'overrun'},
}


class Told:
    """What a report tells; `wrong` is its first wrong line, None where it is whole."""

    def __init__(self, most, report):
        # How many lines of a kind a report may have, the kind of the line before, and how many overruns a recorder's line still asks for.
        self.most, self.last, self.asked, self.wrong = most, None, 0, None
        self.calls, self.cycles, self.meters, self.events, self.recorders, self.overruns = [], [], [], [], [], []
        *lines, rest = report.decode('latin-1').split('\n')
        for number, line in enumerate(lines, 1):
            if not self.takes(line):
                self.wrong = number
                return
        if rest or self.last != 'end':
            self.wrong = len(lines) + 1

    def takes(self, line):
        """Whether a report of the script may go on by this line, which is told then."""
        kind = line.split(' ', 1)[0]
        form = kind in FORMS and FORMS[kind].fullmatch(line)
        if not form or self.last not in BEHIND[kind] or (self.asked > 0) != (kind == 'overrun'):
            return False
        if kind in ('meter', 'midi', 'recorder', 'end') and len(self.cycles) < self.most['cycle']:
            return False
        self.last = kind
        return kind == 'report' or getattr(self, kind)(form)

    def call(self, form):
        lane, index, reply, number = form.group(1, 2, 3, 4)
        self.calls.append((int(lane), int(index), reply))
        return len(self.calls) <= self.most['call'] and int(number or 0) < 2**32

    def cycle(self, form):
        self.cycles.append((int(form[2]), form[0]))
        return len(self.cycles) <= self.most['cycle'] and int(form[1]) == len(self.cycles)

    def meter(self, form):
        self.meters.append((form[1], int(form[2])))
        return len(self.meters) <= self.most['meter']

    def midi(self, form):
        name, cycle, offset, event = form.groups()
        self.events.append((name, (int(cycle), int(offset), bytes.fromhex(event))))
        return len(self.events) <= self.most['midi']

    def recorder(self, form):
        number, blocks, self.asked = map(int, form.groups())
        self.recorders.append(blocks)
        return number == len(self.recorders) - 1 and number < self.most['recorder'] and self.asked <= self.most['cycle']

    def overrun(self, form):
        self.overruns.append(tuple(map(int, form.groups())))
        self.asked -= 1
        return self.overruns[-1][0] == len(self.recorders) - 1

    def end(self, _form):
        return len(self.recorders) == self.most['recorder']


class Replay:
    """The calls of lanes in this order: their replies, and behind each change the graph."""

    def __init__(self, checker, lanes):
        state, made = explained.State(checker.script), dict.fromkeys(range(5), 0)
        self.replies, self.graphs, self.accepted = [], [state.graph()], []
        # By stage how many were accepted, and by cycle how many were before the first call that asks for it.
        self.by_stage, self.least = {}, {}
        for lane in lanes:
            words, stage, asked = checker.planned[lane][made[lane]]
            made[lane] += 1
            self.least.setdefault(asked, len(self.accepted))
            self.replies.append(state.call(words))
            if self.replies[-1].startswith('ok '):
                self.accepted.append(words)
                self.graphs.append(state.graph())
                self.by_stage[stage] = self.by_stage.get(stage, 0) + 1

    def below(self, stage):
        return sum(count for other, count in self.by_stage.items() if other < stage)


class Heard:
    """What the cycles of these numbers gave: peaks, events, the playback, and of each recorder the cycles in which it was active with their blocks."""

    def __init__(self, checker, lanes, numbers):
        script = checker.script
        made = explained.Play(script, checker.capture, lanes, numbers, [()] * len(script.recorders))
        assert not made.faults, made.faults
        self.peaks, self.logged, (self.playback, *_) = made.peaks, made.logged, made.files()
        self.active, self.blocks = [], []
        for tape in made.tapes:
            samples = iter(tape.samples)
            self.active.append(tape.cycles)
            self.blocks.append([[next(samples) for _ in range(checker.turns[k - 1].period * tape.width)] for k in tape.cycles])


def first(numbers, wrong):
    """The first of these numbers at which something is wrong, None where nothing is."""
    return next((number for number in numbers if wrong(number)), None)


def first_difference(one, other):
    """The first place at which two lists or files differ, or one of them ends; None where they are the same."""
    return None if one == other else explained.first_difference(one, other)


class Checker:
    """What is wrong first with reports and files of a session; script and capture are its."""

    def __init__(self, script, capture):
        self.script, self.capture = explained.Script(script), explained.samples_of(capture)
        if self.script.disks:
            raise ValueError('it has disk files')
        # Each lane's calls, with their stages and the cycles that they ask for; and of each cycle its segment and phase.
        self.planned, self.turns, self.phase_of = {lane: [] for lane in range(5)}, [], []
        for phase, (calls, segment) in enumerate(self.script.phases):
            self.planned[0] += [(words, 2 * phase, 0) for words in calls]
            for lane, others in segment.lanes.items():
                self.planned[lane] += [(words, 2 * phase + 1, segment.first - 1 + asked) for asked, words in others]
            self.turns += [segment] * segment.cycles
            self.phase_of += [phase] * segment.cycles
        calls = [words for lane in self.planned.values() for words, _, _ in lane]
        meters, logs = (sum(words[0] == 'open' and words[2] == kind for words in calls) for kind in ('meter', 'midilog'))
        self.most = {'call': len(calls), 'cycle': self.script.cycles, 'meter': meters, 'midi': 4096 * logs, 'recorder': len(self.script.recorders)}
        self.replays, self.plays, self.waves = {}, {}, {}

    def verdict(self, report, files):
        """None where report and files are right, else the first wrong part, its number, and of a file the place."""
        told = Told(self.most, report)
        if told.wrong:
            return 'report', told.wrong
        lanes = self.lanes_in_order(told.calls)
        replay = self.replay(lanes)
        call = first_difference([reply for _, _, reply in told.calls], replay.replies)
        if call is not None or len(lanes) < self.most['call']:
            return 'call', 1 + (len(lanes) if call is None else call)
        cycle = self.wrong_cycle(told.cycles, replay)
        if cycle:
            return 'cycle', cycle
        numbers = tuple(number for number, _ in told.cycles)
        heard = self.heard(lanes, numbers)
        return self.wrong_row(told, heard) or self.wrong_file(told, heard, (lanes, numbers), files)

    # Calls.

    def lanes_in_order(self, calls):
        """The lanes of the first calls, up to one that the script does not have next."""
        made, lanes = dict.fromkeys(range(5), 0), []
        for lane, index, _ in calls:
            if lane > 4 or index != made[lane] + 1 or index > len(self.planned[lane]):
                break
            stage = self.planned[lane][made[lane]][1]
            if any(made[other] < len(them) and them[made[other]][1] < stage for other, them in self.planned.items()):
                break
            made[lane] += 1
            lanes.append(lane)
        return tuple(lanes)

    def replay(self, lanes):
        if lanes not in self.replays:
            self.replays[lanes] = Replay(self, lanes)
        return self.replays[lanes]

    # Cycles.

    def wrong_cycle(self, cycles, replay):
        transport, before, bounds = explained.Transport(self.script.rate), 0, {}
        for k, (number, line) in enumerate(cycles, 1):
            phase = self.phase_of[k - 1]
            if phase not in bounds:
                bounds[phase] = replay.below(2 * phase + 1), replay.below(2 * phase + 2)
            low, high = bounds[phase]
            if not max(before, low) <= number <= min(high, replay.least.get(k, high)):
                return k
            graph = replay.graphs[number]
            transport.step(graph, replay.accepted[before:number], self.turns[k - 1].period)
            if line != f'cycle {k} {number} {transport.shown(graph)}':
                return k
            before = number
        return None

    def heard(self, lanes, numbers):
        if (lanes, numbers) not in self.plays:
            self.plays[lanes, numbers] = Heard(self, lanes, numbers)
        return self.plays[lanes, numbers]

    # The lines behind the cycles.

    def wrong_row(self, told, heard):
        meter = first_difference(told.meters, heard.peaks)
        if meter is not None:
            return 'meter', meter + 1
        event = first_difference(told.events, heard.logged)
        if event is not None:
            return 'midi', event + 1
        kept = [self.kept(told, heard, r) for r in range(len(told.recorders))]
        recorder = first_difference(told.recorders, [len(cycles) for cycles in kept])
        if recorder is not None:
            return 'recorder', recorder + 1
        overrun = first(range(1, len(told.overruns) + 1), lambda number: not self.can_be(told.overruns[:number], heard, kept))
        return overrun and ('overrun', overrun)

    @staticmethod
    def kept(told, heard, recorder):
        """The cycles in which a recorder was active that no line tells as lost, whether they can be or not."""
        lost = {cycle for other, cycle, _, _ in told.overruns if other == recorder}
        return [cycle for cycle in heard.active[recorder] if cycle not in lost]

    def can_be(self, overruns, heard, kept):
        """Whether the last of these is one of a full ring, and behind the one before it."""
        recorder, cycle, sent, taken = overruns[-1]
        before = lambda k: bisect.bisect_left(kept[recorder], k)
        if cycle not in heard.active[recorder] or self.turns[cycle - 1].freewheel:
            return False
        if sent != before(cycle) or sent != taken + self.script.ring:
            return False
        if self.script.threads and taken < before(self.turns[cycle - 1].first):
            return False
        other = overruns[-2] if overruns[1:] else (None,)
        return other[0] != recorder or other[1] < cycle and other[3] <= taken

    # The files.

    def wrong_file(self, told, heard, play, files):
        playback, *records = files
        for recorder, record in enumerate(records):
            place = first_difference(record, self.record(told, heard, play, recorder))
            if place is not None:
                return 'record', recorder, place
        place = first_difference(playback, heard.playback)
        return None if place is None else ('playback', 0, place)

    def record(self, told, heard, play, recorder):
        kept = self.kept(told, heard, recorder)
        key = play, recorder, tuple(kept)
        if key not in self.waves:
            blocks = dict(zip(heard.active[recorder], heard.blocks[recorder]))
            samples = [sample for cycle in kept for sample in blocks[cycle]]
            self.waves[key] = explained.wave_of(self.script.rate, *self.script.recorders[recorder], samples)
        return self.waves[key]


def line_of(verdict):
    """The line of a verdict, and its exit code."""
    return ('check wrong {}\n'.format(' '.join(map(str, verdict))), 8) if verdict else ('check ok\n', 0)


def main(words):
    if len(words) < 4:
        sys.exit(__doc__)
    held = []
    for name in words:
        with open(name, 'rb') as it:
            held.append(it.read())
    script, capture, report, *files = held
    try:
        checker = Checker(script.decode('ascii', 'replace'), capture)
    except (ValueError, IndexError) as fault:
        sys.exit(f'verdicts: script and capture are no session without disk files: {fault}')
    line, code = line_of(checker.verdict(report, files))
    sys.stdout.write(line)
    return code


if __name__ == '__main__':
    sys.exit(main(sys.argv[1:]))
