#!/usr/bin/env python3
"""Schedules: sessions with threads, drawn from a number, on one, two and four processors, with and without load.

schedules.py JACKD SECONDS SEED    tells how many plays, how they differ, how long lanes waited, and what failed; 1 where anything did

The sessions are those of scripts/sessions.py: of all three versions, with lanes and two recorders, some with one to four disk files,
with 1 to 16 workers and with 1 to 8 that steal. Each is played twice in a row, on one, two or four processors in turn. A third of them has as many busy loops beside it as
it has processors, and another third is stopped and goes on every few milliseconds. Asked is that each play ends within 100 seconds with
code 0, that `check` says `check ok`, but of a session with disk files, which a check refuses, and that scripts/explained.py, which
knows nothing of the program, finds report and files explained; where both plays left the same, once. Every seventh session is a script
with forty calls on four lanes, and every seventh has disk files.

A lane waits where a call of it is due, and cycles go on without it: between the cycle that it asks for and the one that has its change,
how many cycles were begun. What is told is of all accepted calls of lanes that change something: the cycle behind the one that is asked
for is the first that may have it, and is a wait of 0. A call that no cycle of its segment has waited until the segment's end, or longer.
"""
import collections
import os
import random
import signal
import subprocess
import sys
import threading
import time

sys.dont_write_bytecode = True
sys.path.insert(0, os.path.dirname(os.path.abspath(__file__)))
import explained
import sessions
from rooms import room_in_memory

MODES = [mode for mode in sessions.MODES if mode != 'serial']
DISTURBED = ('alone', 'under load', 'stopped and continued')


def forty_calls(chance, mode):
    """A session whose lanes have ten calls each, all for early cycles, so that they meet."""
    lines = [line for line in sessions.eventful(random.Random(11), mode) if line.split()[0] not in ('lane', 'run', 'freewheel', 'period') or line == 'period 8']
    lines.append('run 120')
    for lane in range(1, 5):
        asked = sorted(chance.randrange(100) for _ in range(10))
        lines += [f'lane {lane} at {cycle} {sessions.command(chance, sessions.KINDS + sessions.MIDI_KINDS, "0123")}' for cycle in asked]
    return lines


class Yard:
    """A folder in which sessions are played."""

    def __init__(self, jackd):
        self.jackd, self.folder = jackd, room_in_memory()
        self.faults, self.plays, self.explained, self.differ, self.pairs = [], collections.Counter(), 0, collections.Counter(), collections.Counter()
        self.waits, self.never, self.longest, self.slowest, self.lost, self.missed = collections.Counter(), 0, (0, ''), 0.0, 0, 0
        self.processors = sorted(os.sched_getaffinity(0))

    def put(self, name, held):
        with open(f'{self.folder}/{name}', 'wb') as it:
            it.write(held)

    def ended(self, words, processors, disturbed):
        """A run of the program on these processors: its exit code and standard output."""
        busy = []
        os.sched_setaffinity(0, processors)
        try:
            if disturbed == 'under load':
                busy = [subprocess.Popen([sys.executable, '-S', '-c', 'while True: pass']) for _ in processors]
            with open(f'{self.folder}/out', 'wb') as out:
                ran = subprocess.Popen([self.jackd, *words], cwd=self.folder, stdin=subprocess.DEVNULL, stdout=out, stderr=subprocess.PIPE)
        finally:
            os.sched_setaffinity(0, self.processors)
        over = threading.Event()
        if disturbed == 'stopped and continued':
            threading.Thread(target=self.stops, args=(ran, over)).start()
        began = time.monotonic()
        try:
            _, told = ran.communicate(timeout=100)
            code = ran.returncode
        except subprocess.TimeoutExpired:
            code, told = None, b''
        finally:
            over.set()
            for it in busy:
                it.kill()
                it.wait()
        if code is None:
            ran.kill()
            ran.wait()
        self.slowest = max(self.slowest, time.monotonic() - began)
        with open(f'{self.folder}/out', 'rb') as it:
            return code, it.read(), told

    @staticmethod
    def stops(ran, over):
        """Stops a run and lets it go on, a few milliseconds each, until it is over."""
        while not over.is_set():
            for it in (signal.SIGSTOP, signal.SIGCONT):
                if ran.poll() is None:
                    ran.send_signal(it)
                time.sleep(0.002 + random.random() * 0.003)

    def play(self, what, lines, capture, disks, processors, disturbed):
        """Plays a session twice; each play has to be explained."""
        script = ''.join(f'{line}\n' for line in lines)
        self.put('s', script.encode())
        self.put('c', capture)
        names = ['p', *(f'r{k}' for k in range(sum(line.startswith('recorder ') for line in lines)))]
        outputs = ['p', *(word for name in names[1:] for word in ('--record', name))]
        for k, held in enumerate(disks):
            self.put(f'd{k}', held)
        tracks = [word for k in range(len(disks)) for word in ('--disk', f'd{k}')]
        seen = []
        for turn in range(2):
            code, report, told = self.ended(['play', '--no-sync', 's', 'c', *outputs, *tracks], processors, disturbed)
            self.plays[f'{disturbed}, {len(processors)}'] += 1
            if code != 0:
                self.faults.append(f'{what}: ' + ('no end in 100 seconds' if code is None else f'exit code {code}: {told[-200:]!r}'))
                continue
            files = [self.held(name) for name in names]
            if not disks:
                self.put('o', report)
                answer = subprocess.run([self.jackd, 'check', 's', 'c', 'o', *outputs], cwd=self.folder, capture_output=True, timeout=100).stdout
                if answer != b'check ok\n':
                    self.faults.append(f'{what}: check: {answer}')
            self.lost += b'\noverrun ' in report
            self.missed += b'\nunderrun ' in report
            if (report, files) not in seen:
                self.explained += 1
                self.faults += [f'{what}: {fault}' for fault in explained.faults_of(script, capture, report.decode(), files, disks)[:3]]
                seen.append((report, files))
            self.wait(what, explained.Script(script), report.decode())
        beside = any(line.startswith('lane ') for line in lines)
        self.pairs[beside] += 1
        self.differ[beside] += len(seen) > 1

    def held(self, name):
        with open(f'{self.folder}/{name}', 'rb') as it:
            return it.read()

    def wait(self, what, script, report):
        """How many cycles each accepted call of a lane waited."""
        rows = [line.split() for line in report.splitlines()]
        numbers = [int(row[2]) for row in rows if row[0] == 'cycle']
        accepted = {(int(row[1]), int(row[2])): int(row[4]) for row in rows if row[0] == 'call' and row[3] == 'ok'}
        made = dict.fromkeys(range(5), 0)
        for _, segment in script.phases:
            for lane, calls in segment.lanes.items():
                for asked, _ in calls:
                    made[lane] += 1
                    number = accepted.get((lane, made[lane]))
                    if number is None:
                        continue
                    first = segment.first + asked
                    cycle = next((k for k in range(first, segment.first + segment.cycles) if numbers[k - 1] >= number), None)
                    if cycle is None:
                        self.never += asked < segment.cycles
                        continue
                    self.waits[cycle - first] += 1
                    self.longest = max(self.longest, (cycle - first, what))


def share(waits, part):
    """The wait that this part of all stays within."""
    left = part * sum(waits.values())
    for wait in sorted(waits):
        left -= waits[wait]
        if left <= 0:
            return wait
    return 0


def main(jackd, seconds, seed):
    began, yard = time.monotonic(), Yard(os.path.abspath(jackd))
    number = 0
    while time.monotonic() - began < seconds and len(yard.faults) < 20:
        chance = random.Random(f'{seed} {number}')
        mode, count = MODES[number // 7 % len(MODES)], (1, 2, 4)[number % 3]
        session, channels = [*sessions.KINDS_OF_SESSIONS, (sessions.eventful, 2), (forty_calls, 2), (sessions.tracks, 2)][number % 7]
        if session is sessions.shared and number % 4:
            session = sessions.connections
        processors = set(yard.processors[:count])
        disturbed = DISTURBED[number // 3 % 3]
        capture = sessions.wave(chance, channels, chance.choice([0, 500, 1500]))
        what = f'seed {seed}, session {number} ({session.__name__}, {mode}, {len(processors)} processors, {disturbed})'
        lines = session(chance, mode)
        yard.play(what, lines, capture, sessions.disk_files(chance, lines), processors, disturbed)
        number += 1
    for fault in yard.faults[:20]:
        print('soak: schedules:', fault[:600])
    plays = ', '.join(f'{sum(count for name, count in yard.plays.items() if name.startswith(it))} {it}' for it in DISTURBED)
    print(f'soak: schedules: seed {seed}, {number} sessions played twice, in {time.monotonic() - began:.0f} s: {plays}; on ' + ', '.join(f'{k} processor{"s" * (k > 1)} '
          f'{sum(count for name, count in yard.plays.items() if name.endswith(f", {k}"))}' for k in (1, 2, 4)) + f'; {yard.explained} explained, all others the same; the longest took {yard.slowest:.1f} s; {len(yard.faults)} failures')
    print(f'soak: schedules: {yard.differ[True]} of {yard.pairs[True]} sessions with calls beside cycles gave another report the second time, {yard.differ[False]} of {yard.pairs[False]} without; {yard.lost} plays lost a block, {yard.missed} missed one of a disk file')
    waited = sum(yard.waits.values())
    print(f'soak: schedules: {waited} calls of lanes waited for their cycle: half of them at most {share(yard.waits, 0.5)} cycles, 99 of 100 at most {share(yard.waits, 0.99)}, the longest {yard.longest[0]}'
          f' ({yard.longest[1]}); {yard.never} more were in no cycle of their segment')
    return bool(yard.faults)


if __name__ == '__main__':
    if len(sys.argv) != 4:
        sys.exit(__doc__)
    sys.exit(main(sys.argv[1], float(sys.argv[2]), sys.argv[3]))
