#!/usr/bin/env python3
"""Where the gate's time goes, and how long it takes on so many processors.

gate_minutes.py watch PID FILE   writes the processor seconds of each check below the process PID into FILE, until it is told to end
gate_minutes.py tell FILE        what FILE says: the minutes of proofs, tests and edits, and when the last of each was done
gate_minutes.py keep FILE        writes scripts/gate_seconds.txt by it: a line a crate, with the seconds of its proof, tests and edits, as
                                 long as the machine of the seconds that it has now would take: it tells how far the two differ
gate_minutes.py model            processor minutes by scripts/gate_seconds.txt, and how long the gate takes on four and on two processors

A crate that gate_seconds.txt lacks is reckoned by its lines, as those that it has are. The model gives each free processor the
task with the longest chain of others behind it: a proof once all crates below are proved, tests likewise, edits behind both.
"""
import functools
import heapq
import os
import re
import signal
import sys
import time

HERE = os.path.dirname(os.path.abspath(__file__))
KEPT = f'{HERE}/gate_seconds.txt'
KINDS = ('proofs', 'tests', 'edits')
# What the gate takes beside the checks of crates: to read the graph of crates, to run programs and tests, and scripts/check-*.sh.
BESIDE = 180


def words_of(pid):
    with open(f'/proc/{pid}/cmdline', 'rb') as it:
        return it.read().decode(errors='replace').split('\0')


def times_of(pid):
    """A process's parent, start, and processor seconds, with those of its children that ended."""
    with open(f'/proc/{pid}/stat') as it:
        fields = it.read().rpartition(')')[2].split()
    return int(fields[1]), int(fields[19]), sum(map(int, fields[11:15])) / os.sysconf('SC_CLK_TCK')


def is_below(pid, top):
    while pid > 1 and pid != top:
        pid = times_of(pid)[0]
    return pid == top


def kind_of(pid, words):
    """Edits are checked in folders of their own, proofs and tests in the crate's."""
    folder = os.readlink(f'/proc/{pid}/cwd')
    if os.path.basename(os.path.dirname(folder)) != 'crates':
        return 'edits'
    return 'tests' if '--test' in words else 'proofs'


def watch(top, file):
    """Looks once a second at all checks of the toolchain that are at work."""
    began, seen = time.time(), {}

    def write():
        with open(f'{file}.part', 'w') as it:
            it.writelines(f'{crate} {kind} {seconds:.1f} {end:.0f}\n' for crate, kind, seconds, end in seen.values())
        os.replace(f'{file}.part', file)

    def end(*_):
        write()
        sys.exit(0)

    signal.signal(signal.SIGTERM, end)
    while True:
        for pid in filter(str.isdigit, os.listdir('/proc')):
            try:
                words = words_of(pid)
                if os.path.basename(words[0]) != 'rattle' or '--crate-name' not in words:
                    continue
                _, start, seconds = times_of(pid)
                if (pid, start) not in seen and not is_below(int(pid), top):
                    continue
                crate, kind, *_ = seen.get((pid, start)) or (words[words.index('--crate-name') + 1], kind_of(pid, words))
                seen[pid, start] = crate, kind, seconds, time.time() - began
            except (OSError, IndexError, ValueError):
                continue
        write()
        time.sleep(1)


def read(file):
    """Seconds by crate and kind, and the end of the last check of each kind."""
    seconds, ends = {}, dict.fromkeys(KINDS, 0.0)
    with open(file) as it:
        for line in it:
            crate, kind, spent, end = line.split()
            seconds.setdefault(crate, dict.fromkeys(KINDS, 0.0))[kind] += float(spent)
            ends[kind] = max(ends[kind], float(end))
    return seconds, ends


def tell(file):
    seconds, ends = read(file)
    for kind in KINDS:
        spent = sum(it[kind] for it in seconds.values())
        print(f'{kind}: {spent / 60:.0f} processor minutes' + f', the last after {ends[kind] / 60:.0f} minutes' * (ends[kind] > 0))


def kept():
    """The seconds of proof, tests and edits by crate, as gate_seconds.txt has them."""
    with open(KEPT) as it:
        return {name: list(map(float, rest)) for name, *rest in (line.split() for line in it if not line.startswith('#'))}


def keep(file):
    """Machines differ by half, and the bound of check-crates.sh is one number: so all seconds are of one machine."""
    seconds, _ = read(file)
    before = kept() if os.path.exists(KEPT) else {}
    pairs = [(seconds[crate][kind], told) for crate in seconds if crate in before for kind, told in zip(KINDS, before[crate])]
    ratios = sorted(now / told for now, told in pairs if min(now, told) >= 20)
    ratio = ratios[len(ratios) // 2] if ratios else 1.0
    with open(KEPT, 'w') as it:
        it.write('# crate, and the seconds of a processor that its proof, its tests and its edits took\n')
        it.writelines(f'{crate} ' + ' '.join(f'{seconds[crate][kind] / ratio:.0f}' for kind in KINDS) + '\n' for crate in sorted(seconds))
    print(f'this machine took {ratio:.2f} times as long')


def lines_of(crate, folder, ending):
    count = 0
    for at, _, names in os.walk(f'{HERE}/../crates/{crate}/{folder}'):
        for name in names:
            if name.endswith(ending):
                with open(f'{at}/{name}', 'rb') as it:
                    count += it.read().count(b'\n')
    return count


def edits_of(crate):
    folder = f'{HERE}/../crates/{crate}/must-fail'
    return len([it for it in os.listdir(folder) if it.endswith('.edit')]) if os.path.isdir(folder) else 0


class House:
    """The crates, what each stands on, and the seconds of its tasks."""

    def __init__(self):
        with open(f'{HERE}/../crates.txt') as it:
            rows = [line.split(':') for line in it if line.strip() and not line.startswith('#')]
        known = {name.split()[0] for name, _ in rows}
        self.below = {name.split()[0]: [it for it in names.split() if it in known] for name, names in rows}
        told = kept()
        weights = {it: 40 + lines_of(it, 'src', '.rt') + lines_of(it, 'proofs', '.antt') / 10 for it in known}
        both = [it for it in known if it in told]
        rate = sum(told[it][0] + told[it][1] for it in both) / max(sum(weights[it] for it in both), 1)
        self.seconds, self.guessed = {}, sorted(known - set(told))
        for crate in known:
            proof, tests, edits = told.get(crate, (weights[crate] * rate, 0, 0))
            count = edits_of(crate)
            # a crate's edits are a check from nothing, and then the others and one more over what that one left
            edits = edits if edits and count else (proof + (15 + proof / 12) * count) * (count > 0)
            self.seconds[crate] = proof, tests, edits

    @functools.lru_cache(None)
    def all_below(self, crate):
        return frozenset().union(*[{it} | self.all_below(it) for it in self.below[crate]])

    def spent(self):
        return [sum(it[kind] for it in self.seconds.values()) / 60 for kind in range(3)]

    def tasks(self):
        """Each task with what it waits for and its seconds."""
        found = {}
        for crate in self.below:
            proof, tests, edits = self.seconds[crate]
            low = [(it, 'proofs') for it in self.all_below(crate)]
            found[crate, 'proofs'] = low, proof
            if tests:
                found[crate, 'tests'] = low, tests
            if edits:
                found[crate, 'edits'] = [(crate, it) for it in ('proofs', 'tests') if it == 'proofs' or tests], edits
        return found

    def minutes(self, processors):
        """How long all tasks take, the longest chain behind them first."""
        tasks, behind = self.tasks(), {}
        above = {it: [] for it in tasks}
        for task, (waits, _) in tasks.items():
            for it in waits:
                above[it].append(task)

        def chain(task):
            if task not in behind:
                behind[task] = tasks[task][1] + max(map(chain, above[task]), default=0)
            return behind[task]

        left, done, running, now = sorted(tasks, key=lambda it: -chain(it)), set(), [], 0.0
        while left or running:
            for task in [it for it in left if done.issuperset(tasks[it][0])][:processors - len(running)]:
                left.remove(task)
                heapq.heappush(running, (now + tasks[task][1], task))
            now, task = heapq.heappop(running)
            done.add(task)
        return (now + BESIDE) / 60


def model():
    house = House()
    spent = house.spent()
    print(f'{sum(spent):.0f} processor minutes: ' + ', '.join(f'{kind} {it:.0f}' for kind, it in zip(KINDS, spent))
          + f'; {house.minutes(4):.0f} minutes on four processors, {house.minutes(2):.0f} on two'
          + f'; reckoned by lines: {" ".join(house.guessed)}' * bool(house.guessed))


def main(words):
    match words:
        case ['watch', pid, file] if re.fullmatch('[0-9]+', pid):
            watch(int(pid), file)
        case ['tell', file]:
            tell(file)
        case ['keep', file]:
            keep(file)
        case ['model']:
            model()
        case _:
            print(__doc__.strip())
            return 2
    return 0


if __name__ == '__main__':
    sys.exit(main(sys.argv[1:]))
