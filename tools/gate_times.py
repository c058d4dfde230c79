#!/usr/bin/env python3
"""Runs `rt ci` and says what each crate took of it, in processor minutes and in memory.

usage: gate_times.py [--anew] [NAME..]      at the top of the repository; the words are those of `rt ci`
       gate_times.py --read LOG..           prints the table of earlier runs again: of each count the largest
       gate_times.py --slow [SECONDS]       of the lines of `rattle check --progress`, as they come on standard input, the
                                            functions that took longer than so many seconds of the clock: 8 if none are given

It watches the prover's processes five times a second, and counts the processor time of each to its crate: its own
proof, the proof of its tests, and its must-fail edits with the check that they begin with. What a process takes in its
last fifth of a second is not counted. The memory of a crate is the most that one process of it held. Each count is also
written to gate_times.log beside what `rt ci` says.

The longest chain is the largest sum of own proofs of crates of which each stands on the one before: no number of
processors makes a run shorter than that. The most memory at once is the sum over all processes of the run, and what some
of them share is counted for each. The last line has the processor time of all processes, those that compile, link and run
programs and tests among them. What an earlier run kept takes no time, so give --anew for a run from nothing. To see what
fewer processors make of it, run `taskset -c 0,1 python3 tools/gate_times.py`. A run that is ended by a signal prints what
it took up to there.
"""
import os
import re
import resource
import signal
import subprocess
import sys
import time

PHASES = ('own', 'tests', 'edits')
TICKS = os.sysconf('SC_CLK_TCK')
PAGE = os.sysconf('SC_PAGE_SIZE')


class Seen:
    """What a run took up to now."""

    def __init__(self):
        self.known = {}     # by process: the crate and the phase, or None
        self.taken = {}     # by process: the same, and its processor seconds
        self.memory = {}    # by crate: the most bytes of one process
        self.at_once = 0    # the most bytes of all processes

    def spent(self):
        sums = {}
        for key, seconds in self.taken.values():
            sums[key] = sums.get(key, 0) + seconds
        return sums


def crates_of(top):
    rows = {}
    with open(f'{top}/crates.txt', encoding='utf-8') as lines:
        for line in lines:
            line = line.split('#')[0]
            if ':' in line:
                name, deps = line.split(':', 1)
                rows[name.split()[0]] = deps.split()
    return rows


def stat_of(pid):
    """Returns the parent of a process, and the processor seconds and the bytes of memory that it took itself."""
    with open(f'/proc/{pid}/stat', encoding='utf-8', errors='replace') as file:
        fields = file.read().rpartition(')')[2].split()
    return int(fields[1]), (int(fields[11]) + int(fields[12])) / TICKS, int(fields[21]) * PAGE


def phase_of(words, folder):
    """Returns the crate that a process of the prover works on, and for what, or None for any other process."""
    if not words or os.path.basename(words[0]) != 'rattle' or '--crate-name' not in words:
        return None
    name = words[words.index('--crate-name') + 1]
    if 'rt-edit' in folder:
        return name, 'edits'
    return name, 'tests' if '--test' in words else 'own'


def processes_below(root):
    """Returns the processor seconds and the bytes of memory of the processes that `root` began, and those began, by process."""
    found = {}
    for pid in filter(str.isdigit, os.listdir('/proc')):
        try:
            found[int(pid)] = stat_of(pid)
        except (OSError, IndexError):
            continue

    def is_below(pid):
        for _ in range(50):
            if pid == root or pid not in found:
                return pid == root
            pid = found[pid][0]
        return False
    return {pid: parent[1:] for pid, parent in found.items() if is_below(pid)}


def watch(root, seen):
    """Adds what the processes below `root` took so far."""
    at_once = 0
    for pid, (seconds, memory) in processes_below(root).items():
        at_once += memory
        if not seen.known.get(pid):  # a process that was just forked has the words of its parent until it becomes the prover
            try:
                with open(f'/proc/{pid}/cmdline', encoding='utf-8', errors='replace') as file:
                    words = file.read().split('\0')
                seen.known[pid] = phase_of(words, os.readlink(f'/proc/{pid}/cwd'))
            except OSError:
                continue
        if seen.known[pid]:
            crate = seen.known[pid][0]
            seen.taken[pid] = seen.known[pid], seconds
            seen.memory[crate] = max(memory, seen.memory.get(crate, 0))
    seen.at_once = max(at_once, seen.at_once)


def table(crates, spent, memory, at_once, wall, whole):
    minutes = lambda name, phase: spent.get((name, phase), 0) / 60
    chains = {}

    def chain(name):
        if name not in chains:
            below = max((chain(one) for one in crates[name] if one in crates), key=lambda one: one[0], default=(0, []))
            chains[name] = below[0] + minutes(name, 'own'), below[1] + [name]
        return chains[name]
    print('| crate | own proof | tests | edits | together | memory, GB |\n|---|---|---|---|---|---|')
    for name in crates:
        row = [minutes(name, phase) for phase in PHASES]
        if any(row):
            print(f'| {name} | {row[0]:.1f} | {row[1]:.1f} | {row[2]:.1f} | {sum(row):.1f} | {memory.get(name, 0) / 1e9:.1f} |')
    sums = [sum(minutes(name, phase) for name in crates) for phase in PHASES]
    print(f'| all | {sums[0]:.1f} | {sums[1]:.1f} | {sums[2]:.1f} | {sum(sums):.1f} | {max(memory.values(), default=0) / 1e9:.1f} |')
    length, names = max((chain(name) for name in crates), key=lambda one: one[0])
    print(f'\nlongest chain: {length:.1f} processor minutes: {", ".join(names)}')
    print(f'most memory at once: {at_once / 1e9:.1f} GB')
    print(f'from first to last: {wall / 60:.1f} minutes')
    if whole:  # a log of an earlier version has none
        print(f'all processes: {whole / 60:.1f} processor minutes')


def read(logs):
    spent, memory, whole = {}, {}, {'wall': 0, 'whole': 0, 'at_once': 0}
    lines = []
    for log in logs:
        with open(log, encoding='utf-8', errors='replace') as file:
            lines += file.read().splitlines()
    for line in lines:
        row = re.fullmatch(r'gate_times: (\w+) (own|tests|edits|memory) ([\d.]+)', line)
        if row and row[2] == 'memory':
            memory[row[1]] = max(float(row[3]), memory.get(row[1], 0))
        elif row:
            spent[row[1], row[2]] = max(float(row[3]), spent.get((row[1], row[2]), 0))
        if row := re.fullmatch(r'gate_times: (wall|whole) ([\d.]+)', line):
            whole[row[1]] += float(row[2])
        if row := re.fullmatch(r'gate_times: at_once ([\d.]+)', line):
            whole['at_once'] = max(float(row[1]), whole['at_once'])
    return spent, memory, whole['at_once'], whole['wall'], whole['whole']


def write(log, seen, wall, whole):
    for (name, phase), seconds in sorted(seen.spent().items()):
        log.write(f'gate_times: {name} {phase} {seconds:.1f}\n')
    for name, most in sorted(seen.memory.items()):
        log.write(f'gate_times: {name} memory {most}\n')
    log.write(f'gate_times: at_once {seen.at_once}\ngate_times: wall {wall:.1f}\ngate_times: whole {whole:.1f}\n')


def ended(*_):
    raise KeyboardInterrupt


def slow(lines, least, clock=time.monotonic):
    """Yields the functions whose lines came longer than this after the line before, and after how many seconds."""
    before = clock()
    for line in lines:
        now = clock()
        found = re.search(r'\bfn (\S+?):? (?:proved|not proved|no proof|could not tell)\b', line)
        if found and now - before > least:
            yield found[1], now - before
        before = now


def main():
    if sys.argv[1:2] == ['--slow']:
        for name, seconds in slow(sys.stdin, float((sys.argv[2:] or ['8'])[0])):
            print(f'{seconds:6.0f}  {name}', flush=True)
        return 0
    if sys.argv[1:2] == ['--read']:
        return table(crates_of('.'), *read(sys.argv[2:]))
    begin, seen = time.time(), Seen()
    with open('gate_times.log', 'w', encoding='utf-8') as log:
        run = subprocess.Popen(['rt', 'ci', *sys.argv[1:]], stdout=log, stderr=subprocess.STDOUT, stdin=subprocess.DEVNULL)
        signal.signal(signal.SIGTERM, ended)
        try:
            while run.poll() is None:
                watch(run.pid, seen)
                time.sleep(0.2)
        except KeyboardInterrupt:
            run.terminate()
            run.wait()
        wall = time.time() - begin
        taken = resource.getrusage(resource.RUSAGE_CHILDREN)
        whole = taken.ru_utime + taken.ru_stime
        log.seek(0, os.SEEK_END)
        write(log, seen, wall, whole)
    with open('gate_times.log', encoding='utf-8', errors='replace') as file:
        print(file.read().split('gate_times: ')[0].rstrip('\n').rpartition('\n')[2])
    table(crates_of('.'), seen.spent(), seen.memory, seen.at_once, wall, whole)
    return run.returncode


if __name__ == '__main__':
    sys.exit(main())
