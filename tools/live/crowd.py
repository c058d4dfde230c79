#!/usr/bin/python3
"""Compares what servers have read with what a crowd was told, whose servers were killed by turns:

    crowd.py READ TOLD CALLS DEATHS

READ has a line `PORT OPERATION NAME` for each request that a server has read, TOLD one `NAME STATUS SENT` for each of so
many CALLS: 0 where it was answered, and whether a byte of it went out. Names of calls that change nothing begin with s, and
their status is 0 where the answer was right. A change is read once where it was answered, not at all where nothing was sent,
and never twice."""
import collections
import sys

MAY_BE_READ = {'answered': (1,), 'lost': (0, 1), 'not sent': (0,)}


def kind_of(status, sent):
    if status == '0':
        return 'answered'
    return 'lost' if sent == '1' else 'not sent'


def main(read, told, calls, deaths):
    with open(read, encoding='utf-8') as file:
        times = collections.Counter(line.split()[2] for line in file)
    with open(told, encoding='utf-8') as file:
        rows = [line.split() for line in file]
    changes = {name: kind_of(status, sent) for name, status, sent in rows if not name.startswith('s')}
    signed = [status for name, status, _ in rows if name.startswith('s')]
    seen = collections.Counter((kind, times[name]) for name, kind in changes.items())
    wrong = [name for name, kind in changes.items() if times[name] not in MAY_BE_READ[kind]]
    strange = [name for name in times if not name.startswith('s') and name not in changes]
    answered = sum(kind == 'answered' for kind in changes.values())
    print('%d deaths; changes by what was told, and how often they were read: %s; %d of %d signatures; wrong: %s, strange: %s'
          % (deaths, dict(seen), signed.count('0'), len(signed), wrong[:3], strange[:3]))
    is_whole = len(rows) == calls and len(changes) + len(signed) == calls
    # (a server that is killed has most of its calls behind it)
    is_served = 2 * answered > len(changes) and 10 * signed.count('0') >= 9 * len(signed) and deaths >= 3
    return is_whole and is_served and not wrong and not strange


if __name__ == '__main__':
    if len(sys.argv) != 5:
        sys.exit(__doc__)
    sys.exit(not main(*sys.argv[1:3], *map(int, sys.argv[3:])))
