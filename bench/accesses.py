#!/usr/bin/env python3
"""Makes a large input of the race report and writes it:  bench/accesses.py [ACCESSES]

A scenario of 64 threads (with main) that lock and unlock one mutex again and again, a record of 65,520 items in which one
thread after the other makes all its calls, and so many accesses (4,096, the most there may be, if left out), each a write
of one variable by a thread that owns the mutex. The variable is free, so no pair of accesses ends the search for one.
bench/run.py times the word `races` on it.
"""
import sys

THREADS = 63
PAIRS = 259


def text(accesses=4_096):
    lines = ['cxthread 1', *[f'thread t{i}' for i in range(THREADS)], 'mutex m 0']
    for i in range(THREADS):
        lines += [f'body t{i}', *['lock m', 'unlock m'] * PAIRS, 'end']
    lines += ['main', *[f'start t{i}' for i in range(THREADS)], *[f'join t{i}' for i in range(THREADS)], 'end']
    lines += ['record 1', 'acts main']
    for i in range(THREADS):
        lines += [f'* start t{i} ok', '= ok']
    for i in range(THREADS):
        lines += [f'* join t{i}', '= ok']
    lines.append('end')
    position = 0
    for i in range(THREADS):
        lines.append(f'acts t{i}')
        for _ in range(PAIRS):
            lines += [f'+ m {position} lock', '= ok', f'+ m {position + 1} unlock', '= ok']
            position += 2
        lines.append('end')
    lines += ['done', 'accesses 1']
    for k in range(accesses):
        lines.append(f't{k % THREADS} {4 * (k // THREADS) + 2} x write')
    return '\n'.join([*lines, 'done']) + '\n'


if __name__ == '__main__':
    sys.stdout.write(text(*map(int, sys.argv[1:])))
