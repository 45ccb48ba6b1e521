#!/usr/bin/env python3
"""Times the loops of proved calls beside the C++20 libraries and Rust's std, and prints a table.

  bench/loops.py [--runs N] [--only WORD] [--before PATH]

Ours is the program that `rt ci`, or `rt run` in crates/cx_loops, leaves. Beside it stand the same loops over libstdc++
(g++), libc++ (clang++) and Rust's std (rustc), from bench/peers, each where its compiler is here. A figure is the least
of N runs (5 if left out) in nanoseconds a round: a lock and unlock, exclusive or shared, a release and acquire, a
count-down, a release there and back, a phase of a barrier, a call on a flag whose function has returned, a number handed
over by two conditions there and back, a notification while nobody waits, a number got or set under a held lock. The peers
take turns, so that a busy moment meets all of them. Ratios are ours over the other. With `--before`, an earlier build of
our loops takes its turns too. The last line is the processor time of a whole process in which a caller sleeps a second on
a semaphore. It stands outside the gate, and nothing is proved of the times.
"""
import os
import resource
import subprocess
import sys
import tempfile

from options import options

HERE = os.path.dirname(os.path.abspath(__file__))
OURS = os.path.join(os.path.dirname(HERE), 'crates', 'cx_loops', 'out', 'cx_loops')
PEERS = [
    ('libstdc++', ['g++', '-O2', '-std=c++20', '-pthread'], 'loops.cpp'),
    ('libc++', ['clang++', '-O2', '-std=c++20', '-stdlib=libc++', '-pthread'], 'loops.cpp'),
    ('Rust std', ['rustc', '-O', '--edition', '2021'], 'loops.rs'),
]
SLEEP = 'semaphore_sleep'


# With this status our program refuses a loop that it hasn't.
NO_LOOP = 2


def output(words, refused=0):
    """What a program wrote, or None where it ended with the status `refused`."""
    done = subprocess.run(words, capture_output=True, check=False, text=True)
    if refused and done.returncode == refused:
        return None
    if done.returncode != 0:
        sys.exit(f'{words[0]} ended with status {done.returncode}')
    return done.stdout


def build(folder):
    """The peers whose compiler is here, each with its program."""
    programs = []
    for name, compiler, source in PEERS:
        program = os.path.join(folder, name.replace(' ', '_'))
        try:
            subprocess.run(compiler + ['-o', program, os.path.join(HERE, 'peers', source)], check=True)
            programs.append((name, program))
        except (OSError, subprocess.CalledProcessError):
            print(f'# {name}: not built', file=sys.stderr)
    return programs


def nanoseconds(program, loop, often, threads):
    """Of one round, or None where the program hasn't the loop."""
    written = output([program, loop, often, threads], NO_LOOP)
    if written is None:
        return None
    _, _, calls, taken = written.split()
    return float(taken) / float(calls) if int(taken) else None


def processor_milliseconds():
    before = resource.getrusage(resource.RUSAGE_CHILDREN)
    output([OURS, SLEEP, '1000', '2'])
    after = resource.getrusage(resource.RUSAGE_CHILDREN)
    return 1000 * (after.ru_utime - before.ru_utime + after.ru_stime - before.ru_stime)


def least(programs, loop, often, threads, runs):
    best = {}
    for _ in range(runs):
        for name, program in programs:
            taken = nanoseconds(program, loop, often, threads)
            if taken is not None:
                best[name] = min(taken, best.get(name, taken))
    return best


def main():
    words = options(__doc__, 5, only='', before='')
    runs, only = words.runs, words.only
    if not os.path.exists(OURS):
        sys.exit('bench: crates/cx_loops/out/cx_loops is missing: run `rt ci`, or `rt run -- --list` in crates/cx_loops')
    with tempfile.TemporaryDirectory() as folder:
        peers = build(folder) + ([('before', words.before)] if words.before else [])
        names = [name for name, _ in peers]
        print(f'# ns a round, least of {runs} runs; load {os.getloadavg()[0]:.1f} on {os.cpu_count()} processors')
        print('| Loop | Threads | Ours | ' + ' | '.join(f'{n} | ratio' for n in names) + ' |')
        print('|---|---|---|' + '---|---|' * len(names))
        for line in output([OURS, '--list']).splitlines():
            loop, often, threads, _ = line.split()
            if only not in loop or loop == SLEEP:
                continue
            best = least([('Ours', OURS)] + peers, loop, often, threads, runs)
            ours = best['Ours']
            cells = [f'{best[n]:.1f} | {ours / best[n]:.2f}' if n in best else ' | ' for n in names]
            print(f'| {loop} | {threads} | {ours:.1f} | ' + ' | '.join(cells) + ' |', flush=True)
    print(f'# a caller sleeps a second: {min(processor_milliseconds() for _ in range(runs)):.1f} ms of processor time')


if __name__ == '__main__':
    main()
