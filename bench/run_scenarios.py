#!/usr/bin/env python3
"""Times scenarios on real threads, end to end, beside C++ programs that make the same calls, and prints a table.

  bench/run_scenarios.py [--runs N] [--program PATH] [--before PATH]

Each scenario has 8 threads with as many pairs of `lock` and `unlock` each, on one mutex or each on a mutex of its own: 512,
1,024 and 2,048 pairs a thread, where 2,048 are as many as a body of 4,096 calls has. Ours is the program with the word `run`: its
start, reading, threads, calls, record, printing and writing, into /dev/null. Theirs is bench/peers/pairs.cpp, by g++: its
start, threads and the same calls on `std::mutex`, without a record. Each is the least of N runs (5 if left out), in
milliseconds; they take turns. `ratio` is ours over theirs; `us/call` is ours over the calls, in microseconds, and tells
whether the time grows with the calls alone. With `--before`, an earlier build of our program takes its turns too, and
`to before` is ours over it. It stands outside the gate, and nothing is proved of the times.
"""
import os
import platform
import subprocess
import tempfile
import time

from options import PROGRAM, built, options

PEER = os.path.join(os.path.dirname(os.path.abspath(__file__)), 'peers', 'pairs.cpp')
THREADS = 8
PAIRS = (512, 1_024, 2_048)
MUTEXES = (1, 8)
HEAD = ('mutexes', 'pairs a thread', 'calls', 'ours ms', 'theirs ms', 'ratio', 'us/call')


def scenario(pairs, mutexes):
    lines = ['cxthread 1'] + [f'thread t{t}' for t in range(THREADS)] + [f'mutex m{m} 0' for m in range(mutexes)]
    for t in range(THREADS):
        lines += [f'body t{t}'] + [f'lock m{t % mutexes}', f'unlock m{t % mutexes}'] * pairs + ['end']
    names = [f't{t}' for t in range(THREADS)]
    lines += ['main'] + [f'start {t}' for t in names] + [f'join {t}' for t in names] + ['end']
    return '\n'.join(lines) + '\n'


def milliseconds(words, path):
    with open(path, 'rb') as source, open(os.devnull, 'wb') as sink:
        begin = time.perf_counter()
        status = subprocess.run(words, stdin=source, stdout=sink, check=False).returncode
        taken = time.perf_counter() - begin
    if status != 0:
        raise SystemExit(f'{words[0]} ended with status {status}')
    return 1_000 * taken


def programs_of(words, peer, threads, pairs, mutexes):
    """Each program of a row with its words: ours, theirs, and an earlier build of ours where one is named."""
    programs = {'ours': [built(words.program), 'run'], 'theirs': [peer, str(threads), str(pairs), str(mutexes)]}
    if words.before:
        programs['before'] = [built(words.before), 'run']
    return programs


def least(programs, path, runs):
    """The least time of each program, in milliseconds, where they take turns."""
    rounds = [{name: milliseconds(words, path) for name, words in programs.items()} for _ in range(runs)]
    return {name: min(taken[name] for taken in rounds) for name in programs}


def cells_of(best, mutexes, pairs):
    ours, theirs, calls = best['ours'], best['theirs'], 2 * THREADS * pairs
    cells = [mutexes, pairs, calls, f'{ours:.1f}', f'{theirs:.1f}', f'{ours / theirs:.1f}', f'{1_000 * ours / calls:.2f}']
    return cells + [f'{best["before"]:.1f}', f'{ours / best["before"]:.2f}'] if 'before' in best else cells


def main():
    words = options(__doc__, 5, program=PROGRAM, before='')
    load = os.getloadavg()[0]
    print(f'{time.strftime("%Y-%m-%d")}, {platform.machine()}, {os.cpu_count()} processors, load {load:.1f}, least of {words.runs} runs')
    print(' '.join(f'{h:>14}' for h in HEAD + (('before ms', 'to before') if words.before else ())))
    with tempfile.TemporaryDirectory() as folder:
        text, peer = os.path.join(folder, 'text'), os.path.join(folder, 'pairs')
        subprocess.run(['g++', '-O2', '-std=c++20', '-pthread', '-o', peer, PEER], check=True)
        for mutexes in MUTEXES:
            for pairs in PAIRS:
                with open(text, 'w') as file:
                    file.write(scenario(pairs, mutexes))
                best = least(programs_of(words, peer, THREADS, pairs, mutexes), text, words.runs)
                print(' '.join(f'{c:>14}' for c in cells_of(best, mutexes, pairs)), flush=True)


main()
