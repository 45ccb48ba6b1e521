#!/usr/bin/env python3
"""Lets the system refuse starts of threads, and says what was found of the records.

  bench/refused_starts.py [--runs N] [--program PATH]

A scenario of eight threads is run where its user may have so many processes and threads alone: for each limit from one, where
every start is refused, to ten, where none is, N runs (20 if left out). In its text each thread gives a unit, and main takes as
many by attempts, so that it ends however many were started. Each run is to end with Done, its record is to be legal, and its
starts are refused from some limit on downwards. It prints how many starts were refused at each limit, and its status is 1 where
a run or a check ended otherwise, or where no start was refused at all. Only the superuser can take on another user's limits, so
others need to be that user already. It stands outside the gate.
"""
import os
import resource
import subprocess
import sys

from options import PROGRAM, built, options

THREADS = 8
LIMITS = range(1, THREADS + 3)
NOBODY = 65534


def scenario():
    names = [f't{i}' for i in range(THREADS)]
    lines = ['cxthread 1', *[f'thread {name}' for name in names], 'semaphore units 0 64']
    for name in names:
        lines += [f'body {name}', 'release units 1', 'end']
    lines += ['main', *[f'start {name}' for name in names], *['try_acquire units'] * THREADS, *[f'join {name}' for name in names], 'end']
    return ('\n'.join(lines) + '\n').encode()


def limited(limit):
    def take_on():
        if os.geteuid() == 0:
            os.setgroups([])
            os.setgid(NOBODY)
            os.setuid(NOBODY)
        resource.setrlimit(resource.RLIMIT_NPROC, (limit, limit))
    return take_on


def run(program, text, limit):
    return subprocess.run([program, 'run'], input=text, stdout=subprocess.PIPE, check=False, preexec_fn=limited(limit))


def main():
    words = options(__doc__, 20, program=PROGRAM)
    program, text, wrong, any_refused = built(words.program), scenario(), 0, False
    for limit in LIMITS:
        refused = []
        for _ in range(words.runs):
            done = run(program, text, limit)
            verdict = subprocess.run([program, 'check'], input=done.stdout, stdout=subprocess.PIPE, check=False)
            if done.returncode != 0 or verdict.stdout != b'legal\n':
                wrong += 1
                print(f'limit {limit}: run {done.returncode}, check {verdict.returncode} {verdict.stdout!r}', file=sys.stderr)
            refused.append(sum(line.startswith(b'* start ') and line.endswith(b' no-thread') for line in done.stdout.split(b'\n')))
        any_refused = any_refused or max(refused) > 0
        print(f'limit {limit:2}: {words.runs} runs, {min(refused)} to {max(refused)} of {THREADS} starts refused')
    raise SystemExit(0 if wrong == 0 and any_refused else 1)


main()
