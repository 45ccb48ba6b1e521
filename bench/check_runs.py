#!/usr/bin/env python3
"""Runs a scenario on real threads again and again, checks each record, and says what was found.

  bench/check_runs.py [--runs N] [--program PATH] [--scenario PATH]

It does `cxthread run < SCENARIO | cxthread check` N times (1,000 if left out) over examples/handoff.cx, in which two
threads take units of a semaphore and then a mutex, and prints how many of the records are legal and how many different
ones there were. The status is 1 where a run or a check ended with another status than 0, and the last such run's text and
verdict go to standard error. It stands outside the gate.
"""
import os
import subprocess
import sys

from options import PROGRAM, built, options

SCENARIO = os.path.join(os.path.dirname(os.path.abspath(__file__)), '..', 'examples', 'handoff.cx')


def output(words, text):
    done = subprocess.run(words, input=text, stdout=subprocess.PIPE, check=False)
    return done.returncode, done.stdout


def main():
    words = options(__doc__, 1_000, program=PROGRAM, scenario=SCENARIO)
    runs, program, scenario = words.runs, built(words.program), words.scenario
    with open(scenario, 'rb') as file:
        text = file.read()
    legal, records, wrong = 0, set(), None
    for _ in range(runs):
        status, written = output([program, 'run'], text)
        records.add(written)
        verdict, line = output([program, 'check'], written)
        if status == 0 and verdict == 0 and line == b'legal\n':
            legal += 1
        else:
            wrong = f'run: status {status}\n{written.decode("ascii")}check: status {verdict}\n{line.decode("ascii")}'
    print(f'{os.path.basename(scenario)}: {runs} runs, {legal} legal, {len(records)} different records')
    if wrong:
        print(wrong, end='', file=sys.stderr)
        raise SystemExit(1)


main()
