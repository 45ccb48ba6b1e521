#!/usr/bin/env python3
"""Refuses one request for memory after the other, and says how each run of the program ended.

  bench/refuse_memory.py [--runs N] [--seconds N] [--program PATH]

For k = 1, 2 and so on the program's k-th request for memory is refused, in N runs alone (5 if left out) and in one with all
later ones, until none of these comes to a k-th one: of `replay` and `check`, and of `run` over scenarios whose threads wait
for each other's locks. What refuses it is bench/peers/refuse.c, which cc makes a library of and which is loaded before the C
library; so it is refused also where the C library asks for itself, as it does for a thread that is started. Each run has to
end within so many seconds (20), with Done (0) or NoMemory (8). With NoMemory nothing is written. With Done `replay` and
`check` write what they write with all their memory, and what `run` writes is legal. It prints a line for each scenario, and
one for each run that ended otherwise, and its status is 1 if there was one. Of the unproved program `rt try --fail-alloc K
-- run < FILE` refuses one request, and compiles it anew. It stands outside the gate.
"""
import os
import subprocess
import sys
import tempfile

from options import PROGRAM, built, options

HERE = os.path.dirname(os.path.abspath(__file__))
DONE, NO_MEMORY = 0, 8


def text(declared, main=(), **bodies):
    """A scenario, whose main starts the threads, makes its calls and joins them."""
    lines = ['cxthread 1', *(f'thread {t}' for t in bodies), *declared]
    for name, body in bodies.items():
        lines += [f'body {name}', *body, 'end']
    lines += ['main', *(f'start {t}' for t in bodies), *main, *(f'join {t}' for t in bodies), 'end']
    return ('\n'.join(lines) + '\n').encode()


def pairs(first, second, often):
    return [first, second] * often


HANDOFF = text(['semaphore q 0 1', 'mutex m 0'], ['acquire q', *pairs('lock m', 'unlock m', 1)],
               a=[*pairs('lock m', 'unlock m', 1), 'release q 1'])
# Each thread waits only for what another gives up again, whatever becomes of that one.
RUNS = {
    'a mutex': text(['mutex m 0'], pairs('lock m', 'unlock m', 4), a=pairs('lock m', 'unlock m', 4), b=pairs('lock m', 'unlock m', 4)),
    'two mutexes at once': text(
        ['mutex m 0', 'mutex n 0'], pairs('lock n', 'unlock n', 4),
        a=['lock_all m n', 'unlock m', 'unlock n'] * 4, b=['lock_all n m', 'unlock n', 'unlock m'] * 4),
    'levels that are kept to the end': text(['recursive r'], pairs('lock r', 'unlock r', 2), a=['lock r'] * 4, b=['lock r'] * 4),
    'readers and a writer': text(
        ['shared s'], pairs('lock s', 'unlock s', 2), a=pairs('lock_shared s', 'unlock_shared s', 4),
        b=[*pairs('lock_shared s', 'unlock_shared s', 2), 'lock_shared s'], c=[*pairs('lock s', 'unlock s', 2), 'lock s']),
    'a function that is called once': text(
        ['once o'], ['call_once o throw 1'], a=['call_once o throw 2'] * 2, b=['call_once o return'], c=['call_once o return'] * 2),
    'phases of one arrival': text(
        ['semaphore q 0 9', 'barrier p 1 release q 1'], ['arrive_and_wait p'] * 2, a=['arrive_and_wait p'] * 2, b=['arrive p 1'] * 2),
}


class Trial:
    def __init__(self, program, library, seconds):
        self.program, self.library, self.seconds = program, library, seconds

    def ended(self, words, source, k=0, later=False):
        """How a run ended whose k-th request is refused, and all later ones if so; for 0 none is. Its status, or None after the
        time; what it wrote; and whether it came to a k-th request."""
        begin, end = os.pipe()
        refusal = {'LD_PRELOAD': self.library, 'REFUSE': str(k), 'REFUSED_TO': str(end)} if k else {}
        where = {**os.environ, **refusal, **({'REFUSE_LATER': ''} if later else {})}
        try:
            run = subprocess.run([self.program, *words], input=source, stdout=subprocess.PIPE, pass_fds=[end], env=where,
                                 timeout=self.seconds, check=False)
            status, written = run.returncode, run.stdout
        except subprocess.TimeoutExpired as late:
            status, written = None, late.stdout or b''
        finally:
            os.close(end)
            met = os.read(begin, 1) != b''
            os.close(begin)
        return status, written, met

    def is_fine(self, words, status, written, wanted):
        if status == NO_MEMORY:
            return written == b''
        if status != DONE:
            return False
        return written == wanted if wanted is not None else self.ended(['check'], written)[:2] == (DONE, b'legal\n')

    def refuse(self, name, words, source, runs):
        """Refuses each request, and counts the runs that ended otherwise than they may."""
        status, wanted, _ = self.ended(words, source)
        if status != DONE:
            raise SystemExit(f'{name}: status {status} with all its memory')
        if words == ['run']:
            wanted = None
        k = done = refused = wrong = 0
        met = True
        while met:
            k, met = k + 1, False
            for later in [False] * runs + [True]:
                status, written, here = self.ended(words, source, k, later)
                met = met or here
                done, refused = done + (status == DONE), refused + (status == NO_MEMORY)
                if not self.is_fine(words, status, written, wanted):
                    wrong += 1
                    how = f'not ended after {self.seconds} seconds' if status is None else f'status {status}'
                    print(f'{" ".join(words)}, {name}: request {k} refused: {how}, {len(written)} bytes written', flush=True)
        print(f'{" ".join(words)}, {name}: {k - 1} requests, {done} runs done, {refused} without memory, {wrong} otherwise', flush=True)
        return wrong


def main():
    words = options(__doc__, 5, seconds=20, program=PROGRAM)
    with tempfile.TemporaryDirectory() as folder:
        library = os.path.join(folder, 'refuse.so')
        subprocess.run(['cc', '-O2', '-shared', '-fPIC', '-o', library, os.path.join(HERE, 'peers', 'refuse.c')], check=True)
        trial = Trial(built(words.program), library, int(words.seconds))
        record = trial.ended(['replay'], HANDOFF)[1]
        wrong = sum(trial.refuse('a hand-over', each, source, 1) for each, source in ((['replay'], HANDOFF), (['check'], record)))
        wrong += sum(trial.refuse(name, ['run'], source, words.runs) for name, source in RUNS.items())
    sys.exit(1 if wrong else 0)


main()
