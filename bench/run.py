#!/usr/bin/env python3
"""Times the proved program on large inputs and prints a table.

  bench/run.py [--runs N] [--program PATH] [--only WORD]

Each row is the least of N runs (5 if left out) of the program on one input, end to end: its start, reading, work and
writing, into /dev/null. Peak memory is the greatest of the runs; a peak of about 15 MB may be that of this script, from
which the program is started, and the program's own is then below it. The inputs are made here, in a folder that goes away:

  empty       the empty text: what a start of the program costs
  buffer N    8 producers and 8 consumers (fewer for small N) hand N numbers over through a buffer of 16, with stop-aware
              waits and a watcher; for 4,800 numbers these are 52,836 calls
  largest     63 threads with 65,536 calls in all, on one mutex and one semaphore
  waiting     32 threads with about 64,000 calls in all, while 31 threads of lower number wait
  comments    64,000 lines of comments before a short scenario
  herd        62 threads wait for one semaphore, whose units another releases one by one, 4,092 in all; with a seed
  lock_all    63 threads lock four mutexes at once, each in an order of its own, 207 times; with a seed
  registered  15 threads with 4,000 stop-aware waits each for what is so already: each registers a callback and takes it off
  names       65,536 lines `wait_stop` with names of 16 bytes, the last of which has a fault: the reader alone
  padded      a short text padded with blanks and comments to 8,388,608 bytes, with a fault on its last line
  make N      where the program knows the word `make`: it reads nothing, and lines and bytes are those of what it writes,
              which has to be the text of `buffer N`
  check ..    where the program knows the word `check`: the record of `buffer 4800`, and one of about three million
              lines, in which 60 threads in a wait with a predicate are notified again and again
  races       where the program knows the word `races`: a record of 65,520 items by 64 threads, nearly as many as may be,
              with 4,096 accesses, as many as may be, to one variable that is free (bench/accesses.py)

Items are the item lines of the record: changes, looks, controls and replies. MB are 1,000,000 bytes. Where an input has
at least 5 MB, `over` is the peak memory over its bytes, and the time of `wc -lw` on it and the ratio of both stand in the
last columns. It stands outside the gate, and nothing is proved of the times.
"""
import os
import platform
import subprocess
import tempfile
import time

from accesses import text as accesses
from options import PROGRAM, built, options

LIMIT = 8_388_608
THREADS = 63
CALLS = 65_536


def text_of(lines):
    return '\n'.join(lines) + '\n'


def empty():
    return ''


def buffer(n):
    """Producers put numbers into a buffer of 16, consumers take them, and a watcher waits until it is over-full."""
    k = max(2, -(-n // 600))
    lines = ['cxthread 1', 'jthread w'] + [f'jthread p{i}' for i in range(k)] + [f'jthread c{i}' for i in range(k)]
    lines += ['mutex m 2', 'condition items', 'condition space', 'condition idle']
    lines += ['body w', 'lock m', 'wait_stop idle m w 0 > 16', 'unlock m', 'end']
    for i in range(k):
        lines.append(f'body p{i}')
        for j in range(i, n, k):
            lines += ['lock m', 'wait_pred space m 0 < 16', 'add m 0 1', f'add m 1 {j + 1}', 'notify_one items', 'unlock m']
        lines.append('end')
    for i in range(k):
        lines.append(f'body c{i}')
        for j in range(i, n, k):
            lines += ['lock m', f'wait_stop items m c{i} 0 > 0', 'add m 0 -1', 'notify_one space', 'unlock m']
        lines.append('end')
    workers = [f'p{i}' for i in range(k)] + [f'c{i}' for i in range(k)]
    lines += ['main', 'start w'] + [f'start {t}' for t in workers] + [f'join {t}' for t in workers] + ['end']
    return text_of(lines)


def largest():
    """As many calls as a text may have, over 63 threads that hand a semaphore's unit round."""
    names = [f't{i}' for i in range(1, THREADS + 1)]
    lines = ['cxthread 1'] + [f'thread {n}' for n in names] + ['semaphore q 0 65535', 'mutex m 0']
    left = CALLS - 2 * THREADS - 1
    for i, name in enumerate(names):
        count = left // (THREADS - i)
        left -= count
        calls = []
        while len(calls) + 4 <= count:
            calls += ['acquire q', 'lock m', 'unlock m', 'release q 1']
        calls += ['unlock m'] * (count - len(calls))
        lines += [f'body {name}'] + calls + ['end']
    lines += ['main'] + [f'start {n}' for n in names] + ['release q 1'] + [f'join {n}' for n in names] + ['end']
    return text_of(lines)


def waiting():
    """Threads of greater number work while those below them wait until the end."""
    names = [f't{i}' for i in range(1, THREADS + 1)]
    waiters, workers = names[:31], names[31:]
    lines = ['cxthread 1'] + [f'thread {n}' for n in names] + ['semaphore gate 0 65535', 'mutex m 0']
    for name in waiters:
        lines += [f'body {name}', 'acquire gate', 'end']
    for name in workers:
        lines += [f'body {name}'] + ['lock m', 'unlock m'] * 1_000 + ['release gate 1', 'end']
    lines += ['main'] + [f'start {n}' for n in names] + [f'join {n}' for n in names] + ['end']
    return text_of(lines)


def comments():
    """Lines that are dropped, and a scenario behind them."""
    return '# a line that says nothing\n' * 64_000 + text_of(['cxthread 1', 'semaphore q 0 1', 'main', 'release q 1', 'acquire q', 'end'])


def herd():
    """Each unit of a semaphore finds many who wait for it."""
    names = [f't{i}' for i in range(1, THREADS)]
    lines = ['cxthread 1'] + [f'thread {n}' for n in names] + ['thread giver', 'semaphore q 0 65535']
    for name in names:
        lines += [f'body {name}'] + ['acquire q'] * 66 + ['end']
    lines += ['body giver'] + ['release q 1'] * (66 * len(names)) + ['end', 'main']
    lines += [f'start {n}' for n in names + ['giver']] + [f'join {n}' for n in names + ['giver']] + ['end']
    return text_of(lines)


def lock_all():
    """Threads lock the same four mutexes, and begin at different ones, so that they back off."""
    names, mutexes = [f't{i}' for i in range(1, THREADS + 1)], ['m0', 'm1', 'm2', 'm3']
    lines = ['cxthread 1'] + [f'thread {n}' for n in names] + [f'mutex {m} 0' for m in mutexes]
    for i, name in enumerate(names):
        turned = mutexes[i % 4 :] + mutexes[: i % 4]
        lines += [f'body {name}'] + ([f'lock_all {" ".join(turned)}'] + [f'unlock {m}' for m in mutexes]) * 207 + ['end']
    lines += ['main'] + [f'start {n}' for n in names] + [f'join {n}' for n in names] + ['end']
    return text_of(lines)


def registered():
    """Each wait finds its predicate true, and registers a callback before and takes it off behind."""
    names = [f't{i}' for i in range(1, 16)]
    lines = ['cxthread 1'] + [f'thread {n}' for n in names] + ['stop st main', 'mutex m 1', 'condition c']
    for name in names:
        lines += [f'body {name}', 'lock m'] + ['wait_stop c m st 0 = 0'] * 4_000 + ['unlock m', 'end']
    lines += ['main'] + [f'start {n}' for n in names] + [f'join {n}' for n in names] + ['end']
    return text_of(lines)


def names():
    """The longest words that a call can have, on as many lines as may be, and a fault on the last."""
    mutex, condition = 'mutex_of_sixteen', 'cond_of_sixteen_'
    threads = [f'thread_number_{i:02d}' for i in range(16)]
    lines = ['cxthread 1'] + [f'jthread {t}' for t in threads] + [f'mutex {mutex} 8', f'condition {condition}']
    for t in threads:
        lines.append(f'body {t}')
        lines += [f'wait_stop {condition} {mutex} {t} 7 >= -9223372036854775808'] * (CALLS // 16)
        lines.append('end')
    lines[-2] = f'wait_stop {condition} {mutex} {threads[-1]} 8 >= -9223372036854775808'
    lines += ['main', 'end']
    return text_of(lines)


def padded():
    """Blanks and comments up to the last byte that a text may have, and a word that is no call on the last line."""
    text = 'cxthread 1\nsemaphore q 0 1\nmain\nrelease q 1\nacquire q\n'
    last = 'acquires\n'
    filler = [' ' * 119 + '\n', '# ' + 'x ' * 58 + '\n', '\t \t ' * 20 + '\n']
    parts, size, i = [text], len(text) + len(last), 0
    while size + 121 <= LIMIT:
        line = filler[i % len(filler)]
        parts.append(line)
        size += len(line)
        i += 1
    parts.append('\n' * (LIMIT - size))
    return ''.join(parts) + last


def notified():
    """60 threads wait for a number that stays as it is, and are notified again and again; at last it changes."""
    waiters = [f'w{i}' for i in range(60)]
    lines = ['cxthread 1'] + [f'thread {t}' for t in waiters + ['n1', 'n2', 'n3']] + ['mutex m 1', 'condition c']
    for t in waiters:
        lines += [f'body {t}', 'lock m', 'wait_pred c m 0 > 0', 'unlock m', 'end']
    for t in ['n1', 'n2', 'n3']:
        lines += [f'body {t}'] + ['notify_all c'] * 3_300
        if t == 'n3':
            lines += ['lock m', 'set m 0 1', 'unlock m', 'notify_all c']
        lines.append('end')
    everyone = waiters + ['n1', 'n2', 'n3']
    lines += ['main'] + [f'start {t}' for t in everyone] + [f'join {t}' for t in everyone] + ['end']
    return text_of(lines)


# Name, text, words of the program, and the status that is wanted.
REPLAYS = [
    ('empty', empty, ['replay'], 3),
    ('buffer 1200', lambda: buffer(1_200), ['replay'], 0),
    ('buffer 2400', lambda: buffer(2_400), ['replay'], 0),
    ('buffer 4800', lambda: buffer(4_800), ['replay'], 0),
    ('buffer 4800, seed', lambda: buffer(4_800), ['replay', '1'], 0),
    ('largest', largest, ['replay'], 0),
    ('largest, seed', largest, ['replay', '1'], 0),
    ('waiting', waiting, ['replay'], 0),
    ('comments', comments, ['replay'], 0),
    ('herd, seed', herd, ['replay', '1'], 0),
    ('lock_all, seed', lock_all, ['replay', '1'], 0),
    ('registered', registered, ['replay'], 0),
    ('names', names, ['replay'], 3),
    ('padded', padded, ['replay'], 3),
]
# How many items are made.
MAKES = [1_200, 2_400, 4_800]
# Name and the scenario whose replay is checked.
CHECKS = [('check of buffer 4800', lambda: buffer(4_800)), ('check of notified', notified)]


def once(words, path, sink):
    """Seconds, peak bytes and status of one run."""
    with open(path, 'rb') as source:
        begin = time.perf_counter()
        process = subprocess.Popen(words, stdin=source, stdout=sink)
        _, status, usage = os.wait4(process.pid, 0)
        seconds = time.perf_counter() - begin
    process.returncode = os.waitstatus_to_exitcode(status)
    return seconds, usage.ru_maxrss * 1024, process.returncode


def least(words, path, runs):
    with open(os.devnull, 'wb') as sink:
        results = [once(words, path, sink) for _ in range(runs)]
    return min(r[0] for r in results), max(r[1] for r in results), {r[2] for r in results}


def items_in(path):
    """The number of item lines of a text that ends with a record."""
    with open(path, 'rb') as file:
        return sum(line[:2] in (b'+ ', b'? ', b'* ', b'= ') for line in file)


class Table:
    HEAD = ('input', 'lines', 'bytes', 'status', 'seconds', 'items', 'items/s', 'MB/s', 'peak MB', 'over', 'wc -lw', 'ratio')
    WIDTHS = (20, 9, 10, 6, 9, 9, 9, 7, 8, 6, 8, 6)

    def __init__(self, program, runs):
        self.program, self.runs, self.wrong = program, runs, 0
        self.put(self.HEAD)

    def put(self, cells):
        first = [f'{cells[0]:{self.WIDTHS[0]}}']
        print(' '.join(first + [f'{c:>{w}}' for c, w in zip(cells[1:], self.WIDTHS[1:])]).rstrip(), flush=True)

    def row(self, name, path, words, wanted, items):
        size = os.path.getsize(path)
        with open(path, 'rb') as file:
            lines = file.read().count(b'\n')
        seconds, peak, statuses = least([self.program] + words, path, self.runs)
        self.wrong += statuses != {wanted}
        cells = [name, lines, size, ','.join(str(s) for s in sorted(statuses)), f'{seconds:.4f}']
        cells += [items, f'{items / seconds:.0f}'] if items else ['', '']
        cells += [f'{size / 1e6 / seconds:.1f}', f'{peak / 1e6:.1f}']
        if size >= 5_000_000:
            counter, _, _ = least(['wc', '-lw'], path, self.runs)
            cells += [f'{peak / size:.1f}', f'{counter:.4f}', f'{seconds / counter:.1f}']
        self.put(cells)


def main():
    words = options(__doc__, 5, program=PROGRAM, only='')
    runs, program, only = words.runs, built(words.program), words.only
    print(f'{time.strftime("%Y-%m-%d")}, {platform.machine()}, {os.cpu_count()} processors, least of {runs} runs')
    table = Table(program, runs)
    with tempfile.TemporaryDirectory() as folder:
        text, written = os.path.join(folder, 'text'), os.path.join(folder, 'written')

        def make(text_maker):
            with open(text, 'w') as file:
                file.write(text_maker())

        def replay(words):
            with open(written, 'wb') as sink:
                return once([program] + words, text, sink)[2]

        for name, text_maker, words, wanted in REPLAYS:
            if only in name:
                make(text_maker)
                replay(words)
                table.row(name, text, words, wanted, items_in(written))
        make(empty)
        for items in MAKES if replay(['make', '1']) != 2 else []:
            if only in f'make {items}':
                replay(['make', str(items)])
                with open(written) as file:
                    table.wrong += file.read() != buffer(items)
                table.row(f'make {items}', written, ['make', str(items)], 0, 0)
        for name, text_maker in CHECKS if replay(['check']) != 2 else []:
            if only in name:
                make(text_maker)
                replay(['replay'])
                table.row(name, written, ['check'], 0, items_in(written))
        make(empty)
        if only in 'races' and replay(['races']) != 2:
            make(accesses)
            table.row('races', text, ['races'], 0, items_in(text))
    if table.wrong:
        raise SystemExit(f'{table.wrong} inputs ended with another status than they should')


main()
