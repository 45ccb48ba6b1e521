"""Replays of a scenario with many seeds side by side, and smaller scenarios of which the same holds."""
import os
import sys
import time
from concurrent.futures import ThreadPoolExecutor

from .program import answer
from .text import Trouble, counted, decoded

TRIED = 24      # the schedules that are tried of each smaller scenario


class Found:
    """A schedule that meets the goal: its draft and its seed, which is none for the replay without one."""

    def __init__(self, draft, seed):
        self.draft = draft
        self.seed = seed

    @property
    def words(self):
        return 'replay' if self.seed is None else 'replay %d' % self.seed


class Hunt:
    """A program, a goal, and how many seeds and replays at a time."""

    def __init__(self, program, goal, seeds, jobs):
        self.program, self.goal, self.seeds = program, goal, seeds
        self.jobs = jobs or os.cpu_count() or 1
        self.pool = ThreadPoolExecutor(self.jobs)
        self.tried = 0
        self.said = 0.0
        self.ends = False

    def say(self, message, now=True):
        """Tells progress on standard error, or at most once a second."""
        if now or time.time() - self.said >= 1:
            self.said = time.time()
            print('hunt: %s' % message, file=sys.stderr, flush=True)

    def replay(self, draft, text, seed):
        """The status of a replay, and whether it meets the goal."""
        status, written = answer(self.program, ['replay'] + ([] if seed is None else [str(seed)]), text)
        self.tried += 1
        return status, self.goal.met(draft, status, written)

    def written(self, found):
        """What the program writes of the schedule that was found."""
        return answer(self.program, found.words.split(), found.draft.text().encode('ascii'))[1]

    def wave(self, draft, text, seeds):
        return list(self.pool.map(lambda seed: self.replay(draft, text, seed), seeds))

    def first(self, draft):
        """The first schedule that meets the goal: without a seed, or with the least one; none where no seed does."""
        text = draft.text().encode('ascii')
        status, written = answer(self.program, ['replay'], text)
        if status not in (0, 7):
            raise Trouble('the replay ends with status %d: %s' % (status, decoded(written).split('\n')[0]))
        seeds = [None] + list(range(self.seeds))
        best = None
        for at in range(0, len(seeds), self.jobs * 4):
            part = seeds[at:at + self.jobs * 4]
            for seed, (status, met) in zip(part, self.wave(draft, text, part)):
                self.ends |= status == 0
                if met and best is None:
                    best = Found(draft, seed)
            if best:
                return best
            self.say('%s tried' % counted(self.tried, 'schedule'), now=False)
        return None

    def still(self, draft, seed):
        """A schedule of a smaller scenario that meets the goal, where one of a few does; the known seed comes first."""
        text = draft.text().encode('ascii')
        status, met = self.replay(draft, text, seed)
        if status not in (0, 7):
            return None
        statuses, best = {status}, Found(draft, seed) if met else None
        seeds = [None] + list(range(TRIED))
        for at in range(0, len(seeds), self.jobs * 2):
            if best and (not self.ends or self.goal.keeps(statuses)):
                return best
            part = seeds[at:at + self.jobs * 2]
            for other, (status, met) in zip(part, self.wave(draft, text, part)):
                statuses.add(status)
                best = best or (Found(draft, other) if met else None)
        return best if best and (not self.ends or self.goal.keeps(statuses)) else None

    def smaller(self, found):
        """Leaves out threads, objects and calls as long as the goal is met; the last scenario that meets it."""
        size = None
        while size != (len(found.draft.calls), len(found.draft.declarations)):
            size = len(found.draft.calls), len(found.draft.declarations)
            self.say('%s and %s, %s tried' % (counted(size[0], 'call'), counted(size[1], 'declaration'),
                                              counted(self.tried, 'schedule')))
            for name in found.draft.threads + found.draft.others:
                if name in found.draft.threads + found.draft.others:
                    found = self.still(found.draft.without_name(name), found.seed) or found
            found = self.fewer_calls(found)
        return found

    def fewer_calls(self, found):
        """Leaves out runs of calls, half of all first, then shorter ones, down to single calls."""
        length = max(1, len(found.draft.calls) // 2)
        while length:
            at = 0
            while at < len(found.draft.calls):
                then = self.still(found.draft.without_calls(found.draft.calls[at:at + length]), found.seed)
                found = then or found
                at += 0 if then else length
                self.say('%s, %s tried' % (counted(len(found.draft.calls), 'call'), counted(self.tried, 'schedule')),
                         now=False)
            length //= 2
        return found
