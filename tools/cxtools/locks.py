"""Five of the nine machines of docs/machines.md: what each change makes of the state, and the state in words."""

LEVELS = 1000
LEAST, GREATEST = -(1 << 63), (1 << 63) - 1


def names(people):
    """Some names in a row, the first few where they are many."""
    people = list(people)
    return ' '.join(people[:6]) + (' and %d more' % (len(people) - 6) if len(people) > 6 else '')


class Mutex:
    def __init__(self, words):
        self.recursive = words[0] == 'recursive'
        self.owner, self.level = None, 0
        self.numbers = [0] * (0 if self.recursive else int(words[2]))

    def step(self, by, act):
        if act in (['lock'], ['try_lock', 'true']):
            if self.owner is not None and not (self.recursive and self.owner == by and self.level < LEVELS):
                return False
            self.owner, self.level = by, self.level + 1
            return True
        if self.owner != by:
            return False
        if act == ['unlock']:
            self.level -= 1
            self.owner = by if self.level else None
            return True
        return self.write(act)

    def write(self, act):
        index, value = int(act[1]), int(act[2])
        if index >= len(self.numbers):
            return False
        if act[0] == 'add':
            value += self.numbers[index]
            if value != int(act[3]) or not LEAST <= value <= GREATEST:
                return False
        self.numbers[index] = value
        return True

    def __str__(self):
        owner = 'free' if self.owner is None else 'owner %s' % self.owner
        level = ', level %d' % self.level if self.recursive and self.level else ''
        numbers = ', %s %s' % ('number' if len(self.numbers) == 1 else 'numbers', ' '.join(map(str, self.numbers)))
        return owner + level + (numbers if self.numbers else '')


class Shared:
    def __init__(self, _words):
        self.writer, self.readers = None, []

    def step(self, by, act):
        if act in (['lock'], ['try_lock', 'true']) and self.writer is None and not self.readers:
            self.writer = by
        elif act == ['unlock'] and self.writer == by:
            self.writer = None
        elif act[0] in ('lock_shared', 'try_lock_shared') and self.writer is None and by not in self.readers:
            self.readers.append(by)
        elif act == ['unlock_shared'] and by in self.readers:
            self.readers.remove(by)
        else:
            return False
        return True

    def __str__(self):
        if self.writer is not None:
            return 'writer %s' % self.writer
        return 'readers %s' % names(self.readers) if self.readers else 'free'


class Semaphore:
    def __init__(self, words):
        self.counter, self.most = int(words[2]), int(words[3])

    def step(self, _by, act):
        after = self.counter + (int(act[1]) if act[0] == 'release' else -1)
        if not 0 <= after <= self.most:
            return False
        self.counter = after
        return True

    def __str__(self):
        return 'counter %d of %d' % (self.counter, self.most)


class Latch:
    def __init__(self, words):
        self.counter = int(words[2])

    def step(self, _by, act):
        if int(act[1]) > self.counter:
            return False
        self.counter -= int(act[1])
        return True

    def __str__(self):
        return 'counter %d' % self.counter


class Barrier:
    def __init__(self, words):
        self.phase, self.completing = 0, None
        self.remaining = self.expected = int(words[2])

    def step(self, by, act):
        if act == ['complete']:
            if self.completing != by:
                return False
            self.phase, self.remaining, self.completing = self.phase + 1, self.expected, None
            return True
        taken = int(act[1]) if act[0] == 'arrive' else 1
        if self.completing is not None or not 1 <= taken <= self.remaining or int(act[-1]) != self.phase:
            return False
        self.expected -= act[0] == 'drop'
        self.remaining -= taken
        self.completing = None if self.remaining else by
        return True

    def __str__(self):
        doing = ', %s completes' % self.completing if self.completing is not None else ''
        return 'phase %d, %d to come%s' % (self.phase, self.remaining, doing)
