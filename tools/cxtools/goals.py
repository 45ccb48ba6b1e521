"""What a hunt looks for in the record of a replay."""
from .calls import parts_of, waits_of
from .program import answer
from .record import read_record
from .text import Trouble, decoded

STUCK = 7


class Stuck:
    """A schedule in which some thread waits for ever. A smaller scenario has to be stuck in the same acts, and where
    some schedule of the whole one ends some schedule of it has to end too, unless `anyhow`."""

    words = 'gets stuck'

    def __init__(self, anyhow):
        self.anyhow = anyhow
        self.acts = None

    def met(self, _draft, status, written):
        if status != STUCK:
            return False
        if self.anyhow:
            return True
        acts = {wait.act for wait in waits_of(read_record(decoded(written))[0])} - {'join'}
        if self.acts is None:
            self.acts = acts
        return bool(acts) and acts <= self.acts

    def keeps(self, statuses):
        """Whether a smaller scenario may have schedules that end so."""
        return self.anyhow or 0 in statuses

    def notes(self, _draft, _written):
        """What more there is to say of a schedule that was found, a line each."""
        return []


class Replied:
    """A schedule in which one call has a given reply."""

    def __init__(self, draft, words):
        if len(words) < 3 or not words[1].isdigit():
            raise Trouble('--reply wants a thread, the number of its call from 0, and the reply: "a 2 false"')
        self.thread, self.reply = words[0], words[2:]
        self.call = call_of(draft, self.thread, int(words[1]))

    @property
    def words(self):
        return 'the call "%s" of %s replies %s' % (self.call, self.thread, ' '.join(self.reply))

    def met(self, draft, status, written):
        if status not in (0, STUCK) or self.call not in draft.bodies.get(self.thread, ()):
            return False
        record, _ = read_record(decoded(written))
        items = record.lists[record.scenario.threads.index(self.thread)] or []
        part = parts_of(draft.bodies[self.thread], items)[draft.bodies[self.thread].index(self.call):][:1]
        return bool(part and part[0].items) and part[0].items[-1].mark == '=' and part[0].items[-1].words == self.reply

    def keeps(self, _statuses):
        return True

    def notes(self, _draft, _written):
        return []


class Races:
    """A schedule in whose record two accesses to a variable race. An access stands right before a call, or at the end
    of a body; where its call is left out it stands before the next."""

    def __init__(self, program, draft, variable, accesses):
        self.program, self.variable = program, variable
        self.accesses = [self.read_access(draft, words) for words in accesses]
        self.bodies = dict(draft.bodies)
        status, _ = answer(program, ['races'], b'')
        if status == 2:
            raise Trouble('the program has no word races')
        if not any(access[2] == variable for access in self.accesses):
            raise Trouble('--race %s wants accesses to it: --access "a 2 %s write"' % (variable, variable))

    @property
    def words(self):
        return 'two accesses to %s race' % self.variable

    @staticmethod
    def read_access(draft, words):
        if len(words) != 4 or not words[1].isdigit() or words[3] not in ('read', 'write'):
            raise Trouble('--access wants a thread, the number of the call that follows, a variable, and read or write')
        thread, number = words[0], int(words[1])
        call = None
        if number != len(draft.bodies.get(thread, ())):
            call = call_of(draft, thread, number)
        return thread, call, words[2], words[3]

    def lines(self, draft, record):
        """The accesses as the race report wants them, each with the number of the item that it stands before."""
        lines = []
        for thread, call, variable, kind in self.accesses:
            if thread not in draft.bodies:
                continue
            items = record.lists[record.scenario.threads.index(thread)]
            if items is None:
                continue
            body, whole = draft.bodies[thread], self.bodies[thread]
            later = whole[whole.index(call):] if call else []
            number = next((body.index(other) for other in later if other in body), len(body))
            parts = parts_of(body, items)[:number]
            lines.append('%s %d %s %s' % (thread, sum(len(part.items) for part in parts), variable, kind))
        return lines

    def met(self, draft, status, written):
        if status != 0:
            return False
        record, _ = read_record(decoded(written))
        text = written + '\n'.join(['accesses 1'] + self.lines(draft, record) + ['done', '']).encode('ascii')
        _, said = answer(self.program, ['races'], text)
        return any(line.split()[:2] == ['race', self.variable] for line in decoded(said).split('\n'))

    def keeps(self, _statuses):
        return True

    def notes(self, draft, written):
        """The accesses at their points of the record."""
        return self.lines(draft, read_record(decoded(written))[0])


def call_of(draft, thread, number):
    """A call of a draft by its thread and number."""
    if thread not in draft.bodies:
        raise Trouble('%s is no thread with a body' % thread)
    if number >= len(draft.bodies[thread]):
        raise Trouble('%s has no call %d' % (thread, number))
    return draft.bodies[thread][number]
