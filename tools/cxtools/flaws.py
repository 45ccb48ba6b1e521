"""What a verdict means, in words: the flaw of a record, or the cycle of its order."""
from .calls import parts_of
from .history import histories
from .text import Trouble, counted

MEANINGS = {
    'text': 'the list is not what the text of its thread allows',
    'gap': 'the changes of an object do not have the positions 0, 1, 2 and so on, each once',
    'step': 'the machine of the object does not allow this change in the state before it',
    'shown': 'the look is not true of the state after as many changes as its stamp says',
    'fell': 'the thread goes back behind what it has seen itself',
    'order': 'the thread goes back behind what it owes to a start or a join',
}


class Flaw:
    """A flaw: its item, or none where it lies behind the end of a list; and sentences that say what is wrong."""

    def __init__(self, record, verdict):
        self.record = record
        self.verdict = verdict
        self.thread = record.scenario.threads.index(verdict.thread)
        items = record.lists[self.thread] or []
        self.item = items[verdict.item] if verdict.item < len(items) else None
        if self.item is None and verdict.cause != 'text':
            raise Trouble('%s has no item %d' % (verdict.thread, verdict.item))
        if verdict.cause in ('gap', 'step') and self.item.mark != '+':
            raise Trouble('item %d of %s is no change' % (verdict.item, verdict.thread))
        if verdict.cause == 'shown' and self.item.mark != '?':
            raise Trouble('item %d of %s is no look' % (verdict.item, verdict.thread))
        if verdict.cause in ('fell', 'order') and self.item.object is None:
            raise Trouble('item %d of %s is no change and no look' % (verdict.item, verdict.thread))

    def name(self, item):
        return 'item %d of %s, "%s"' % (item.number, self.record.scenario.threads[item.thread], item)

    def sentences(self):
        """What is wrong: the kind of flaw first, then this one."""
        return [MEANINGS[self.verdict.cause]] + getattr(self, 'say_' + self.verdict.cause)()

    def call(self):
        """The call that the flaw's item belongs to, in words."""
        items = (self.record.lists[self.thread] or [])[:self.verdict.item]
        part = parts_of(self.record.scenario.bodies[self.verdict.thread], items)[-1]
        return part, 'call %d, "%s"' % (part.number, part.call) if part.call else 'the end of the body'

    def is_started(self):
        """Whether main's list starts or launches the thread; main itself is started."""
        return self.thread == 0 or any(
            item.mark == '*' and item.words[0] in ('start', 'launch') and item.words[1:] == [self.verdict.thread, 'ok']
            for item in self.record.lists[0] or [])

    def say_text(self):
        if self.record.lists[self.thread] is None:
            return ['%s was started or launched, and has no list' % self.verdict.thread]
        if not self.is_started():
            return ['%s was not started or launched, and has a list' % self.verdict.thread]
        part, where = self.call()
        made = ', '.join('"%s"' % item for item in part.items)
        so_far = 'there the list stands in %s%s' % (where, ', after %s' % made if made else '')
        if self.item is None:
            return [so_far, 'the list ends here, and something has to follow']
        return [so_far, '%s can not follow' % self.name(self.item)]

    def say_gap(self):
        changes = histories(self.record)[self.item.object].changes
        positions = [item.at for item in changes]
        first = next((number for number, at in enumerate(positions) if at != number), None)
        if first and positions[first] == positions[first - 1]:
            others = [item for item in changes if item.at == self.item.at and item is not self.item]
            return ['position %d of %s is held twice: by %s and by %s'
                    % (self.item.at, self.item.object, self.name(others[0]), self.name(self.item))]
        return ['%s has no change with position %d, and %s has a greater one'
                % (self.item.object, first or 0, self.name(self.item))]

    def say_step(self):
        state = histories(self.record)[self.item.object].after(self.item.at)
        return ['after %s %s is: %s' % (counted(self.item.at, 'change'), self.item.object, state or 'not known'),
                'there "%s" by %s is not allowed' % (' '.join(self.item.act), self.verdict.thread)]

    def say_shown(self):
        history = histories(self.record)[self.item.object]
        if self.item.at > len(history.changes):
            return ['%s has %s in all, so there is no stamp %d'
                    % (self.item.object, counted(len(history.changes), 'change'), self.item.at)]
        state = history.after(self.item.at)
        return ['after %s %s is: %s' % (counted(self.item.at, 'change'), self.item.object, state or 'not known'),
                'there "%s" by %s is not true' % (' '.join(self.item.act), self.verdict.thread)]

    def say_fell(self):
        seen = next(item for item in reversed(self.record.lists[self.thread][:self.item.number])
                    if item.object == self.item.object)
        return ['by %s the thread has seen %s of %s' % (self.name(seen), counted(place_after(seen), 'change'),
                                                        self.item.object),
                'so %s comes too late' % self.name(self.item)]

    def say_order(self):
        owed, by = owed_at(self.record, self.item)
        return ['by %s the thread knows %s of %s' % (self.name(by), counted(owed, 'change'), self.item.object)
                if by else 'what the thread knows is not found',
                'so %s comes too late' % self.name(self.item)]


def place_after(item):
    """How many changes of its object a thread has seen with an act of its own."""
    return item.at + 1 if item.mark == '+' else item.at


def known_in(record, thread, end, name):
    """What a thread knows of an object before an item of its list: so many changes, and the control item that says so
    where it isn't from the thread's own acts."""
    known, by = 0, None
    if thread:
        start = next((item for item in record.lists[0] or [] if item.mark == '*' and item.words[0] != 'join'
                      and item.words[1] == record.scenario.threads[thread]), None)
        if start:
            known, by = known_in(record, 0, start.number, name)[0], start
    for item in (record.lists[thread] or [])[:end]:
        then = 0
        if item.object == name:
            then = place_after(item)
        elif item.mark == '*' and item.words[0] == 'join' and thread == 0:
            then = known_in_ended(record, item, name)
        if then > known:
            known, by = then, item if item.mark == '*' else None
    return known, by


def known_in_ended(record, join, name):
    """What a joined thread knew of an object at its end."""
    other = record.scenario.threads.index(join.words[1])
    acts = [place_after(item) for item in record.lists[other] or [] if item.object == name]
    started = next((item for item in record.lists[0] if item.mark == '*' and item.words[0] != 'join'
                    and item.words[1] == join.words[1] and item.number < join.number), None)
    owed = known_in(record, 0, started.number, name)[0] if started else 0
    return max(acts + [owed])


def owed_at(record, item):
    """What a thread knows of an item's object right before it, and the start or join that says so."""
    return known_in(record, item.thread, item.number, item.object)


def cycle_sentences(record, cycle):
    """A cycle in words: what stands above what in a list, and why the one comes before the other elsewhere."""
    threads, said = record.scenario.threads, []
    turns = [place for place, item in enumerate(cycle) if item.thread != cycle[place - 1].thread
             or item.number < cycle[place - 1].number]
    cycle = cycle[turns[0]:] + cycle[:turns[0]] if turns else cycle
    first = cycle[0]
    for low, high in zip(cycle, cycle[1:] + cycle[:1]):
        if low.thread == high.thread and low.number < high.number:
            continue
        if first is not low:
            said.append('%s: "%s" (item %d) stands above "%s" (item %d)' % (
                threads[low.thread], first, first.number, low, low.number))
        why = 'on %s it' % low.object if low.object and low.object == high.object else 'it'
        said.append('%s comes before "%s" of %s (item %d)' % (why, high, threads[high.thread], high.number))
        first = high
    return said
