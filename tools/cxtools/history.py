"""Histories of a record's objects: their changes by position, and the state after each."""
from .machines import opening, takes_step


class History:
    """The changes of one object. `states` holds the state in words before the first change and after each, as far as
    the positions have no gap and the machine allows the changes."""

    def __init__(self, thing):
        self.thing = thing
        self.changes = []
        self.looks = 0
        self.states = []
        self.steps = 0

    def after(self, count):
        """The state in words after so many changes, or none where it isn't known."""
        return self.states[count] if count < len(self.states) else None

    @property
    def last(self):
        """The state in words at the end, or none."""
        return self.after(len(self.changes))


def tell_states(history, threads):
    """Makes the changes one after the other, as far as they can be made."""
    state = opening(history.thing)
    history.states.append(str(state))
    changes = history.changes
    for position, item in enumerate(changes):
        twice = position + 1 < len(changes) and changes[position + 1].at == position
        if item.at != position or twice or not takes_step(state, threads[item.thread], item.act):
            return
        history.states.append(str(state))


def histories(record):
    """The history of each object by its name."""
    told = {thing.name: History(thing) for thing in record.scenario.objects}
    for item in record.items():
        if item.mark == '+':
            told[item.object].changes.append(item)
        elif item.mark == '?':
            told[item.object].looks += 1
    for history in told.values():
        history.changes.sort(key=lambda item: (item.at, item.key))
        tell_states(history, record.scenario.threads)
    return told
