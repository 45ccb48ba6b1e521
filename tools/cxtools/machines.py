"""The machine of each kind of object, by docs/machines.md."""
from .locks import Barrier, Latch, Mutex, Semaphore, Shared
from .signals import Condition, Future, Once, Stop

MACHINES = {
    'mutex': Mutex, 'shared': Shared, 'semaphore': Semaphore, 'latch': Latch, 'barrier': Barrier, 'once': Once,
    'condition': Condition, 'stop': Stop, 'future': Future,
}


def opening(thing):
    """The opening state of an object, by its declaration."""
    return MACHINES[thing.kind](thing.words)


def takes_step(state, by, act):
    """Makes a change where the machine allows it, and says whether it did; an act without the numbers it needs isn't."""
    try:
        return state.step(by, act)
    except (ValueError, IndexError):
        return False
