"""Which call of a body each item of a list belongs to, and what the threads of a stuck record wait for."""


class Part:
    """The items of a list that belong to one call; `call` is none behind the last call of the body."""

    def __init__(self, number, call):
        self.number = number
        self.call = call
        self.items = []

    @property
    def acts(self):
        return [item for item in self.items if item.mark != '=']


def parts_of(body, items):
    """The items of a list, call by call: a reply ends each. The last part is the call that the list breaks off in, or
    the end of the body, and may be empty."""
    parts = [Part(0, body[0] if body else None)]
    for item in items:
        parts[-1].items.append(item)
        if item.mark == '=':
            number = len(parts)
            parts.append(Part(number, body[number] if number < len(body) else None))
    return parts


class Wait:
    """What a thread waits for: the act it would make next, on an object or, for a join, of a thread."""

    def __init__(self, thread, part, act, on):
        self.thread = thread
        self.part = part
        self.act = act
        self.on = on


def last_on(acts, names):
    """The last act on one of some objects, as the pair of the object and the act's first word."""
    for item in reversed(acts):
        if item.object in names:
            return item.object, item.act[0]
    return None, None


def in_condition_wait(words, acts):
    """The act that a wait on a condition makes next, of those for which it may have to wait."""
    condition, mutex = words[1], words[2]
    last = [item for item in acts if item.object in (condition, mutex) and item.act[0] != 'get']
    if last and last[-1].act[0] in ('unblock', 'withdraw'):
        return 'lock', mutex
    if words[0] == 'wait_stop' and not (last and last[-1].act[0] == 'unlock'):
        return 'deregister', words[3]
    return 'unblock', condition


def in_lock_all(words, acts):
    """The mutex that a call of `lock_all` waits for: the first, or the one that it couldn't have."""
    for item in reversed(acts):
        if item.act == ['try_lock', 'false']:
            return 'lock', item.object
    return 'lock', words[1]


def in_call(scenario, words, acts):
    """The act for which a call waits, and what it is on."""
    word = words[0]
    on = words[1]
    if word in ('wait_pred', 'wait_stop') or (word == 'wait' and len(words) == 3):
        return in_condition_wait(words, acts)
    if word == 'lock_all':
        return in_lock_all(words, acts)
    if word == 'call_once':
        return 'begin', on
    if word == 'deregister' and on in scenario.things:
        return 'deregister', scenario.things[on].words[2]
    thing = scenario.object(on)
    if thing and thing.kind == 'future':
        return 'ready', on
    return ('wait', on) if word == 'arrive_and_wait' else (word, on)


def at_the_end(scenario, acts):
    """The act for which the end of main's body waits: the join of a jthread whose stop it requested."""
    name, _ = last_on(acts, [thing.name for thing in scenario.objects if thing.word == 'jthread'])
    return 'join', name


def waits_of(record):
    """What each thread of a stuck record waits for, in the order of the record's last lines."""
    waits = []
    for name in record.stuck:
        number = record.scenario.threads.index(name)
        part = parts_of(record.scenario.bodies[name], record.lists[number] or [])[-1]
        if part.call:
            act, on = in_call(record.scenario, part.call.words, part.acts)
        else:
            act, on = at_the_end(record.scenario, part.acts)
        waits.append(Wait(name, part, act, on))
    return waits


def reason(wait, told):
    """Why a thread waits, in words; `told` are the histories of the record's objects."""
    if wait.act == 'join':
        return 'join %s (it has not ended)' % wait.on
    state = told[wait.on].last if wait.on in told else None
    return '%s %s (%s)' % (wait.act, wait.on, state or 'its state is not known')
