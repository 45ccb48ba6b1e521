"""Scenarios, as docs/language.md has them. A tool reads what the program has accepted, and asks no more than it needs."""
import re

from .machines import opening
from .text import Trouble

# The kind of machine of the object that a declaration makes.
KINDS = {
    'jthread': 'stop', 'async': 'future', 'mutex': 'mutex', 'recursive': 'mutex', 'shared': 'shared',
    'semaphore': 'semaphore', 'latch': 'latch', 'barrier': 'barrier', 'once': 'once', 'condition': 'condition',
    'stop': 'stop', 'promise': 'future', 'shared_promise': 'future', 'task': 'future',
}
NAME = re.compile('[a-z][a-z0-9_]{0,15}$')
THREADS = ('thread', 'jthread', 'async')
DECLARATIONS = frozenset(KINDS) | {'thread', 'callback'}


class Thing:
    """What a line declares."""

    def __init__(self, words, line):
        self.words = words
        self.line = line
        self.word = words[0]
        self.name = words[1]
        self.kind = KINDS.get(words[0])


class Call:
    """A call of a body: its words and the number of its line."""

    def __init__(self, words, line):
        self.words = words
        self.line = line

    def __str__(self):
        return ' '.join(self.words)


class Scenario:
    """Threads in order of their numbers with their bodies, objects in order of theirs, and what each name stands for."""

    def __init__(self):
        self.threads = ['main']
        self.objects = []
        self.things = {}
        self.bodies = {'main': []}

    def declare(self, thing):
        if not NAME.match(thing.name):
            raise Trouble('line %d: %s is no name' % (thing.line, thing.name))
        if thing.name in self.things or thing.name == 'main':
            raise Trouble('line %d: %s is declared twice' % (thing.line, thing.name))
        if thing.kind:
            try:
                opening(thing)
            except (IndexError, ValueError):
                raise Trouble('line %d: %s has not the words of a declaration' % (thing.line, thing.name))
        self.things[thing.name] = thing
        if thing.word in THREADS:
            self.threads.append(thing.name)
            self.bodies[thing.name] = []
        if thing.kind:
            self.objects.append(thing)

    def object(self, name):
        """The object of this name, or none."""
        thing = self.things.get(name)
        return thing if thing and thing.kind else None


def read_body(scenario, lines, at, name):
    """Reads the calls of a body up to its end; the place after it."""
    if name not in scenario.bodies:
        raise Trouble('line %d: %s is no thread' % (lines[at][0], name))
    calls = scenario.bodies[name]
    at += 1
    while at < len(lines) and lines[at][1] != ['end']:
        calls.append(Call(lines[at][1], lines[at][0]))
        at += 1
    if at == len(lines):
        raise Trouble('the text ends within the body of %s' % name)
    return at + 1


def read_scenario(lines):
    """The scenario that lines begin with, and how many of them it takes."""
    if not lines or lines[0][1][0] != 'cxthread':
        where = 'line %d' % lines[0][0] if lines else 'the text is empty'
        raise Trouble('%s: a scenario begins with the line cxthread 1' % where)
    scenario = Scenario()
    at = 1
    while at < len(lines):
        number, words = lines[at]
        if words[0] in DECLARATIONS and len(words) > 1:
            scenario.declare(Thing(words, number))
            at += 1
        elif words[0] == 'body' and len(words) == 2:
            at = read_body(scenario, lines, at, words[1])
        elif words == ['main']:
            return scenario, read_body(scenario, lines, at, 'main')
        else:
            raise Trouble('line %d: %s is no declaration and no body' % (number, ' '.join(words)))
    raise Trouble('the text has no body of main')
