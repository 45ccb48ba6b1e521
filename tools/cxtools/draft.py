"""A scenario from which calls, threads and objects can be left out."""
from .scenario import THREADS, read_scenario
from .text import Trouble, kept_lines


class Draft:
    """Declarations and bodies. A draft isn't changed; leaving something out makes another, with the same calls."""

    def __init__(self, declarations, bodies):
        self.declarations = declarations
        self.bodies = bodies

    @property
    def calls(self):
        return [call for body in self.bodies.values() for call in body]

    @property
    def threads(self):
        """The names of the threads besides main, and of the rest that is declared."""
        return [words[1] for words in self.declarations if words[0] in THREADS]

    @property
    def others(self):
        return [words[1] for words in self.declarations if words[0] not in THREADS]

    def text(self):
        """The scenario's canonical text."""
        lines = ['cxthread 1'] + [' '.join(words) for words in self.declarations]
        for name in self.threads:
            if name in self.bodies:
                lines += ['body %s' % name] + [str(call) for call in self.bodies[name]] + ['end']
        lines += ['main'] + [str(call) for call in self.bodies['main']] + ['end', '']
        return '\n'.join(lines)

    def without_calls(self, calls):
        """The draft without some calls."""
        gone = set(map(id, calls))
        return Draft(self.declarations, {
            name: [call for call in body if id(call) not in gone] for name, body in self.bodies.items()})

    def without_name(self, name):
        """The draft without what a name stands for, and without whatever needs it."""
        declarations, bodies, gone = [], dict(self.bodies), {name}
        for words in self.declarations:
            words = without_mention(words, gone) if words[1] not in gone else None
            if words is None or gone & set(words[2:]):
                gone.add((words or [None, name])[1])
            else:
                declarations.append(words)
        for thread in gone & set(bodies):
            del bodies[thread]
        return Draft(declarations, {
            thread: [call for call in body if not gone & set(call.words[1:])] for thread, body in bodies.items()})


def without_mention(words, gone):
    """A declaration that can do without some names: holders of a stop, further readers, a barrier's completion."""
    if words[0] == 'stop':
        return words[:2] + [word for word in words[2:] if word not in gone]
    if words[0] == 'shared_promise':
        readers = [word for word in words[3:] if word not in gone]
        return words[:3] + (readers or words[3:])
    if words[0] == 'barrier' and gone & set(words[3:]):
        return words[:3]
    return words


def read_draft(text):
    """The draft of a scenario's text."""
    lines = kept_lines(text)
    scenario, at = read_scenario(lines)
    if at < len(lines):
        raise Trouble('line %d: a scenario ends with the body of main' % lines[at][0])
    bodies = {name: body for name, body in scenario.bodies.items()
              if name == 'main' or scenario.things[name].word != 'async'}
    return Draft([thing.words for thing in scenario.things.values()], bodies)
