"""What a fault of a text means, in words: its kind, its line, and what the line may have been meant for."""
import difflib

from .forms import forms_like, shown
from .scenario import DECLARATIONS, Thing
from .text import Trouble, counted, decoded

KINDS = {
    'NotAscii': 'a byte that is no tab, no line feed and not from 32 to 126; a carriage return is allowed only right '
                'before a line feed',
    'TooLong': 'the line has more than 120 bytes, or the text passes its limit on this line',
    'BadVersion': 'a scenario begins with cxthread 1, and a record with record 1',
    'BadWord': 'the line has none of the forms that may stand in its place',
    'TooMany': 'one more than a limit allows, of threads, objects, callbacks or calls',
    'UnknownName': 'a name that no line before it declares',
    'WrongKind': 'a name of another kind than the form needs, or a call by a thread that may not make it',
    'OutOfRange': 'a number outside its range',
    'Twice': 'a name that is declared, started, launched or registered a second time, or repeated where different '
             'ones are asked',
    'LatchOver': 'the lines up to this one take more from a latch than its count',
    'BadOrder': 'a deregister with no register above it in its body, or the end of main where a started thread has no '
                'join that follows',
    'NoEnd': 'the text ends before its last line',
}


def declared(lines, before):
    """What the lines before one declare, by name; the first of each name."""
    things = {}
    for number, line in enumerate(lines[:before - 1], 1):
        words = line.split()
        if len(words) > 1 and words[0] in DECLARATIONS:
            things.setdefault(words[1], Thing(words, number))
    return things


def in_record(lines, before):
    """Whether a line stands behind the line `record`."""
    return any(line.split()[:1] == ['record'] for line in lines[:before])


class Fault:
    """A fault of a text: the line's number from 1, and its kind."""

    def __init__(self, data, line, kind):
        self.bytes = data.split(b'\n')
        self.lines = decoded(data).split('\n')
        if self.lines and not self.lines[-1]:
            self.lines.pop()
        if kind not in KINDS:
            raise Trouble('%s is no kind of fault' % kind)
        if not 1 <= line <= len(self.lines) + 1:
            raise Trouble('the text has %s, and no line %d' % (counted(len(self.lines), 'line'), line))
        self.line, self.kind = line, kind
        self.words = self.lines[line - 1].split() if line <= len(self.lines) else []
        self.things = declared(self.lines, line)

    def sentences(self, table):
        """What is to be said, a line each."""
        if self.line > len(self.lines):
            said = ['line %d: the text ends before it' % self.line]
        else:
            said = ['line %d: %s' % (self.line, self.lines[self.line - 1].strip())]
        said.append('%s: %s' % (self.kind, KINDS[self.kind]))
        said += getattr(self, 'say_' + self.kind, self.say_nothing)()
        if self.words and self.kind not in ('NotAscii', 'TooLong', 'BadVersion', 'NoEnd', 'BadOrder', 'LatchOver'):
            said += self.say_forms(table)
        return said

    def say_forms(self, table):
        word, forms = forms_like(table, self.words, self.things, in_record(self.lines, self.line - 1))
        if not forms:
            return ['no line begins with %s' % self.words[0]]
        head = 'forms that begin with %s:' % word
        if word != self.words[0]:
            head = 'no line begins with %s; forms that begin with %s:' % (self.words[0], word)
        return [head] + ['  %s' % shown(table, form) for form in forms]

    def names(self):
        """The words of the line that may be names."""
        return [word for word in self.words[1:] if word[0].isalpha()]

    def say_nothing(self):
        return []

    def say_NotAscii(self):
        line = self.bytes[self.line - 1] if self.line <= len(self.bytes) else b''
        place = next((place for place, byte in enumerate(line, 1) if byte != 9 and not 32 <= byte <= 126), None)
        return ['it is byte %d of the line' % place] if place else []

    def say_TooLong(self):
        line = self.lines[self.line - 1].rstrip('\r') if self.line <= len(self.lines) else ''
        return ['the line has %s' % counted(len(line), 'byte')]

    def say_UnknownName(self):
        said = []
        for name in self.names():
            near = difflib.get_close_matches(name, list(self.things) + ['main'], 1, 0.5)
            if near and near[0] in self.things and name not in self.things:
                thing = self.things[near[0]]
                said.append('%s is not declared; the nearest name is %s, of line %d: %s' % (
                    name, thing.name, thing.line, ' '.join(thing.words)))
        return said or ['names that are declared before: %s' % (' '.join(self.things) or 'none')]

    def say_WrongKind(self):
        return ['%s is declared on line %d: %s' % (name, self.things[name].line, ' '.join(self.things[name].words))
                for name in self.names() if name in self.things]

    def say_Twice(self):
        if self.words and self.words[0] in DECLARATIONS:
            return self.say_WrongKind()
        same = [number for number, line in enumerate(self.lines[:self.line - 1], 1) if line.split() == self.words]
        return ['the same stands on line %d' % same[0]] if same else []

    def say_LatchOver(self):
        thing = self.things.get(self.words[1]) if len(self.words) > 1 else None
        if not thing:
            return []
        takes = [line.split() for line in self.lines[:self.line] if line.split()[1:2] == [thing.name]]
        taken = sum(int(words[2]) if words[0] == 'count_down' else 1 for words in takes
                    if words[0] in ('count_down', 'arrive_and_wait'))
        return ['%s has the count %s, and the lines up to this one take %d' % (thing.name, thing.words[2], taken)]

    def say_BadOrder(self):
        if self.words != ['end']:
            return []
        started = [line.split()[1] for line in self.lines[:self.line - 1] if line.split()[:1] == ['start']]
        return ['started, and not joined afterwards: %s' % ' '.join(
            name for name in started if ['join', name] not in [line.split() for line in self.lines[:self.line - 1]]
            and self.things.get(name) and self.things[name].word == 'thread')]
