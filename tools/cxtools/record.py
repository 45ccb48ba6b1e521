"""Records with their scenarios, as docs/record.md has them, and the verdict line of `check` where it stands behind one."""
from .scenario import read_scenario
from .text import Trouble, kept_lines

CAUSES = ('text', 'gap', 'step', 'shown', 'fell', 'order')


class Item:
    """An item of a thread's list: a change `+`, a look `?`, a control `*` or a reply `=`."""

    __slots__ = ('thread', 'number', 'mark', 'words', 'line', 'object', 'at', 'act')

    def __init__(self, thread, number, words, line):
        self.thread = thread
        self.number = number
        self.mark = words[0]
        self.words = words[1:]
        self.line = line
        acts = self.mark in '+?'
        self.object = words[1] if acts else None
        self.at = int(words[2]) if acts else None
        self.act = words[3:] if acts else words[1:]

    def __str__(self):
        return ' '.join([self.mark] + self.words)

    @property
    def key(self):
        """The thread's number and the item's, which tell it from all others."""
        return self.thread, self.number


class Verdict:
    """What `check` wrote: `legal`, `illegal THREAD ITEM CAUSE`, or of a race report `cycle THREAD POINT`."""

    def __init__(self, words):
        self.words = words
        self.word = words[0]
        self.thread = words[1] if len(words) > 1 else None
        self.item = int(words[2]) if len(words) > 2 else None
        self.cause = words[3] if len(words) > 3 else None


class Record:
    """A list for each thread, in order of their numbers, or none where it wasn't started; and who is stuck."""

    def __init__(self, scenario):
        self.scenario = scenario
        self.lists = []
        self.stuck = []

    def items(self):
        """All items, thread by thread."""
        return [item for items in self.lists for item in items or ()]


def read_item(scenario, thread, number, words, line):
    """An item of a list, where its line has the form of one."""
    mark = words[0]
    if mark in ('+', '?'):
        if len(words) < 4 or not words[2].isdigit():
            raise Trouble('line %d: a change or a look has an object, a number and an act' % line)
        if not scenario.object(words[1]):
            raise Trouble('line %d: %s is no object of the scenario' % (line, words[1]))
    elif mark == '*':
        if len(words) < 3 or words[1] not in ('start', 'join', 'launch') or words[2] not in scenario.threads:
            raise Trouble('line %d: a control is start, join or launch of a thread' % line)
    elif mark != '=' or len(words) < 2:
        raise Trouble('line %d: an item begins with +, ?, * or =' % line)
    return Item(thread, number, words, line)


def read_list(record, lines, at):
    """Reads the list of the next thread; the place after it."""
    thread = len(record.lists)
    name = record.scenario.threads[thread]
    number, words = lines[at]
    if words == ['unstarted', name]:
        record.lists.append(None)
        return at + 1
    if words != ['acts', name]:
        raise Trouble('line %d: here stands acts %s, or unstarted %s' % (number, name, name))
    items = []
    at += 1
    while at < len(lines) and lines[at][1] != ['end']:
        items.append(read_item(record.scenario, thread, len(items), lines[at][1], lines[at][0]))
        at += 1
    if at == len(lines):
        raise Trouble('the text ends within the list of %s' % name)
    record.lists.append(items)
    return at + 1


def read_verdict(scenario, words, line):
    """The verdict that a line gives."""
    known = words == ['legal']
    known |= words[0] == 'illegal' and len(words) == 4 and words[3] in CAUSES
    known |= words[0] == 'cycle' and len(words) == 3
    if known and len(words) > 2:
        known = words[1] in scenario.threads and words[2].isdigit()
    if not known:
        raise Trouble('line %d: %s is no verdict on this record' % (line, ' '.join(words)))
    return Verdict(words)


def read_record(text):
    """The record that a text has behind its scenario, and the verdict behind that, or none."""
    lines = kept_lines(text)
    if lines and lines[0][1][0] == 'fault':
        raise Trouble('the text is the line %s: it has no record' % ' '.join(lines[0][1]))
    scenario, at = read_scenario(lines)
    if at == len(lines) or lines[at][1][0] != 'record':
        raise Trouble('the text has no record behind its scenario')
    record = Record(scenario)
    at += 1
    while len(record.lists) < len(scenario.threads):
        if at == len(lines):
            raise Trouble('the text ends before the list of %s' % scenario.threads[len(record.lists)])
        at = read_list(record, lines, at)
    while at < len(lines) and lines[at][1][0] == 'stuck' and lines[at][1][-1] in scenario.threads:
        record.stuck.append(lines[at][1][-1])
        at += 1
    if not record.stuck:
        if at == len(lines) or lines[at][1] != ['done']:
            raise Trouble('the record has no last line done')
        at += 1
    verdict = None
    if at < len(lines):
        verdict = read_verdict(scenario, lines[at][1], lines[at][0])
    return record, verdict
