"""Tests of tools/picture: on the page's own data, each item stands there once and the rows keep every given order."""
import os
import unittest
from html.parser import HTMLParser

from cxtools.page import Page as Written
from cxtools.record import read_record
from cxtools.text import Trouble
from support import TOP, one_line, program, read, scenarios, tool

# Two threads, each of which releases a semaphore after it has acquired the one that the other releases.
CIRCLE = '''cxthread 1
thread a
thread b
semaphore p 0 1
semaphore q 0 1
body a
acquire p
release q 1
end
body b
acquire q
release p 1
end
main
start a
start b
join a
join b
end
record 1
acts main
* start a ok
= ok
* start b ok
= ok
* join a
= ok
* join b
= ok
end
acts a
+ p 1 acquire
= ok
+ q 0 release 1
= ok
end
acts b
+ q 1 acquire
= ok
+ p 0 release 1
= ok
end
done
'''


class Page(HTMLParser):
    """The data of a page: of each item its line and its place, which is its row and how many items stand before it."""

    def __init__(self, text):
        super().__init__()
        self.items, self.boxes, self.marked, self.states, self.paths = {}, [], [], {}, []
        self.row, self.name, self.box, self.cell = -1, None, False, ''
        self.last = None
        self.twice = []
        self.feed(text)

    def handle_starttag(self, tag, attrs):
        attrs = dict(attrs)
        words = (attrs.get('class') or '').split()
        if tag == 'tr':
            self.row += 1
        elif tag == 'td':
            self.cell, self.last = words, None
        elif tag == 'span' and 'item' in words:
            self.name = attrs['id']
            self.last = self.last or self.name
            self.twice += [self.name] if self.name in self.items else []
            self.items[self.name] = ['', (self.row, len(self.items))]
            self.marked += [self.name] if 'flaw' in self.cell or 'oncycle' in self.cell else []
        elif tag == 'div' and words[:1] in (['verdict'], ['state'], ['mark']):
            self.box = words[0]
        elif tag == 'path':
            self.paths.append(words)

    def handle_endtag(self, tag):
        self.name = None if tag == 'span' else self.name
        self.box = None if tag == 'div' else self.box

    def handle_data(self, data):
        if self.name:
            self.items[self.name][0] += data
        elif self.box == 'state':
            self.states[self.last] = data
        elif self.box:
            self.boxes.append(data)


def lists_of(text):
    """The lists of a record by their threads, read anew and simply."""
    lists, name = {}, None
    for line in text[text.index('record 1\n'):].split('\n'):
        if line.startswith('acts '):
            name = line[5:]
            lists[name] = []
        elif line == 'end':
            name = None
        elif name:
            lists[name].append(line)
    return lists


def pairs(lists):
    """Each pair of items of which the first comes before the second, as the record says it."""
    for name, items in lists.items():
        for number in range(1, len(items)):
            yield (name, number - 1), (name, number)
    for number, line in enumerate(lists['main']):
        words = line.split()
        if words[:2] == ['*', 'join'] and lists.get(words[2]):
            yield (words[2], len(lists[words[2]]) - 1), ('main', number)
        elif words[0] == '*' and words[-1] == 'ok' and lists.get(words[2]):
            yield ('main', number), (words[2], 0)
    acts = {}
    for name, items in lists.items():
        for number, line in enumerate(items):
            if line[0] in '+?':
                mark, thing, at = line.split()[:3]
                acts.setdefault(thing, []).append((mark, int(at), (name, number)))
    for told in acts.values():
        for mark, at, item in told:
            for other_mark, other_at, other in told:
                if other_mark == '+' and (other_at > at if mark == '+' else other_at >= at):
                    yield item, other
                elif other_mark == '?' and mark == '+' and other_at > at:
                    yield item, other


def against(text):
    """What is wrong with the page of a record: missing or changed items, and pairs that stand the other way."""
    page, lists = Page(Written(*read_record(text)).html('A record')), lists_of(text)
    wanted = {'i-%s-%d' % (name, number): line for name, items in lists.items() for number, line in enumerate(items)}
    wrong = page.twice + [name for name in wanted if page.items.get(name, [None])[0] != wanted[name]]
    wrong += [name for name in page.items if name not in wanted]
    for low, high in pairs(lists):
        first, second = page.items['i-%s-%d' % low][1], page.items['i-%s-%d' % high][1]
        beside = first[0] == second[0] and low[0] == high[0] and lists[high[0]][high[1]][0] == '='
        if not (first[0] < second[0] or (beside and first[1] < second[1])):
            wrong.append('%s before %s' % (low, high))
    return wrong


class Drawn(unittest.TestCase):

    def test_each_item_once_and_in_order(self):
        """300 records: each example replayed without a seed and with fourteen seeds."""
        seen = 0
        for name in scenarios():
            for words in [['replay']] + [['replay', str(seed)] for seed in range(14)]:
                _, text = program(words, read('examples/%s.cx' % name))
                self.assertEqual(against(text), [], '%s %s' % (words, name))
                seen += 1
        self.assertGreaterEqual(seen, 300)

    def test_states(self):
        """A semaphore of two units from which two threads take one each, and a mutex that both lock: by hand."""
        written = tool('picture', text=read('examples/handoff.replay'))[1]
        page = Page(written)
        self.assertEqual(page.states, {
            'i-main-4': 'counter 2 of 2', 'i-a-0': 'counter 1 of 2', 'i-b-0': 'counter 0 of 2', 'i-a-2': 'owner a',
            'i-a-4': 'free', 'i-b-2': 'owner b', 'i-b-4': 'free'})
        self.assertEqual(sorted(words[-1] for words in page.paths if 'ln' in words), ['k0', 'k0', 'k1', 'k1', 'k1'])
        self.assertNotIn('<script', written)
        self.assertNotIn('http', written)

    def test_stuck(self):
        page = Page(tool('picture', text=read('examples/deadlock.replay'))[1])
        for line in ('a waits: lock n (owner b)', 'b waits: lock m (owner a)', 'main waits: join a (it has not ended)'):
            self.assertIn(line, page.boxes)
        page = Page(tool('picture', text=read('examples/lost_wake.replay'))[1])
        self.assertIn('waiter waits: unblock ready (waiting waiter)', page.boxes)

    def test_flaws(self):
        wanted = {
            'text': ('i-a-1', 'item 1 of a, "= true" can not follow'),
            'gap': ('i-b-4', 'm has no change with position 3, and item 4 of b, "+ m 4 unlock" has a greater one'),
            'step': ('i-a-4', 'there "unlock" by a is not allowed'),
            'shown': ('i-main-0', 'q has 1 change in all, so there is no stamp 2'),
            'fell': ('i-main-2', 'so item 2 of main, "+ q 0 release 2" comes too late'),
            'order': ('i-a-0', 'by item 2 of main, "* start a ok" the thread knows 2 changes of q')}
        for cause, (item, sentence) in wanted.items():
            words = ['examples/forged/%s.record' % cause, 'examples/forged/%s.verdict' % cause]
            status, written, _ = tool('picture', ['%s/%s' % (TOP, word) for word in words])
            page = Page(written)
            self.assertEqual(status, 0)
            self.assertIn(item, page.marked)
            self.assertIn(sentence, page.boxes)
            self.assertIn('the first flaw: %s' % cause, page.boxes)

    def test_cycle(self):
        """A legal record that no run could make: its order has a cycle of four changes."""
        page = Page(tool('picture', text=CIRCLE)[1])
        self.assertEqual(sorted(page.marked), [
            'i-a-0', 'i-a-1', 'i-a-2', 'i-a-3', 'i-b-0', 'i-b-1', 'i-b-2', 'i-b-3'])
        self.assertEqual([words for words in page.paths if 'back' in words], [['ln', 'k0', 'back']])
        self.assertIn('on p it comes before "+ p 1 acquire" of a (item 0)', page.boxes)
        self.assertEqual(len(page.items), 16)

    def test_ten_thousand_items(self):
        """Four threads that lock and unlock a mutex in turn, 625 times each: in under 5 seconds of the processor."""
        names = ['a', 'b', 'c', 'd']
        calls = 'lock m\nunlock m\n' * 625
        head = ''.join('thread %s\n' % name for name in names) + 'mutex m 0\n'
        text = 'cxthread 1\n' + head + ''.join('body %s\n%send\n' % (name, calls) for name in names)
        text += 'main\n' + ''.join('start %s\n' % name for name in names) + ''.join('join %s\n' % name for name in names)
        text += 'end\nrecord 1\nacts main\n' + ''.join('* start %s ok\n= ok\n' % name for name in names)
        text += ''.join('* join %s\n= ok\n' % name for name in names) + 'end\n'
        for place, name in enumerate(names):
            text += 'acts %s\n' % name
            for turn in range(625):
                position = 8 * turn + 2 * place
                text += '+ m %d lock\n= ok\n+ m %d unlock\n= ok\n' % (position, position + 1)
            text += 'end\n'
        begin = os.times().children_user
        status, written, _ = tool('picture', text=text + 'done\n')
        self.assertLess(os.times().children_user - begin, 5)
        page = Page(written)
        self.assertEqual((status, len(page.items), page.twice), (0, 10016, []))


class Refused(unittest.TestCase):

    def test_wrong_use(self):
        one_line(self, tool('picture', ['--what']), 'picture: usage: ')
        one_line(self, tool('picture', ['no/such/file']), 'picture: no/such/file: ')

    def test_no_record(self):
        for text in ('', '\n', 'fault 2 BadWord\n', 'cxthread 1\nmain\nend\n', '\xff\xfe', 'record 1\ndone\n',
                     'cxthread 1\nmain\n', 'cxthread 1\nmutex\n', 'cxthread 1\nmain\nend\nrecord 1\nacts main\n',
                     'cxthread 1\nmain\nend\nrecord 1\nacts main\n+ m 0 lock\nend\ndone\n',
                     'cxthread 1\nmain\nend\nrecord 1\nacts main\nend\ndone\nbla\n',
                     'cxthread 1\nmain\nend\nrecord 1\nacts main\nend\ndone\nillegal main 3 step\n',
                     'cxthread 1\nmutex m\nmain\nend\nrecord 1\nacts main\n+ m 0 lock\nend\ndone\n',
                     'cxthread 1\nlatch l x\nmain\nend\nrecord 1\nacts main\nend\ndone\n'):
            one_line(self, tool('picture', text=text), 'picture: ')

    def test_damaged_records(self):
        """Each example's record with a line left out, and with two changed places: a page, or the one line of trouble."""
        drawn = 0
        for name in scenarios():
            lines = read('examples/%s.replay' % name).split('\n')[:-1]
            for at in range(len(lines)):
                for other in (lines[:at] + lines[at + 1:], lines[:at] + lines[at:at + 2][::-1] + lines[at + 2:]):
                    try:
                        Written(*read_record('\n'.join(other))).html('A record')
                        drawn += 1
                    except Trouble:
                        pass
        self.assertGreater(drawn, 500)


if __name__ == '__main__':
    unittest.main()
