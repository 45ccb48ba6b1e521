"""Tests of tools/explain: a text for each kind of fault and a record for each cause, with what has to be said."""
import unittest

from cxtools.faults import KINDS, Fault
from cxtools.rows import act_row
from cxtools.scenario import KINDS as MACHINES
from cxtools.table import Table, literal, sort_of
from cxtools.text import Trouble
from support import TOP, one_line, program, read, tool

# Of each kind: a text, the line that the program gives for it, and what is said behind the line and the kind.
FAULTS = [
    ('cxthread 1\n# gr\xfc\xdfe\nmain\nend\n', 'fault 2 NotAscii', ['it is byte 5 of the line']),
    ('cxthread 1\n#%s\nmain\nend\n' % ('.' * 120), 'fault 2 TooLong', ['the line has 121 bytes']),
    ('main\nend\n', 'fault 1 BadVersion', []),
    ('cxthread 1\nmutex m\nmain\nend\n', 'fault 2 BadWord', [
        'forms that begin with mutex:', '  mutex <new name> <0 to 8>']),
    ('cxthread 1\nmutx m 0\nmain\nend\n', 'fault 2 BadWord', [
        'no line begins with mutx; forms that begin with mutex:', '  mutex <new name> <0 to 8>']),
    ('cxthread 1\nmutex m 1\ncondition c\nmain\nwait_pred c m 0 == 1\nend\n', 'fault 5 BadWord', [
        'forms that begin with wait_pred:',
        '  wait_pred <condition> <mutex> <number of the mutex, from 0> << | <= | = | != | >= | >> <64-bit number>']),
    ('cxthread 1\n' + ''.join('thread t%d\n' % n for n in range(1, 65)) + 'main\nend\n', 'fault 65 TooMany', [
        'forms that begin with thread:', '  thread <new name>']),
    ('cxthread 1\nsemaphore queue 0 1\nmutex m 0\nmain\nacquire quue\nend\n', 'fault 5 UnknownName', [
        'quue is not declared; the nearest name is queue, of line 2: semaphore queue 0 1',
        'forms that begin with acquire:', '  acquire <semaphore>']),
    ('cxthread 1\nmain\nlock m\nend\n', 'fault 3 UnknownName', [
        'names that are declared before: none', 'forms that begin with lock:', '  lock <mutex | recursive | shared>']),
    ('cxthread 1\nsemaphore q 0 1\nmain\nlock q\nend\n', 'fault 4 WrongKind', [
        'q is declared on line 2: semaphore q 0 1', 'forms that begin with lock:', '  lock <mutex | recursive | shared>']),
    ('cxthread 1\nsemaphore q 3 2\nmain\nend\n', 'fault 2 OutOfRange', [
        'forms that begin with semaphore:', '  semaphore <new name> <0 to the next number> <1 to 65535>']),
    ('cxthread 1\nthread a\nlatch a 1\nmain\nend\n', 'fault 3 Twice', [
        'a is declared on line 2: thread a', 'forms that begin with latch:', '  latch <new name> <0 to 65535>']),
    ('cxthread 1\nthread a\nmain\nstart a\nstart a\njoin a\nend\n', 'fault 5 Twice', [
        'the same stands on line 4', 'forms that begin with start:', '  start <thread | jthread>']),
    ('cxthread 1\nlatch l 1\nmain\ncount_down l 1\ncount_down l 1\nend\n', 'fault 5 LatchOver', [
        'l has the count 1, and the lines up to this one take 2']),
    ('cxthread 1\nthread a\nmain\nstart a\nend\n', 'fault 5 BadOrder', ['started, and not joined afterwards: a']),
    ('cxthread 1\nmain\n', 'fault 3 NoEnd', []),
]

# The same of records, for the word check.
RECORD_FAULTS = [
    ('+ m 4 unlock', '+ m 4 unlok', 'BadWord', '  + <mutex | recursive | shared> <0 to 268435455> unlock'),
    ('+ q 2 acquire', '+ q 2 lock', 'BadWord', '  + <semaphore> <0 to 268435455> release <0 to 65535>'),
    ('+ m 2 lock', '+ n 2 lock', 'UnknownName', 'names that are declared before: a b q m'),
]


class Explained(unittest.TestCase):

    def test_faults(self):
        """What the program says of each text is the given line, and of each the tool says what has to be said."""
        for text, line, wanted in FAULTS:
            if '\xfc' not in text:
                self.assertEqual(program(['replay'], text), (3, line + '\n'))
            status, written, said = tool('explain', [line], text)
            self.assertEqual(status, 0, said)
            number, kind = line.split()[1:]
            lines = written.split('\n')[:-1]
            self.assertTrue(lines[0].startswith('line %s: ' % number), written)
            self.assertTrue(lines[1].startswith('%s: ' % kind), written)
            self.assertEqual(lines[2:], wanted)

    def test_all_kinds(self):
        self.assertEqual({line.split()[2] for _, line, _ in FAULTS}, set(KINDS))

    def test_faults_of_records(self):
        text = read('examples/forged/gap.record')
        for old, new, kind, wanted in RECORD_FAULTS:
            damaged = text.replace(old, new)
            status, line = program(['check'], damaged)
            self.assertEqual((status, line.split()[2]), (3, kind))
            written = tool('explain', [line.strip()], damaged)[1].split('\n')
            self.assertEqual(written[0], 'line %s: %s' % (line.split()[1], new))
            self.assertIn(wanted, written)

    def test_flaws(self):
        """The items, and the machine's or the call's row that forbids it: by hand from the tables."""
        wanted = {
            'text': ['item 1 of a, "= true" can not follow',
                     'docs/language.md: `acquire q`; acts and reply: `acquire`; `ok`'],
            'gap': ['m has no change with position 3, and item 4 of b, "+ m 4 unlock" has a greater one'],
            'step': ['after 0 changes m is: free', 'there "unlock" by a is not allowed'],
            'shown': ['q has 1 change in all, so there is no stamp 2'],
            'fell': ['by item 0 of main, "? q 1 release 3 over" the thread has seen 1 change of q',
                     'so item 2 of main, "+ q 0 release 2" comes too late'],
            'order': ['by item 2 of main, "* start a ok" the thread knows 2 changes of q',
                      'so item 0 of a, "+ q 0 release 1" comes too late'],
        }
        for cause, lines in wanted.items():
            verdict = read('examples/forged/%s.verdict' % cause).strip()
            status, written, said = tool('explain', [verdict, '%s/examples/forged/%s.record' % (TOP, cause)])
            self.assertEqual(status, 0, said)
            self.assertEqual([line for line in lines if line not in written.split('\n')], [], written)

    def test_held_twice(self):
        text = read('examples/forged/gap.record').replace('+ m 4 unlock', '+ m 2 unlock')
        status, line = program(['check'], text)
        self.assertEqual((status, line), (1, 'illegal b 4 gap\n'))
        written = tool('explain', [line.strip()], text)[1]
        self.assertIn('position 2 of m is held twice: by item 2 of b, "+ m 2 lock" and by item 4 of b, "+ m 2 unlock"',
                      written)

    def test_cycle(self):
        status, written, _ = tool('explain', ['cycle', 'a', '1'], read('examples/forged/circle.record'))
        self.assertEqual(status, 0)
        self.assertEqual(written.split('\n')[1:5], [
            'a: "+ p 1 acquire" (item 0) stands above "+ q 0 release 1" (item 2)',
            'on q it comes before "+ q 1 acquire" of b (item 0)',
            'b: "+ q 1 acquire" (item 0) stands above "+ p 0 release 1" (item 2)',
            'on p it comes before "+ p 1 acquire" of a (item 0)'])

    def test_statuses(self):
        for status in (0, 1, 2, 3, 4, 5, 7, 8, 9):
            self.assertTrue(tool('explain', ['status', str(status)])[1].startswith('status %d: ' % status))

    def test_each_act_has_its_row(self):
        """Each change and look of the table of forms has a row in docs/machines.md, for each kind that may have it."""
        table, seen = Table(), 0
        for form in table.record:
            if form.head not in ('+', '?'):
                continue
            act = [literal(table, field) if field.name == 'Word' else '1' for field in form.fields[2:]]
            for kind in {MACHINES[word] for word in table.kinds(sort_of(form.fields[0]))}:
                self.assertIsNotNone(act_row(kind, form.head == '+', act), '%s: %s' % (kind, act))
                seen += 1
        self.assertGreater(seen, 60)


class Refused(unittest.TestCase):

    def test_wrong_use(self):
        for words in ([], ['what'], ['status'], ['status', '7', 'file'], ['fault', '1'], ['illegal', 'a', '1'],
                      ['fault', '1', 'BadWord', 'a', 'b']):
            one_line(self, tool('explain', words), 'explain: usage: ')

    def test_not_of_this_text(self):
        text = read('examples/forged/gap.record')
        for words in (['status', '6'], ['status', 'x'], ['fault', '999', 'BadWord'], ['fault', '3', 'Bad'],
                      ['fault', 'x', 'BadWord'], ['illegal', 'z', '0', 'gap'], ['illegal', 'b', '99', 'gap'],
                      ['illegal', 'b', '5', 'step'], ['illegal', 'b', '4', 'shown'], ['illegal', 'b', '4', 'why'],
                      ['cycle', 'a', '1'], ['fault', '1', 'BadWord', 'no/file']):
            one_line(self, tool('explain', words, text), 'explain: ')

    def test_any_text(self):
        table = Table()
        for text in ('', '\n\n', '\xff', 'cxthread 1\n', 'record 1\nmutex\n', '+\n? ?\n'):
            for kind in KINDS:
                for line in (1, 2, 3):
                    try:
                        self.assertTrue(Fault(text.encode('latin-1'), line, kind).sentences(table))
                    except Trouble as trouble:
                        self.assertIn('no line', str(trouble))


if __name__ == '__main__':
    unittest.main()
