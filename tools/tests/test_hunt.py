"""Tests of tools/hunt: it finds the schedule that goes wrong, and makes the scenario small."""
import unittest

from support import one_line, program, tool

# 40 calls: a takes m before n and b takes n before m, among much that has nothing to do with it.
FORTY = '''cxthread 1
thread a
thread b
thread c
mutex m 1
mutex n 0
mutex log 1
semaphore go 0 4
latch ready 3
body a
count_down ready 1
lock log
add log 0 1
unlock log
lock m
lock n
add m 0 5
unlock n
unlock m
release go 1
end
body b
lock log
add log 0 1
unlock log
count_down ready 1
lock n
lock m
add m 0 -5
unlock m
unlock n
release go 1
end
body c
count_down ready 1
wait ready
lock log
add log 0 1
get log 0
unlock log
try_acquire go
release go 1
end
main
start a
start b
start c
acquire go
acquire go
lock log
get log 0
unlock log
try_wait ready
join a
join b
join c
end
'''

# Two accesses that only the mutex orders; the second lock is missing.
TWO_WRITES = '''cxthread 1
thread a
thread b
mutex m 0
body a
lock m
unlock m
end
body b
try_lock m
end
main
start a
start b
join a
join b
end
'''


def calls(text):
    """How many calls a scenario has."""
    within, count = False, 0
    for line in text.split('\n'):
        if line == 'main' or line.startswith('body '):
            within = True
        elif line == 'end':
            within = False
        elif within:
            count += 1
    return count


def words_of(written):
    """The words of the command in the first line of what was found."""
    first = written.split('\n')[0]
    return first[2:first.index(':')].split()


class Hunted(unittest.TestCase):

    def test_opposite_order(self):
        """The deadlock of 40 calls: not without a seed, but with one; the least such seed is told first, and the scenario
        is made smaller than 12 calls, of which some schedules end."""
        self.assertEqual(calls(FORTY), 40)
        self.assertEqual(program(['replay'], FORTY)[0], 0)
        status, written, said = tool('hunt', ['--seeds', '500'], FORTY)
        self.assertEqual(status, 0, said)
        seed = int(said.split('replay ')[1].split(':')[0])
        self.assertEqual([program(['replay', str(other)], FORTY)[0] for other in range(seed + 1)], [0] * seed + [7])
        self.assertLess(calls(written), 12)
        self.assertEqual(program(words_of(written), written)[0], 7)
        self.assertIn('lock m', written)
        self.assertIn('lock n', written)
        self.assertTrue(any(program(['replay', str(seed)], written)[0] == 0 for seed in range(32)), written)

    def test_reply(self):
        """The look of c at `go` before anything was released."""
        status, written, said = tool('hunt', ['--reply', 'c 6 false'], FORTY)
        self.assertEqual(status, 0, said)
        self.assertLess(calls(written), 5)
        self.assertIn('= false', program(words_of(written), written)[1])

    def test_nothing_found(self):
        status, written, said = tool('hunt', ['--seeds', '20'], TWO_WRITES)
        self.assertEqual((status, written), (1, ''))
        self.assertIn('no schedule of 20 seeds', said)

    def test_race(self):
        """Without a seed the mutex orders both writes; with one that lets the try_lock of b fail it doesn't."""
        words = ['--seeds', '200', '--race', 'x', '--access', 'a 1 x write', '--access', 'b 1 x write']
        status, written, said = tool('hunt', words, TWO_WRITES)
        self.assertEqual(status, 0, said)
        self.assertRegex(said, 'replay [0-9]+: two accesses to x race')
        lines = written.split('\n')
        self.assertIn('two accesses to x race', lines[0])
        self.assertLess(calls(written), 7)
        accesses = [line[2:] for line in lines if line.startswith('# ')][1:]
        self.assertEqual([line.split()[0] for line in accesses], ['a', 'b'], written)
        record = program(words_of(written), written)[1]
        text = record + '\n'.join(['accesses 1'] + accesses + ['done', ''])
        self.assertEqual(program(['races'], text), (0, 'race x 0 1\n'))

    def test_no_race(self):
        """Where both lock the mutex, no schedule has a race."""
        words = ['--seeds', '50', '--race', 'x', '--access', 'a 1 x write', '--access', 'b 1 x write']
        status, written, said = tool('hunt', words, TWO_WRITES.replace('try_lock m', 'lock m'))
        self.assertEqual((status, written), (1, ''), said)


class Refused(unittest.TestCase):

    def test_wrong_use(self):
        for words in (['--what'], ['--seeds'], ['a', 'b'], ['--race', 'x'], ['--access', 'a 0 x write'],
                      ['--anyhow', '--reply', 'a 0 ok']):
            one_line(self, tool('hunt', words, TWO_WRITES), 'hunt: usage: ')
        one_line(self, tool('hunt', ['--seeds', '0'], TWO_WRITES), 'hunt: 0 is no number')
        one_line(self, tool('hunt', ['--reply', 'a x'], TWO_WRITES), 'hunt: --reply wants')
        one_line(self, tool('hunt', ['--reply', 'd 0 ok'], TWO_WRITES), 'hunt: d is no thread')
        one_line(self, tool('hunt', ['--reply', 'a 9 ok'], TWO_WRITES), 'hunt: a has no call 9')
        one_line(self, tool('hunt', ['--program', 'no/program'], TWO_WRITES), 'hunt: no/program: no program')
        one_line(self, tool('hunt', ['no/file']), 'hunt: no/file: ')

    def test_no_scenario(self):
        for text in ('', 'cxthread 1\n', 'main\nend\n', 'cxthread 1\nmain\nlock m\nend\n', 'cxthread 1\nmain\nend\nend\n'):
            one_line(self, tool('hunt', text=text), 'hunt: ')


if __name__ == '__main__':
    unittest.main()
