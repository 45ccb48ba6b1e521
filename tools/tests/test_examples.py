"""Tests of examples/README.md: it names each scenario once, and each word that it gives takes the scenario."""
import re
import unittest

from support import program, read, scenarios

ROW = re.compile(r'^\| \[(\w+)\]\((\w+)\.cx\) \|[^|]*\|([^|]*)\|(.*)\|$')


class Index(unittest.TestCase):

    @classmethod
    def setUpClass(cls):
        cls.rows = [ROW.match(line) for line in read('examples/README.md').split('\n') if line.startswith('| [')]

    def test_each_once(self):
        self.assertEqual([row.group(1) for row in self.rows], [row.group(2) for row in self.rows])
        self.assertEqual(sorted(row.group(1) for row in self.rows), scenarios())
        self.assertGreaterEqual(len(self.rows), 20)

    def test_words(self):
        """`replay` takes each; `check` those whose replay ends; `run` ends, or declares what isn't built, or isn't tried."""
        for row in self.rows:
            name, words = row.group(1), re.findall('`(\\w+)`', row.group(3))
            text = read('examples/%s.cx' % name)
            status, written = program(['replay'], text)
            self.assertEqual(words[0], 'replay', name)
            self.assertEqual(status, 0 if 'check' in words else 7, name)
            if status == 0:
                self.assertEqual(program(['check'], written), (0, 'legal\n'), name)
            if 'run' in words:
                status, written = program(['run'], text)
                self.assertEqual((status, program(['check'], written)), (0, (0, 'legal\n')), name)
            elif 'never ends' not in row.group(4):
                self.assertEqual(program(['run'], text), (9, ''), name)

    def test_seeds_of_the_mend(self):
        """The mend of the deadlock is stuck with none of many seeds."""
        text = read('examples/lock_order.cx')
        self.assertEqual([seed for seed in range(60) if program(['replay', str(seed)], text)[0]], [])


if __name__ == '__main__':
    unittest.main()
