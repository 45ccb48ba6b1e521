"""Tests of tools/grammar: the files are those that the table gives, and their patterns take what the program takes."""
import glob
import json
import os
import re
import unittest

from cxtools.grammar import FILES
from support import EXAMPLES, TOP, one_line, read, tool

WRONG = ['mutex m', 'mutex m 1 2', 'mutx m 0', 'thread Worker', 'thread ok', 'semaphore q 0', 'lock', 'lock main',
         'wait_pred c m 0 == 1', 'barrier b 2 release q', 'async a never return 1', 'lock_all m', 'lock_all m n o p q',
         '+ m 4 unlok', '+ m lock', '* start a', '= not ok', 'acts', 'cxthread one', 'add m 0 +1', 'body a b']


class Grammar(unittest.TestCase):

    @classmethod
    def setUpClass(cls):
        cls.patterns = [(re.compile(rule['match']), rule) for rule in
                        json.loads(read('editors/textmate/cxthread.tmLanguage.json'))['patterns']]

    def rule(self, line):
        """The first rule that takes a line, as an editor picks it."""
        return next((found, rule) for found, rule in ((form.match(line), rule) for form, rule in self.patterns) if found)

    def is_fault(self, line):
        return self.rule(line)[1].get('name') == 'invalid.illegal.cxthread'

    def test_same_bytes(self):
        """Made again from the table the files are the same, byte for byte."""
        for name, make in FILES.items():
            self.assertEqual(read(name), make(), name)
        self.assertEqual(tool('grammar', ['--check']), (0, '', ''))

    def test_examples(self):
        """No line of an example is a fault."""
        for path in glob.glob(os.path.join(EXAMPLES, '*.*')) + glob.glob(os.path.join(EXAMPLES, '*', '*.record')):
            if path.endswith(('.cx', '.replay', '.record')):
                for line in read(os.path.relpath(path, TOP)).split('\n'):
                    self.assertFalse(line.strip() and self.is_fault(line), '%s: %s' % (path, line))

    def test_wrong_lines(self):
        for line in WRONG:
            self.assertTrue(self.is_fault(line), line)

    def test_parts(self):
        """What the parts of a line are, by hand."""
        found, rule = self.rule('wait_pred filled m 0 >= -1')
        parts = [(found.group(int(place)), part['name']) for place, part in sorted(rule['captures'].items())]
        self.assertEqual(parts, [
            ('wait_pred', 'support.function.cxthread'), ('filled', 'variable.other.cxthread'),
            ('m', 'variable.other.cxthread'), ('0', 'constant.numeric.cxthread'), ('>=', 'keyword.other.cxthread'),
            ('-1', 'constant.numeric.cxthread')])
        found, rule = self.rule('  shared_promise p main a b')
        parts = [(found.group(int(place)), part['name']) for place, part in sorted(rule['captures'].items())]
        self.assertEqual(parts, [
            ('shared_promise', 'storage.type.cxthread'), ('p', 'entity.name.cxthread'), ('main', 'variable.other.cxthread'),
            (' a b', 'variable.other.cxthread')])

    def test_wrong_use(self):
        one_line(self, tool('grammar', ['--what']), 'grammar: usage: ')


if __name__ == '__main__':
    unittest.main()
