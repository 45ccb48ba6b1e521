"""What the tests share: calls of the tools and of the program, and the examples."""
import glob
import os
import subprocess
import sys

TOOLS = os.path.dirname(os.path.dirname(os.path.abspath(__file__)))
TOP = os.path.dirname(TOOLS)
EXAMPLES = os.path.join(TOP, 'examples')


def tool(name, words=(), text='', program=None):
    """The status of a tool, and what it writes on standard output and on standard error."""
    environment = dict(os.environ)
    if program:
        environment['CXTHREAD'] = program
    done = subprocess.run([sys.executable, os.path.join(TOOLS, name)] + list(words), input=text.encode('latin-1'),
                          stdout=subprocess.PIPE, stderr=subprocess.PIPE, env=environment, check=False,
                          timeout=600)
    return done.returncode, done.stdout.decode('ascii'), done.stderr.decode('ascii')


def program(words, text):
    """The status of the program and what it writes."""
    done = subprocess.run([os.environ['CXTHREAD']] + list(words), input=text.encode('ascii'), stdout=subprocess.PIPE,
                          check=False, timeout=60)
    return done.returncode, done.stdout.decode('ascii')


def read(path):
    with open(os.path.join(TOP, path), encoding='ascii') as file:
        return file.read()


def scenarios():
    """The names of the examples."""
    return sorted(os.path.basename(path)[:-3] for path in glob.glob(os.path.join(EXAMPLES, '*.cx')))


def one_line(case, result, start):
    """That a tool was used wrongly, or couldn't go on: status 2, nothing written, and one line that begins so."""
    status, written, said = result
    case.assertEqual((status, written), (2, ''), said)
    case.assertEqual(said.count('\n'), 1, said)
    case.assertTrue(said.startswith(start), said)
