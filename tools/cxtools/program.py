"""The program: where it is, and what it answers."""
import os
import subprocess

from .text import Trouble

TOP = os.path.dirname(os.path.dirname(os.path.dirname(os.path.abspath(__file__))))
LEAST = b'cxthread 1\nmain\nend\n'


def find_program(path=None):
    """The program to call: the path that is given, or that the variable CXTHREAD names, or else the repository's own,
    which its wrapper builds first where that has to be."""
    path = path or os.environ.get('CXTHREAD')
    if path:
        if not os.access(path, os.X_OK) or os.path.isdir(path):
            raise Trouble('%s: no program' % path)
        return os.path.abspath(path)
    answer(os.path.join(TOP, 'cxthread'), ['replay'], LEAST)
    built = os.path.join(TOP, 'crates', 'cxthread', 'out', 'cxthread')
    if not os.access(built, os.X_OK):
        raise Trouble('the program could not be built; --program PATH or the variable CXTHREAD name another')
    return built


def answer(program, words, text):
    """What the program writes for words and input, and its status."""
    try:
        done = subprocess.run([program] + words, input=text, stdout=subprocess.PIPE, check=False)
    except OSError as error:
        raise Trouble('%s: %s' % (program, os.strerror(error.errno)))
    return done.returncode, done.stdout
