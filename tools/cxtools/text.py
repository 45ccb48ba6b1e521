"""Lines and words of scenarios and records, and what a tool says where it can't go on."""
import os
import sys


class Trouble(Exception):
    """Why a tool stops, in one line."""


def decoded(data):
    """The text of some bytes; whatever isn't ASCII becomes a question mark."""
    return data.decode('ascii', 'replace').replace('\ufffd', '?')


def read_text(paths):
    """The text of files, one behind the other; of standard input where none is named."""
    return decoded(read_bytes(paths))


def read_bytes(paths):
    if not paths:
        return sys.stdin.buffer.read()
    parts = []
    for path in paths:
        try:
            with open(path, 'rb') as file:
                parts.append(file.read())
        except OSError as error:
            raise Trouble('%s: %s' % (path, os.strerror(error.errno)))
    return b''.join(parts)


def kept_lines(text):
    """The lines that say something: pairs of a line's number, from 1, and its words."""
    lines = text.split('\n')
    kept = []
    for number, line in enumerate(lines, 1):
        words = line.split()
        if words and not words[0].startswith('#'):
            kept.append((number, words))
    return kept


def counted(number, word):
    """A number with its noun: `1 item`, `2 items`."""
    return '%d %s%s' % (number, word, '' if number == 1 else 's')


def run_tool(name, main, words):
    """Runs a tool's main function on its words: what goes wrong is one line on standard error, with status 2."""
    try:
        return main(words)
    except Trouble as trouble:
        message = str(trouble)
    except BrokenPipeError:
        sys.stdout = None
        return 2
    except (IndexError, KeyError, ValueError):
        message = 'the text is none that the program reads or writes'
    except KeyboardInterrupt:
        message = 'interrupted'
    print('%s: %s' % (name, message), file=sys.stderr)
    return 2
