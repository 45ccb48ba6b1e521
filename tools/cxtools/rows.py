"""Rows of the tables in docs/: what a machine asks of an act, and what a call does."""
import os
import re

from .program import TOP

# The heading of each machine in docs/machines.md.
HEADINGS = {
    'mutex': 'Mutex', 'shared': 'Shared mutex', 'semaphore': 'Semaphore', 'latch': 'Latch', 'barrier': 'Barrier',
    'once': 'Once flag', 'condition': 'Condition variable', 'stop': 'Stop state', 'future': 'Future',
}
ANY = re.compile(r'[A-Z]+$')


def page(name):
    try:
        with open(os.path.join(TOP, 'docs', name), encoding='utf-8') as file:
            return file.read().split('\n')
    except OSError:
        return []


def section(lines, heading):
    """The lines below a heading of the second rank that begins so."""
    inside = False
    for line in lines:
        if line.startswith('## '):
            inside = line[3:].startswith(heading)
        elif inside:
            yield line


def cells_of(line):
    """The cells of a table's row; none of another line."""
    return [cell.strip() for cell in line.strip()[1:-1].split('|')] if line.startswith('|') else []


def is_like(pattern, words):
    """Whether words are those of a pattern, in which a word of capitals stands for any, and OUTCOME for the rest."""
    parts = pattern.split()
    if parts[-1:] == ['OUTCOME']:
        return words[:len(parts) - 1] == parts[:-1]
    return len(parts) == len(words) and all(ANY.match(part) or part == word for part, word in zip(parts, words))


def act_row(kind, is_change, act):
    """What docs/machines.md says of an act: its row, or none."""
    wanted = 'Change' if is_change else 'Look'
    table = None
    for line in section(page('machines.md'), HEADINGS[kind]):
        cells = cells_of(line)
        if cells and cells[0] in ('Change', 'Look'):
            table = cells[0]
        elif cells and table == wanted and any(is_like(name, act) for name in re.findall('`([^`]*)`', cells[0])):
            return 'allowed where %s' % cells[1] if is_change else 'true where %s' % cells[1]
        elif not is_change and line.startswith('Look: '):
            name = re.search('`([^`]*)`', line)
            if name and is_like(name.group(1), act):
                return line[line.index('true where'):].rstrip('.')
    return None


def call_rows(word):
    """What docs/language.md says of the calls that begin with a word: its rows, cell by cell."""
    rows = []
    for line in section(page('language.md'), 'Calls'):
        if line.startswith('| `'):
            cells = cells_of(line)
            if any(name.split()[0] == word for name in re.findall('`([^`]+)`', cells[0])):
                rows.append(cells)
    return rows
