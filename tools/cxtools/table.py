"""The table of line forms, read from the crate that has it: `crates/cx_text/src`."""
import os
import re

from .program import TOP
from .text import Trouble

SOURCE = os.path.join(TOP, 'crates', 'cx_text', 'src')
HEAD = r'%s::(\w+) => b"([^"]*)"'
ROW = r'%s::(\w+) => &\[([^\]]*)\]'
FIELD = r'Field::(\w+)(?:\(((?:[^()]|\([^()]*\))*)\))?'


class Field:
    """What a word of a form may be: its name in the table and what stands in brackets behind it."""

    def __init__(self, name, words):
        self.name = name
        self.words = words


class Form:
    """A form of a line: its name in the table, its first word, and a field for each word after it."""

    def __init__(self, name, head, fields):
        self.name = name
        self.head = head
        self.fields = fields


class Table:
    """The forms of a scenario's lines and of a record's, the words that stand for themselves, what may stand in each
    place of a name, and the words of policies, relations and replies."""

    def __init__(self):
        forms, items, values = source('form.rt'), source('item.rt'), source('value.rt')
        self.spelling = dict(re.findall(HEAD % 'Literal', forms))
        self.scenario = read_forms(forms, 'Form')
        self.record = read_forms(items, 'ItemForm')
        self.sorts = {}
        for sort, made in re.findall(r'\(Sort::(\w+), Made::(\w+)\) => Some', forms):
            self.sorts.setdefault(sort, []).append(made)
        self.declared = {made: head for form, made in re.findall(r'Form::(\w+) => Some\(Made::(\w+)\)', forms)
                         for head in [head_of(self.scenario, form)]}
        self.declared['Main'] = 'main'
        self.policies = listed(values, 'is_policy')
        self.relations = listed(values, 'is_relation')
        self.replies = listed(values, 'is_reply_word')

    def kinds(self, sort):
        """The declaration words of what may stand in a place, with `main` where that may."""
        return [self.declared[made] for made in self.sorts[sort]]


def source(name):
    path = os.path.join(SOURCE, name)
    try:
        with open(path, encoding='utf-8') as file:
            return file.read()
    except OSError:
        raise Trouble('%s: the table of line forms is not there' % path)


def read_forms(text, kind):
    """The forms of a table's file."""
    heads = dict(re.findall(HEAD % (r'\b' + kind), text))
    fields = dict(re.findall(ROW % (r'\b' + kind), text))
    if not heads or set(heads) != set(fields):
        raise Trouble('the table of line forms is not written as this tool knows it')
    return [Form(name, heads[name], [Field(name_, words) for name_, words in re.findall(FIELD, fields[name])])
            for name in heads]


def head_of(forms, name):
    return next(form.head for form in forms if form.name == name)


def listed(text, function):
    """The words that a function of the table's crate lists."""
    body = text[text.index('fn %s(' % function):]
    return re.findall(r'b"([^"]*)"', body[:body.index('];')])


def bounds(field):
    """The two numbers of a field with a range, or of one that stands for several words."""
    return [int(word) for word in re.findall(r'\d+', field.words)]


def sort_of(field):
    return re.search(r'Sort::(\w+)', field.words).group(1)


def literal(table, field):
    """The word that a field stands for, where it stands for itself."""
    return table.spelling[re.search(r'Literal::(\w+)', field.words).group(1)]
