"""Grammars for editors, made from the table of line forms: each form is one pattern for a whole line."""
import json
import re

from .table import Table, bounds, literal, sort_of

NAME = '[a-z][a-z0-9_]{0,15}'
NATURAL = '[0-9]{1,20}'
STRUCTURE = ('cxthread', 'body', 'main', 'end', 'record', 'acts', 'unstarted', 'done', 'stuck')

# What the parts of a line are, for TextMate and for Vim.
SCOPES = {
    'structure': 'keyword.control', 'declaration': 'storage.type', 'call': 'support.function', 'item': 'keyword.operator',
    'new': 'entity.name', 'name': 'variable.other', 'word': 'keyword.other', 'number': 'constant.numeric',
}
GROUPS = {
    'structure': 'PreProc', 'declaration': 'Type', 'call': 'Function', 'item': 'Operator', 'number': 'Number',
    'word': 'Keyword', 'name': 'Identifier',
}


def escaped(word):
    return re.sub('([^a-z0-9_-])', r'\\\1', word)


def one_of(words):
    return '(?:%s)' % '|'.join(escaped(word) for word in sorted(words, key=lambda word: (-len(word), word)))


def new_name(table):
    """A name in the line that declares it: none of the words that are no names."""
    return r'(?!%s(?:\s|$))%s' % (one_of(table.replies + ['main']), NAME)


def used_name(table, field):
    """A name in a line that uses it; `main` only where it may stand."""
    return NAME if 'main' in table.kinds(sort_of(field)) else r'(?!main(?:\s|$))%s' % NAME


def field_pattern(table, field):
    """The pattern of a field, with the blanks before it, and what it is."""
    name = field.name
    if name == 'Word':
        return r'\s+(%s)' % escaped(literal(table, field)), 'word'
    if name in ('New', 'Own'):
        return r'\s+(%s)' % new_name(table), 'new'
    if name in ('Name', 'Each'):
        return r'\s+(%s)' % used_name(table, field), 'name'
    if name == 'Several':
        low, high = bounds(field)
        return r'((?:\s+%s){%d,%d})' % (used_name(table, field), low, high), 'name'
    if name in ('Policy', 'Relation'):
        return r'\s+(%s)' % one_of(table.policies if name == 'Policy' else table.relations), 'word'
    return r'\s+(%s%s)' % ('-?' if name == 'Signed' else '', NATURAL), 'number'


def kind_of(form):
    """What the first word of a form is."""
    if form.head in STRUCTURE:
        return 'structure'
    if not form.head.isalpha() and '_' not in form.head:
        return 'item'
    return 'declaration' if form.fields and form.fields[0].name == 'New' else 'call'


def rules(table):
    """For each form what its line is, its pattern, and what the parts in brackets are; no pattern twice."""
    seen = set()
    for form in table.scenario + table.record:
        fields = [field_pattern(table, field) for field in form.fields]
        pattern = r'^\s*(%s)%s\s*$' % (escaped(form.head), ''.join(part for part, _ in fields))
        if pattern not in seen:
            seen.add(pattern)
            yield kind_of(form), pattern, [kind_of(form)] + [name for _, name in fields]


def textmate():
    """The grammar in TextMate's form."""
    patterns = [{'name': 'comment.line.number-sign.cxthread', 'match': r'^\s*#.*$'}]
    for _, pattern, parts in rules(Table()):
        captures = {str(place): {'name': '%s.cxthread' % SCOPES[part]} for place, part in enumerate(parts, 1)}
        patterns.append({'match': pattern, 'captures': captures})
    patterns.append({'name': 'invalid.illegal.cxthread', 'match': r'^\s*\S.*$'})
    grammar = {'name': 'cxthread', 'scopeName': 'source.cxthread', 'fileTypes': ['cx', 'replay', 'record'],
               'patterns': patterns}
    return json.dumps(grammar, indent=1) + '\n'


def for_vim(pattern):
    """A pattern in Vim's own form, where all signs are magic."""
    pattern = re.sub(r'\((?!\?)', '%(', pattern.replace('(?:', '('))
    place = pattern.find('(?!')
    while place >= 0:
        end = closing(pattern, place)
        pattern = '%s%%(%s)@!%s' % (pattern[:place], pattern[place + 3:end], pattern[end + 1:])
        place = pattern.find('(?!')
    return pattern


def closing(pattern, place):
    """Where the bracket closes that opens at a place."""
    depth = 0
    for at in range(place, len(pattern)):
        depth += (pattern[at] == '(') - (pattern[at] == ')')
        if not depth:
            return at
    raise ValueError(pattern)


def vim():
    """The grammar as a syntax file of Vim."""
    table = Table()
    words, heads = set(table.policies + table.relations), {}
    for form in table.scenario + table.record:
        heads.setdefault(kind_of(form), set()).add(form.head)
        words |= {literal(table, field) for field in form.fields if field.name == 'Word'} - {'1'}
    lines = ['" Vim syntax file for scenarios and records of cxthread.',
             '" Made by tools/grammar from the table of line forms.', '',
             "if exists('b:current_syntax')", '  finish', 'endif', '',
             r'syntax match cxthreadFault "\v^\s*\S.*$"', r'syntax match cxthreadComment "\v^\s*#.*$"']
    lines += [r'syntax match cxthreadName contained "\v<%s>"' % NAME,
              r'syntax match cxthreadNumber contained "\v%(\s)@<=-?[0-9]+"',
              r'syntax match cxthreadWord contained "\v%%(\s)@<=%s%%(\s|$)@="' % for_vim(one_of(words))]
    for kind in sorted(heads):
        lines.append(r'syntax match cxthread%s contained "\v^\s*%s%%(\s|$)@="'
                     % (kind.title(), for_vim(one_of(heads[kind]))))
    for kind, pattern, _ in rules(table):
        lines.append(r'syntax match cxthreadLine "\v%s" contains=cxthread%s,cxthreadWord,cxthreadNumber,cxthreadName'
                     % (for_vim(pattern), kind.title()))
    lines += ['', 'highlight default link cxthreadComment Comment', 'highlight default link cxthreadFault Error']
    lines += ['highlight default link cxthread%s %s' % (kind.title(), group) for kind, group in sorted(GROUPS.items())]
    return '\n'.join(lines + ['', "let b:current_syntax = 'cxthread'", ''])


def detection():
    """Vim's rule for which files these are."""
    return ('" Made by tools/grammar.\n'
            'autocmd BufRead,BufNewFile *.cx,*.replay,*.record setfiletype cxthread\n')


FILES = {
    'editors/textmate/cxthread.tmLanguage.json': textmate,
    'editors/vim/syntax/cxthread.vim': vim,
    'editors/vim/ftdetect/cxthread.vim': detection,
}
