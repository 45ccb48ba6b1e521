"""Line forms in words, and which of them a line may have been meant for."""
import difflib

from .table import bounds, literal, sort_of


def shown_field(table, field):
    """A field as a reader would write it."""
    name = field.name
    if name == 'Word':
        return literal(table, field)
    if name in ('Name', 'Each'):
        return '<%s>' % ' | '.join(table.kinds(sort_of(field)))
    if name == 'Several':
        low, high = bounds(field)
        return '<%s> (%d to %d of them)' % (' | '.join(table.kinds(sort_of(field))), low, high)
    if name == 'Number':
        return '<%d to %d>' % tuple(bounds(field))
    return {'New': '<new name>', 'Own': '<its own name>', 'Policy': '<%s>' % ' | '.join(table.policies),
            'Relation': '<%s>' % ' | '.join(table.relations), 'Signed': '<64-bit number>',
            'Index': '<number of the mutex, from 0>', 'UpToNext': '<0 to the next number>'}[name]


def shown(table, form):
    """A form as one line."""
    return ' '.join([form.head] + [shown_field(table, field) for field in form.fields])


def fits_kind(table, form, word):
    """Whether the first field of a record's form may be an object that this word declares."""
    field = form.fields[0] if form.fields else None
    return bool(field) and field.name == 'Name' and word in table.kinds(sort_of(field))


def record_forms(table, words, things):
    """The forms of a record's lines that begin as a line does: of a change or a look those of its object's kind, and of
    those the ones with the same act where there are any."""
    forms = [form for form in table.record if form.head == words[0]]
    thing = things.get(words[1]) if len(words) > 1 else None
    if words[0] in '+?' and thing:
        forms = [form for form in forms if fits_kind(table, form, thing.word)]
        act = words[3] if len(words) > 3 else ''
        same = [form for form in forms if literal(table, form.fields[2]) == act]
        forms = same or forms
    return forms


def forms_like(table, words, things, in_record):
    """The forms that begin with the same word as a line, or else with the nearest word."""
    if in_record:
        forms = record_forms(table, words, things)
        heads = sorted({form.head for form in table.record})
    else:
        forms = [form for form in table.scenario if form.head == words[0]]
        heads = sorted({form.head for form in table.scenario})
    if forms:
        return words[0], forms
    near = difflib.get_close_matches(words[0], heads, 1, 0.6)
    if not near:
        return None, []
    return near[0], [form for form in (table.record if in_record else table.scenario) if form.head == near[0]]
