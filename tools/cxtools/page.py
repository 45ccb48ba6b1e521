"""The page of a record: one HTML text that stands alone and needs no script."""
from html import escape

from .calls import reason, waits_of
from .drawing import Picture
from .flaws import cycle_sentences
from .layout import THREAD
from .lines import draw_lines
from .style import STYLE, object_style
from .text import counted

READING = (
    'A column for each thread, from top to bottom: <code>+</code> a change of an object with its place in the object\'s '
    'history, below it the state that it leaves; <code>?</code> a look after so many changes; <code>*</code> a start or a '
    'join; <code>=</code> the reply of a call; in italics the call itself. A coloured line joins the changes of an object; '
    'the record does not say which of two items in one row came first. A dot leads to the object\'s next change.')


class Page(Picture):
    """A picture as a page."""

    def html(self, title):
        parts = [
            '<!DOCTYPE html>', '<html lang="en">', '<head>', '<meta charset="utf-8">',
            '<meta name="viewport" content="width=device-width, initial-scale=1">',
            '<title>%s</title>' % escape(title), '<style>%s' % STYLE, object_style(self.lanes.values()),
            self.sheet_style(), '</style>', '</head>', '<body class="page">', '<div class="text">',
            '<h1>%s</h1>' % escape(title), self.summary(), self.verdict_html(), '<p>%s</p>' % READING, self.objects_html(),
            '</div>', '<main>']
        parts += self.parts_html()
        parts += ['</main>', '<div class="text">', self.scenario_html(), '</div>', '</body>', '</html>', '']
        return '\n'.join(parts)

    def sheet_style(self):
        layout = self.layout
        return ('.page { --w: %dpx; --g: %dpx; --z: %.3f; } @page { size: %dpx %dpx; margin: 38px; }' % (
            layout.width, layout.gutter, layout.zoom, layout.sheet[0] + 76, layout.sheet[1] + 76))

    def summary(self):
        started = sum(1 for items in self.record.lists if items is not None)
        return '<p>%s, %s, %s in %s.</p>' % (
            counted(started, 'thread'), counted(len(self.lanes), 'object'), counted(len(self.record.items()), 'item'),
            counted(len([row for row in self.rows if any(cell.items for cell in row)]), 'row'))

    def verdict_html(self):
        """What is wrong with the record or what was said of it, each in a box of its own."""
        boxes = []
        if self.record.stuck:
            said = ['%s waits: %s' % (wait.thread, reason(wait, self.told)) for wait in waits_of(self.record)]
            boxes.append(('bad', 'Stuck: no thread can go on.', [escape(text) for text in said]))
        if self.flaw:
            said = [escape(text) for text in self.flaw.sentences()]
            link = ' <a href="#%s">Go there.</a>' % item_id(self.scenario, self.flaw.item) if self.flaw.item else ''
            head = 'Illegal. The first flaw is of the kind <code>%s</code>.%s' % (self.verdict.cause, link)
            boxes.append(('bad', head, said))
        elif self.verdict and self.verdict.word == 'legal':
            boxes.append(('', 'Legal: it follows its scenario, and each object has one history.', []))
        if self.order.cycle:
            said = [escape(text) for text in cycle_sentences(self.record, self.order.cycle)]
            boxes.append(('bad', 'The order has a cycle: no run could make this record.', said))
        return '\n'.join('<div class="verdict %s"><strong>%s</strong>%s</div>' % (
            name, head, '<ul>%s</ul>' % ''.join('<li>%s</li>' % text for text in said) if said else '')
            for name, head, said in boxes)

    def objects_html(self):
        """The choice of an object: with one chosen, all others are dimmed."""
        rows = ['<li><label><input type="radio" name="object" checked> all objects</label></li>']
        for name, number in self.lanes.items():
            history = self.told[name]
            changes = history.changes
            jump = ' <a class="jump" href="#%s">first change</a>' % item_id(self.scenario, changes[0]) if changes else ''
            rows.append(
                '<li class="k%d"><label><input type="radio" name="object" id="pick-%d"><span class="sw"></span>'
                '<b>%s</b> %s</label>%s<small>%s, %s; at the end: %s</small></li>' % (
                    number, number, name, escape(history.thing.word), jump, counted(len(changes), 'change'),
                    counted(history.looks, 'look'), escape(history.last or 'not known')))
        return '<fieldset><legend>Objects</legend><ul>%s</ul></fieldset>' % '\n'.join(rows)

    def parts_html(self):
        layout, paths = self.layout, draw_lines(self.layout, self.record, self.told, self.lanes)
        columns = '<colgroup><col style="width:46px">%s</colgroup>' % ''.join(
            '<col style="width:%dpx">' % width for width in layout.widths)
        head = '<thead><tr><th scope="col">row</th>%s</tr></thead>' % ''.join(
            '<th scope="col">%s%s</th>' % (name, '' if items is not None else ' <small>not started</small>')
            for name, items in zip(self.scenario.threads, self.record.lists))
        for number, part in enumerate(layout.parts):
            yield '<section class="part" aria-label="rows %d to %d">' % (part[0] + 1, part[-1] + 1)
            yield '<svg aria-hidden="true" width="%d" height="%d">%s</svg>' % (
                layout.width, layout.heights[number], ''.join(paths[number]))
            yield '<table>%s%s<tbody>' % (columns, head)
            for row in part:
                yield self.row_html(row)
            yield '</tbody></table></section>'

    def row_html(self, number):
        row = self.rows[number]
        height = max(cell.height for cell in row)
        cells, at = [], 0
        for cell in row:
            cells.append(empty(cell.thread - at))
            cells.append(self.cell_html(cell))
            at = cell.thread + 1
        cells.append(empty(len(self.scenario.threads) - at))
        label = number + 1 if any(cell.items for cell in row) else 'end'
        return '<tr style="height:%dpx"><th scope="row">%s</th>%s</tr>' % (height, label, ''.join(cells))

    def cell_html(self, cell):
        names = ['c']
        first = cell.items[0] if cell.items else None
        if first and first.object:
            names.append('k%d' % self.lanes[first.object])
        if any(item.key in self.on_cycle for item in cell.items):
            names.append('oncycle')
        if not cell.items:
            names.append('stuck' if self.record.stuck else 'flaw')
        elif self.flaw and self.flaw.item in cell.items:
            names.append('flaw')
        lines = ['<div class="call">%s</div>' % escape(cell.above)] if cell.lowered else []
        if first:
            # The dot stands behind the items, so that it comes next by the key Tab where a link has led to them.
            lines.append('<div class="it">%s%s</div>' % (' '.join(map(self.item_html, cell.items)), self.dot_html(first)))
        lines += ['<div class="state">%s</div>' % escape(cell.state)] if cell.state else []
        lines += ['<div class="mark" title="%s">%s</div>' % (escape(mark), escape(mark)) for mark in cell.marks]
        return '<td class="%s">%s</td>' % (' '.join(names), ''.join(lines))

    def item_html(self, item):
        """An item's own line, in the words of the record."""
        text = escape(' '.join([item.mark] + item.words))
        if item.object:
            text = '%s <b>%s</b>%s' % (item.mark, item.object, escape(' ' + ' '.join(item.words[1:])))
        return '<span class="item%s" id="%s">%s</span>' % (
            ' rep' if item.mark == '=' else '', item_id(self.scenario, item), text)

    def dot_html(self, item):
        """The dot of an act, which leads along the object's history or to the other thread."""
        if item.mark == '=':
            return ''
        if item.mark == '*':
            other = self.record.lists[self.scenario.threads.index(item.words[1])]
            goal = (other[-1] if item.words[0] == 'join' else other[0]) if other else None
            said, right, name = 'the other thread', THREAD, 'ctl'
        else:
            right, name = self.layout.lane(self.lanes[item.object]), 'look' if item.mark == '?' else 'change'
            goal = self.goal(item)
            said = ('the change of %s looked at' if item.mark == '?' else 'the next change of %s') % item.object
        if not goal:
            return '<span class="dot %s" style="left:%dpx"></span>' % (name, right)
        return '<a class="dot %s" style="left:%dpx" href="#%s" aria-label="%s"></a>' % (
            name, right, item_id(self.scenario, goal), said)

    def scenario_html(self):
        lines = [' '.join(thing.words) for thing in self.scenario.things.values()]
        for name, body in self.scenario.bodies.items():
            lines += [''] + ['main' if name == 'main' else 'body %s' % name] + ['  %s' % call for call in body]
        return '<details><summary>The scenario</summary><pre>%s</pre></details>' % escape('\n'.join(lines))


def item_id(scenario, item):
    return 'i-%s-%d' % (scenario.threads[item.thread], item.number)


def empty(count):
    if count <= 0:
        return ''
    return '<td%s></td>' % (' colspan="%d"' % count if count > 1 else '')
