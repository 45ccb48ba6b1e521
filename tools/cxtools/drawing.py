"""What a picture of a record shows: its rows of cells, with the call, the state and the marks of each."""
from .calls import parts_of, reason, waits_of
from .flaws import Flaw
from .history import histories
from .layout import Cell, Layout
from .order import Order


class Picture:
    """A record with all that its page shows."""

    def __init__(self, record, verdict):
        self.record = record
        self.scenario = record.scenario
        self.verdict = verdict
        self.told = histories(record)
        self.flaw = Flaw(record, verdict) if verdict and verdict.word == 'illegal' else None
        used = [thing.name for thing in self.scenario.objects
                if self.told[thing.name].changes or self.told[thing.name].looks]
        self.lanes = {name: number for number, name in enumerate(used)}
        self.places = {item.key: place for history in self.told.values() for place, item in enumerate(history.changes)}
        self.order = Order(record, self.follows)
        self.on_cycle = {item.key for item in self.order.cycle}
        self.rows = self.make_rows()
        self.layout = Layout(self.scenario.threads, self.rows, len(self.lanes))

    def follows(self, item):
        """Whether an item stands beside the one above it in its list: a reply does, beside an act."""
        return item.mark == '=' and item.number > 0 and self.record.lists[item.thread][item.number - 1].mark != '='

    def make_rows(self):
        rows = [[] for _ in range(max(self.order.rows.values(), default=0))]
        for thread, items in enumerate(self.record.lists):
            for cell in self.cells(thread, items or []):
                rows[self.order.rows[cell.items[0].key] - 1].append(cell)
        last = self.last_row()
        rows += [last] if last else []
        for row in rows:
            row.sort(key=lambda cell: cell.thread)
            for cell in row:
                cell.lowered = any(other.above for other in row)
        return [row for row in rows if row]

    def cells(self, thread, items):
        """The cells of a list, each with the call that begins there and the state that its change leaves."""
        cells = []
        for part in parts_of(self.scenario.bodies[self.scenario.threads[thread]], items):
            first = True
            for item in part.items:
                if self.follows(item) and cells and not first:
                    cells[-1].items.append(item)
                else:
                    cells.append(self.cell(thread, item))
                    cells[-1].above = self.above(part) if first else ''
                first = False
                self.add_marks(cells[-1], item)
        return cells

    def above(self, part):
        """The line above the first item of a call: the call, where the act doesn't say it itself."""
        if not part.call:
            return '' if part.items[0].thread and self.is_async(part.items[0].thread) else 'end of the body'
        acts = part.acts
        if len(acts) == 1 and acts[0].act[0] == part.call.words[0] and len(part.call.words) <= len(acts[0].words):
            return ''
        if len(acts) == 1 and acts[0].mark == '*':
            return ''
        return str(part.call)

    def is_async(self, thread):
        return self.scenario.things[self.scenario.threads[thread]].word == 'async'

    def cell(self, thread, item):
        cell = Cell(thread, [item])
        if item.mark == '+':
            history = self.told[item.object]
            state = history.after(item.at + 1)
            known = state is not None and item.at < len(history.changes) and history.changes[item.at] is item
            cell.state = state if known else 'state not known'
        return cell

    def add_marks(self, cell, item):
        if item.key in self.on_cycle and 'on the cycle' not in cell.marks:
            cell.marks.append('on the cycle')
        if self.flaw and self.flaw.item is item:
            cell.marks.append('the first flaw: %s' % self.verdict.cause)

    def last_row(self):
        """Below all items: what each thread of a stuck record waits for, and a flaw behind the end of a list."""
        row = []
        for wait in waits_of(self.record):
            cell = Cell(self.scenario.threads.index(wait.thread), [])
            cell.above = str(wait.part.call) if wait.part.call else 'end of the body'
            cell.marks = ['waits: ' + reason(wait, self.told)]
            row.append(cell)
        if self.flaw and self.flaw.item is None:
            cell = Cell(self.flaw.thread, [])
            cell.marks = ['the first flaw: %s' % self.verdict.cause, self.flaw.sentences()[-1]]
            row.append(cell)
        return row

    def goal(self, item):
        """The next change of a change's object, or the one that a look comes after; none where there isn't one."""
        changes = self.told[item.object].changes
        if item.mark == '?':
            return changes[item.at - 1] if 0 < item.at <= len(changes) else None
        place = self.places[item.key] + 1
        return changes[place] if place < len(changes) else None
