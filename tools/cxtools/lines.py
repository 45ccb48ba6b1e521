"""The lines of a picture: for each object from one change to the next, for each thread from its first item to its last,
and from a start to the first item and from the last one to a join."""

from .layout import THREAD


class Spot:
    """A place in a picture: the part, how far right and down in it, and where the row begins that it stands in."""

    def __init__(self, part, right, down, top):
        self.part = part
        self.right = right
        self.down = down
        self.top = top


class Lines:
    """The paths of each part, as texts of SVG."""

    def __init__(self, layout):
        self.layout = layout
        self.paths = [[] for _ in layout.parts]

    def add(self, part, name, way):
        self.paths[part].append('<path class="%s" d="%s"/>' % (name, way))

    def join(self, low, high, name, shift=0):
        """A line from one spot down to another, beside all text: down in the lane of the first to the row of the second,
        along the upper edge of that row, and down to the second. `shift` keeps lines along one edge apart."""
        if (high.part, high.down) < (low.part, low.down):
            self.join_back(low, high, name)
            return
        down = low.down
        for part in range(low.part, high.part):
            self.add(part, name, 'M%g %gV%g' % (low.right, down, self.layout.heights[part]))
            down = 0
        if low.right == high.right:
            self.add(high.part, name, 'M%g %gV%g' % (low.right, down, high.down))
            return
        edge = max(high.top + shift, down + 1)
        round_, turn = min(6, edge - down), 6 if high.right > low.right else -6
        self.add(high.part, name, 'M%g %gV%gQ%g %g %g %gH%gQ%g %g %g %gV%g' % (
            low.right, down, edge - round_, low.right, edge, low.right + turn, edge,
            high.right - turn, high.right, edge, high.right, edge + 6, high.down))

    def join_back(self, low, high, name):
        """A line that goes up, against the order: it leaves to the left and comes in from the left."""
        name += ' back'
        if low.part == high.part:
            left = min(low.right, high.right) - 34
            self.add(low.part, name, 'M%g %gC%g %g %g %g %g %g' % (
                low.right, low.down, left, low.down, left, high.down, high.right, high.down))
            return
        self.add(low.part, name, 'M%g %gV0' % (low.right, low.down))
        for part in range(high.part + 1, low.part):
            self.add(part, name, 'M%g %gV0' % (low.right, self.layout.heights[part]))
        bottom = self.layout.heights[high.part]
        self.add(high.part, name, 'M%g %gC%g %g %g %g %g %g' % (
            low.right, bottom, low.right, bottom - 20, high.right, high.down + 20, high.right, high.down))


def spots(layout):
    """The spot of each item's dot in the lane of its object, or at its thread's edge: a function of the lane."""
    places = {}
    for number, row in enumerate(layout.rows):
        for cell in row:
            for item in cell.items:
                places[item.key] = (layout.part_of[number], layout.lefts[cell.thread], layout.tops[number] + cell.dot,
                                    layout.tops[number])

    def spot(item, right):
        part, left, down, top = places[item.key]
        return Spot(part, left + right, down, top)
    return spot


def draw_lines(layout, record, told, lanes):
    """All lines of a picture, part by part. `lanes` has the number of each object that the record names."""
    lines, spot = Lines(layout), spots(layout)
    for items in record.lists:
        if items:
            lines.join(spot(items[0], THREAD), spot(items[-1], THREAD), 'life')
    for item in record.items():
        if item.mark == '*' and item.words[-1] != 'no-thread':
            other = record.lists[record.scenario.threads.index(item.words[1])]
            if other and item.words[0] == 'join':
                lines.join(spot(other[-1], THREAD), spot(item, THREAD), 'ctl')
            elif other:
                lines.join(spot(item, THREAD), spot(other[0], THREAD), 'ctl')
    for name, number in lanes.items():
        changes = told[name].changes
        for low, high in zip(changes, changes[1:]):
            lines.join(spot(low, layout.lane(number)), spot(high, layout.lane(number)), 'ln k%d' % number,
                       number % 3 * 2.5 - 2.5)
    return lines.paths
