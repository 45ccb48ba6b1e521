"""Where everything of a picture stands: columns, rows, their heights, and the parts of a page's height that rows form."""

LETTER = 7.9            # the width of a letter of an item's line, in pixels
NUMBERS = 46            # the width of the column with the numbers of the rows
LANE = 9                # from one object's lane to the next, left of a column's text
LANES = 8
THREAD = 8              # from a column's left edge to the line of its thread
EDGE = 20               # from a column's left edge to its first lane
ITEM, SMALL, PAD = 20, 16, 6    # the heights of an item's line, of a smaller one, and above and below a cell
HEAD = 30               # the height of the row with the names of the threads
PORTRAIT, LANDSCAPE = (718, 1040), (1040, 718)  # what a sheet holds, in pixels
LEAST_ZOOM = 0.5


class Cell:
    """One or two items of a thread in one row: an act with the reply that follows it, with the lines above and below."""

    def __init__(self, thread, items):
        self.thread = thread
        self.items = items
        self.above = ''
        self.lowered = False    # whether room for a line above is kept, as another cell of the row has one
        self.state = ''
        self.marks = []

    @property
    def height(self):
        small = (self.lowered or bool(self.above)) + bool(self.state) + len(self.marks)
        return ITEM * bool(self.items) + SMALL * small + 2 * PAD

    @property
    def letters(self):
        line = sum(len(str(item)) + 2 for item in self.items)
        return max([line] + [len(text) * 0.93 for text in [self.above, self.state] + self.marks])

    @property
    def dot(self):
        """How far below the top of its row the middle of the item's line is."""
        return PAD + SMALL * (self.lowered or bool(self.above)) + ITEM / 2


class Layout:
    """Columns and rows of a picture; `rows` are lists of cells from top to bottom."""

    def __init__(self, threads, rows, lanes):
        self.rows = rows
        self.lanes = min(max(lanes, 1), LANES)
        self.gutter = EDGE + LANE * self.lanes + 4
        self.widths = self.column_widths(threads)
        self.lefts = [NUMBERS + sum(self.widths[:number]) for number in range(len(threads))]
        self.width = NUMBERS + sum(self.widths)
        self.sheet, self.zoom = self.fit_sheet()
        self.parts = self.split()
        self.place_rows()

    def column_widths(self, threads):
        most = [max(10, len(name) + 2) for name in threads]
        for row in self.rows:
            for cell in row:
                most[cell.thread] = max(most[cell.thread], min(cell.letters, 48))
        return [int(letters * LETTER) + self.gutter + 10 for letters in most]

    def fit_sheet(self):
        """The sheet to print on, and by how much the picture shrinks so that its columns fit; where they would become
        too small the sheet grows with them."""
        for sheet in (PORTRAIT, LANDSCAPE):
            if sheet[0] / self.width >= 0.75 or (sheet is LANDSCAPE and sheet[0] / self.width >= LEAST_ZOOM):
                return sheet, min(0.9, sheet[0] / self.width)
        wide = int(self.width * LEAST_ZOOM) + 1
        return (wide, max(LANDSCAPE[1], int(wide / 1.4))), LEAST_ZOOM

    def split(self):
        """The rows of each part: two parts fill a sheet."""
        most = self.sheet[1] / self.zoom / 2 - HEAD - 20
        parts, height = [], most + 1
        for number, row in enumerate(self.rows):
            mine = row_height(row)
            if height + mine > most:
                parts.append([])
                height = 0
            parts[-1].append(number)
            height += mine
        return parts

    def place_rows(self):
        """Tells of each row which part it stands in and how far below the part's head, and how high each part is."""
        self.part_of, self.tops, self.heights = [], [], []
        for number, part in enumerate(self.parts):
            top = 0
            for row in part:
                self.part_of.append(number)
                self.tops.append(top)
                top += row_height(self.rows[row])
            self.heights.append(top)

    def lane(self, number):
        """How far right of a column's left edge the lane of an object is."""
        return EDGE + LANE * (number % self.lanes)


def row_height(row):
    return max(cell.height for cell in row)
