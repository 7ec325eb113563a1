"""What is told of the cells of a table that can't be read: a line for each cause, and then some of the cells."""

from collections import namedtuple

SHOWN = 10

# A cell with the number of its line, the name of its column and its place in the row, counted from 0, why it can't be
# read, and the cause, which other cells may share.
Cell = namedtuple('Cell', 'line column place text why cause')


class Complaints:
    """The cells of a table that can't be read, in the order in which they were found."""

    def __init__(self):
        self.cells = []

    def tell(self, *cell):
        self.cells.append(Cell(*cell))

    def causes(self):
        """The cells by their column and cause."""
        found = {}
        for cell in self.cells:
            found.setdefault((cell.column, cell.place, cell.cause), []).append(cell)
        return list(found.values())

    def lines(self, shows_all):
        """What is told: each cause, then at most ten of the further cells, or all."""
        causes = self.causes()
        yield from map(of_cause, causes)
        further = sorted(cell for cells in causes for cell in cells[1:])
        shown = further if shows_all else further[:SHOWN]
        yield from map(place_of, shown)
        if len(shown) < len(further):
            yield 'and %d cells more, which --all tells too' % (len(further) - len(shown))


def place_of(cell):
    return 'line %d, column %s, "%s"' % (cell.line, cell.column, cell.text)


def of_cell(cell):
    return '%s: %s' % (place_of(cell), cell.why)


def of_cause(cells):
    first = cells[0]
    if len(cells) == 1:
        return of_cell(first)
    return 'column %d (%s), %d cells: %s; the first is "%s" in line %d' % (
        first.place + 1, first.column, len(cells), first.why, first.text, first.line)
