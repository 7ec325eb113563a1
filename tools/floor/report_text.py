"""A report as text for a terminal, and how its values are told there and on its page."""

from fractions import Fraction

from .figures import THIN, tenths, thousands
from .report_tables import COUNT, LENGTH, NAME, TEXT, tables_of

SHOWN = 20  # so many rows of what stands behind the days are shown


class Form:
    """How values are told: lengths in metres where it is known how many units of the layout one has, else in these."""

    def __init__(self, per_metre):
        self.per_metre = per_metre
        self.unit = 'metres' if per_metre else 'own units'

    def heading(self, column):
        return column.heading % self.unit if '%' in column.heading else column.heading

    def value(self, value, kind):
        """A value with its thousands set apart, and with one decimal where it need not be whole."""
        if value is None:
            return '-'
        if kind in (TEXT, NAME):
            return str(value)
        if kind == LENGTH and self.per_metre:
            value = Fraction(value) / self.per_metre
        is_whole = isinstance(value, int) and kind in (COUNT, LENGTH)
        return thousands(value) if is_whole else tenths(value, 1)

    def units(self):
        """A line that says what lengths are told in."""
        if not self.per_metre:
            return 'lengths in the days\' own units, those of the layout file'
        is_whole = self.per_metre.denominator == 1
        return 'lengths in metres, of %s units of the layout file each' % (int if is_whole else float)(self.per_metre)


def shown_rows(table):
    """The rows of a table that are shown, and a line that says how many are left out. Of days none is."""
    left = 0 if table.columns[0].key == 'day' else len(table.rows) - SHOWN
    return (table.rows[:SHOWN], 'rows left out: %d, which --json and --tables have' % left) if left > 0 else (
        table.rows, '')


def lines_of(table, form):
    """The lines of a table, its columns side by side: texts from the left, numbers from the right."""
    rows, rest = shown_rows(table)
    cells = [[form.heading(column) for column in table.columns]]
    cells += [[form.value(row.get(column.key), column.kind).replace(THIN, '') for column in table.columns]
              for row in rows]
    wides = [max(map(len, each)) for each in zip(*cells)]
    yield table.title
    for row in cells:
        yield '  '.join(text.ljust(wide) if column.kind in (TEXT, NAME) else text.rjust(wide)
                        for text, wide, column in zip(row, wides, table.columns)).rstrip()
    if rest:
        yield rest


def text_of(report):
    """The whole report, line by line."""
    form, count = Form(report.per_metre), len(report.days)
    yield '%d day%s, %s' % (count, '' if count == 1 else 's', form.units())
    for table in tables_of(report):
        yield ''
        yield from lines_of(table, form)
    if report.notes:
        yield ''
        yield from report.notes
