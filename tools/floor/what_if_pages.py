"""The page of `what-if`: a bar for each choice, the least walk first, and a table of all figures."""

from html import escape

from .figures import percent, tenths, thousands
from .look import STYLE
from .pages import bar, cell, number, table as table_of


# The names of choices keep their words whole, also on a phone.
OWN_STYLE = '''td:first-child{min-width:9em;overflow-wrap:normal}
@media screen and (max-width:640px){td:first-child{min-width:6.5em}.loads td:last-child{width:20%;min-width:4em}}'''


def changed(value):
    """A difference from today in percent."""
    return cell('&ndash;' if value is None else ('%+.1f\u202f%%' % value).replace('-', '\u2212'), 'right')


def named(table, row):
    """The name of a choice."""
    return '<b>%s</b>' % escape(row.label) if row is table.today else escape(row.label)


def of_bars(table, rows):
    """A bar for each row, the least walk first."""
    rows = sorted(rows, key=lambda row: row.walk().length)
    most = rows[-1].walk().length
    cells = [(cell(named(table, row)), number(row.walk().length),
              changed(None if row is table.today else table.change(row)), bar(row.walk().length, most))
             for row in rows]
    walk = 'walk in %s' % escape(table.unit) if table.unit else 'walk'
    return '<h2>Walk, the least first</h2>' + table_of(('', '>' + walk, '>from today', ''), cells, 'loads')


def of_other(table, rows):
    """The choices with which other units are picked, which have no bars."""
    cells = [(cell(escape(row.label)), cell(escape(table.lack(row)))) for row in rows if table.lack(row)]
    return '<h2>With other work than today</h2>' + table_of(('choice', 'picked'), cells) if cells else ''


def of_row(table, row):
    figures, walk = row.figures, row.walk()
    none = cell('&ndash;', 'right')
    a_line = tenths(walk.length, figures.lines * (table.of_metre or 1)) if figures.lines else '&ndash;'
    return (cell(named(table, row)), number(walk.length), cell(a_line, 'right'), number(figures.lines),
            number(figures.carts), number(walk.longest) if walk.longest is not None else none,
            cell('%d of %d' % (figures.proven, figures.waves), 'right') if row.is_by_tours() else none,
            cell(percent(walk.length - figures.bound, walk.length), 'right') if row.gap() is not None else none,
            cell('%.2f' % figures.seconds, 'right'))


def of_refused(table):
    rows = [(cell(escape(row.label)), cell(escape(row.why))) for row in table.rows if row.why]
    return '<h2>Refused</h2>' + table_of(('choice', 'why'), rows) if rows else ''


def page(table):
    """The whole page, which needs no other file."""
    rows = [table.today, *(row for row in table.rows if not row.why)]
    same = [row for row in rows if not table.lack(row)]
    heads = ('', '>walk', '>' + table.a_line(), '>lines', '>carts', '>longest load', '>waves proven', '>gap',
             '>seconds')
    figures = '<h2>All figures</h2>' + table_of(heads, [of_row(table, row) for row in rows])
    told = ('The same day with other choices, each planned anew: %s lines on %s carts today. '
            'Waves that were cancelled later don\'t count.') % (thousands(table.today.figures.lines),
                                                                 thousands(table.today.figures.carts))
    parts = ('<h1>What if</h1><p class="facts">%s</p>' % told, of_bars(table, same), figures, of_other(table, rows),
             of_refused(table))
    return ('<!DOCTYPE html>\n<html lang="en"><head><meta charset="utf-8">'
            '<meta name="viewport" content="width=device-width,initial-scale=1">'
            '<title>What if</title><style>%s</style></head><body>\n<section>%s</section>\n</body></html>\n'
            % (STYLE + OWN_STYLE, ''.join(parts)))
