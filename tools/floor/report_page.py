"""A report as one HTML file that needs no other file, no network and no script: figures, charts and tables."""

from fractions import Fraction
from html import escape

from . import report_charts
from .day_figures import RULES
from .figures import counted
from .look import STYLE
from .pages import cell, table
from .report_charts import Bar
from .report_tables import COUNT, LENGTH, NAME, NO_HOUR, SHARE, TEXT, tables_of
from .report_text import Form, shown_rows

MOST_BARS = 12  # more days than so many are shown as columns
# Headings break where a table is not scrolled aside.
MORE_STYLE = report_charts.STYLE + '.text{min-width:55mm}@media print,(min-width:641px){th.right{white-space:normal}}'


def page_of(report):
    """The whole file, piece by piece."""
    form = Form(report.per_metre)
    count = len(report.days)
    title = 'Report of %s' % ('%d days' % count if count > 1 else report.days[0]['day'])
    yield ('<!DOCTYPE html>\n<html lang="en"><head><meta charset="utf-8">'
           '<meta name="viewport" content="width=device-width,initial-scale=1">'
           '<title>%s</title><style>%s</style></head><body>\n' % (escape(title), STYLE + MORE_STYLE))
    yield ('<section><h1>%s</h1><p class="facts">%s. Waves that were cancelled later count in no figure of waves, '
           'carts and walks.</p>\n' % (escape(title), escape(form.units().capitalize())))
    yield ''.join('<p class="facts">%s</p>\n' % escape(note) for note in report.notes)
    yield totals_of(report, form)
    for each in tables_of(report):
        yield '<h2>%s</h2>\n%s%s\n' % (escape(each.title), chart_of(each, report, form), table_of(each, form))
    yield '</section></body></html>\n'


def totals_of(report, form):
    """What all days come to, in boxes."""
    facts = (('waves', 'waves', COUNT), ('waves proven, percent', 'proven_percent', SHARE),
             ('mean gap, percent', 'gap_percent', SHARE), ('orders', 'orders', COUNT), ('carts', 'carts', COUNT),
             ('carts full by orders, percent', 'orders_percent', SHARE),
             ('carts full by units, percent', 'units_percent', SHARE), ('lines', 'lines', COUNT),
             ('units', 'units', COUNT), ('walk in %s' % form.unit, 'walk', LENGTH),
             ('%s a line' % form.unit, 'walk_a_line', LENGTH), ('refused commands', 'refused', COUNT))
    boxes = ''.join('<div>%s<b>%s</b></div>' % (name, form.value(report.sum[key], kind))
                    for name, key, kind in facts if report.sum[key] is not None)
    return '<div class="totals">%s</div>\n' % boxes


def table_of(each, form):
    """A table; the lines of sum and mean are bold."""
    rows, rest = shown_rows(each)
    heads = [('' if column.kind in (TEXT, NAME) else '>') + escape(form.heading(column)) for column in each.columns]
    body = [[cell_of(row, column, form) for column in each.columns] for row in rows]
    return table(heads, body) + ('<p class="facts">%s</p>' % escape(rest) if rest else '')


def cell_of(row, column, form):
    text = escape(form.value(row.get(column.key), column.kind))
    return cell('<b>%s</b>' % text if row.get('last') else text, {TEXT: 'text', NAME: 'name'}.get(column.kind, 'right'))


def chart_of(each, report, form):
    """The chart above a table, nothing above those that have none."""
    charts = {'days': walk_by_day, 'rules': walk_by_rules, 'hours': walk_by_hour, 'loads': loads,
              'short': short_articles, 'missing': missing}
    return charts[each.name](shown_rows(each)[0], report, form) if each.name in charts else ''


def walk_by_day(rows, report, form):
    """Two charts, where there are several days: their walks, and their walks a line."""
    if len(report.days) < 2:
        return ''
    charts = []
    for key, name in (('walk', 'Walk by day, in %s'), ('walk_a_line', 'Walk a line by day, in %s')):
        name = name % form.unit
        found = [Bar(row['day'], form.value(row[key], LENGTH), [Fraction(row[key] or 0)]) for row in report.days]
        draw = report_charts.bars if len(found) <= MOST_BARS else report_charts.columns
        charts.append('<p class="facts">%s</p>%s' % (name, draw(name, found)))
    return ''.join(charts)


def walk_by_rules(rows, report, form):
    """The tours of all carts of which rules are told, and what each rule walks past their picks."""
    toured = max(report.counts[key + '_tours'] for key in RULES.values())
    found = [('the tours', toured), *((name, report.counts[key]) for name, key in RULES.items())]
    name = 'Walk of the tours and by usual rules, in %s' % form.unit
    chart = report_charts.bars(name, [Bar(label, form.value(walk, LENGTH), [walk]) for label, walk in found])
    return '<p class="facts">%s</p>%s' % (name, chart) if toured else ''


def walk_by_hour(rows, report, form):
    found = [('no time' if row['hour'] == NO_HOUR else row['hour'] + ':00', row) for row in rows]
    return report_charts.bars('Walk by hour', [
        Bar('%s, %s' % (hour, counted(row['carts'], 'cart')), form.value(row['walk'], LENGTH), [row['walk']])
        for hour, row in found])


def loads(rows, report, form):
    return report_charts.bars('Load of each picker', [
        Bar('picker %d' % row['picker'], form.value(row['load'], LENGTH), [row['load']]) for row in rows])


def short_articles(rows, report, form):
    return report_charts.bars('Units that would have covered short articles', [
        Bar(row['article'], form.value(row['lacking'], COUNT), [row['lacking']]) for row in rows])


def missing(rows, report, form):
    chart = report_charts.bars('Units that were missing', [
        Bar('%s %s' % (row['location'], row['article']),
            '%s refilled, %s lost' % tuple(form.value(row[key], COUNT) for key in ('refilled', 'lost')),
            [row['refilled'], row['lost']]) for row in rows])
    return '<p class="facts">Dark: held elsewhere in their place. White: lost.</p>' + chart
