"""A benchmark as one HTML page that needs no other file: its table, a picture of its gaps, and what it was made by."""

from html import escape

from .benchmark_rows import LEGEND, NUMBERS, failures, headings_of, results_of, table_of, way_cells
from .benchmark_tables import machine_of, notes_of, program_of
from .look import STYLE
from .measures import spread_of
from .pages import cell, table

OWN_STYLE = '''@page{size:A4 landscape}body{max-width:273mm}small{white-space:nowrap}td small{color:#333}
.figures{font-size:9pt}.figures th,.figures td{padding:.8mm 1mm}.figures th{line-height:1.2;white-space:nowrap}
code{overflow-wrap:anywhere}
.gaps td:last-child{width:45%;min-width:40mm}.gaps svg{display:block;width:100%;height:4.5mm}'''
TITLE = 'Benchmark'
MEASURED_FROM = 'cost'  # the first heading of what runs came to


def heading_of(name):
    """A heading as the table of pages takes it: those of numbers stand to the right."""
    return '>' + name if name in NUMBERS else name


def spread_cell(text, name):
    """A cell with a spread on two lines."""
    first, bracket, rest = escape(text).partition(' (')
    broken = '%s<br><small>%s</small>' % (first, rest.rstrip(')')) if bracket else first
    return cell(broken, 'right' if name in NUMBERS else '')


def figure_cells(row, headings, texts):
    """The cells of a row of the table. Why there are no figures stands across the columns of all of them."""
    cells = [spread_cell(text, name) for text, name in zip(texts, headings)]
    if results_of(row):
        return cells
    place = headings.index(MEASURED_FROM)
    return cells[:place] + ['<td colspan="%d">%s</td>' % (len(headings) - place, escape(texts[place]))]


def figures_of(rows):
    """The table with all figures."""
    headings, cells = table_of(rows)
    body = [figure_cells(row, headings, texts) for row, texts in zip(rows, cells)]
    return table(map(heading_of, headings), body, 'figures')


def picture_of(found, most):
    """A bar from the least to the greatest of a spread, with a mark at the mean; the whole width stands for the
    most."""
    low, mean, high = (100 * value / most if most else 0 for value in (found.least, found.mean, found.greatest))
    told = '<title>%.2f to %.2f %%, the mean %.2f %%</title>' % (found.least, found.greatest, found.mean)
    bars = ('<rect x="0" y="45%%" width="100%%" height="10%%" fill="#ddd"/><rect x="%.2f%%" y="25%%" width="%.2f%%" '
            'height="50%%" fill="#1463b0"/><rect x="%.2f%%" y="0" width="2" height="100%%" fill="#000"/>')
    return '<svg xmlns="http://www.w3.org/2000/svg" role="img">%s%s</svg>' % (
        told, bars % (low, max(high - low, 0.2), min(mean, 99.5)))


def gaps_of(rows):
    """A picture of the gap of each row."""
    found = [(row, spread_of(results_of(row), 'gap')) for row in rows if results_of(row)]
    if not found:
        return ''
    most = max(each.greatest for _, each in found)
    if not most:
        return '<h2>Gaps</h2><p class="facts">There is none.</p>'
    headings = headings_of(rows)
    headings = headings[:headings.index(MEASURED_FROM)]
    body = [[*(cell(escape(way_cells(row)[name]), 'right' if name in NUMBERS else '') for name in headings),
             cell('%.2f' % each.mean, 'right'), cell(picture_of(each, most))] for row, each in found]
    heads = [*map(heading_of, headings), '>mean', 'gap from 0 to %.2f %%' % most]
    return '<h2>Gaps</h2><p class="facts">From the least to the greatest; the mark is the mean.</p>' + table(
        heads, body, 'figures gaps')


def failures_of(rows):
    lines = ''.join('<li>%s</li>' % escape(line) for line in failures(rows))
    return '<h2>What came to nothing</h2><ul>%s</ul>' % lines if lines else ''


def page_of(rows, made):
    """The page."""
    facts = ['%s; %s; %s.' % (made.date, program_of(made), machine_of(made)), LEGEND]
    told = ''.join('<p class="facts">%s</p>' % escape(text) for text in [*facts, *notes_of(made)])
    head = ('<!DOCTYPE html>\n<html lang="en"><head><meta charset="utf-8">'
            '<meta name="viewport" content="width=device-width,initial-scale=1">'
            '<title>%s</title><style>%s\n%s</style></head><body><section>' % (TITLE, STYLE, OWN_STYLE))
    command = '<p class="facts"><code>%s</code></p>' % escape(made.command)
    return ''.join([head, '<h1>%s</h1>' % TITLE, command, figures_of(rows), failures_of(rows), gaps_of(rows),
                    '<h2>How it was made</h2>', told, '</section></body></html>\n'])
