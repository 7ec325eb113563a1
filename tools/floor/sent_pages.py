"""The page for the foreman of an output of `waves`: what goes out, what is left, and which receipts would free most."""

from html import escape

from .figures import counted, length, thousands
from .look import STYLE
from .pages import bar, cell, number, table

WHYS = {'in': 'lies in the wave %s', 'over-cart': 'has %s units, more than a cart holds',
        'short': 'wants %s %s, of which %s are free in its turn', 'later': 'goes out with a later wave'}


def why_of(left):
    """Why an order is left, in words."""
    if left.why == 'short':
        article, wanted, free = left.rest
        return WHYS['short'] % (thousands(int(wanted)), escape(article), thousands(int(free)))
    text = WHYS[left.why]
    return text % escape(left.rest[0]) if left.rest else text


def ranks_of(wave):
    return str(wave.least) if wave.least == wave.greatest else '%d to %d' % (wave.least, wave.greatest)


def of_waves(waves, unit):
    """A row for each wave."""
    most = max((wave.start for wave in waves), default=0)
    rows = [(cell('<b>%s</b>' % escape(wave.name)), number(len(wave.orders)), cell(ranks_of(wave), 'right'),
             cell(length(wave.start, unit), 'right'), bar(wave.start, most), cell(escape(', '.join(wave.orders))))
            for wave in waves]
    return '<h2>Waves</h2>' + (table(('wave', '>orders', '>ranks', '>start', '', 'orders'), rows) if rows else
                               '<p>No wave goes out.</p>')


def of_left(left):
    """A row for each order that is left."""
    rows = [(cell(escape(each.order)), cell(why_of(each))) for each in left]
    return '<h2>Left</h2>' + (table(('order', 'why'), rows) if rows else '<p>No open order is left.</p>')


def of_receipts(receipts):
    """A row for each article of which a receipt would free orders; nothing where that isn't known."""
    if receipts is None:
        return ''
    rows = [(cell(escape(each.article)), number(each.freed), number(each.units), number(each.short))
            for each in receipts]
    told = ('<p>If enough of an article came, so many orders more would be served, each in its turn, and so many units '
            'more than are free would be wanted for all.</p>')
    return '<h2>Receipts that free most orders</h2>' + (
        told + table(('article', '>orders freed', '>units', '>orders short of it first'), rows) if rows else
        '<p>No receipt of a single article frees an order.</p>')


def page(output, receipts, unit):
    """The whole page, which needs no other file."""
    walk = length(sum(wave.start for wave in output.waves), unit)
    told = '%s with %s to send out, and %s left. Their starts come to %s.' % (
        counted(len(output.waves), 'wave'), counted(sum(len(wave.orders) for wave in output.waves), 'order'),
        counted(len(output.left), 'order') + (' is' if len(output.left) == 1 else ' are'), walk)
    parts = ('<h1>Waves to send out</h1><p class="facts">%s</p>' % told, of_waves(output.waves, unit),
             of_left(output.left), of_receipts(receipts))
    return ('<!DOCTYPE html>\n<html lang="en"><head><meta charset="utf-8">'
            '<meta name="viewport" content="width=device-width,initial-scale=1">'
            '<title>Waves to send out</title><style>%s</style></head><body>\n<section>%s</section>\n</body></html>\n'
            % (STYLE, ''.join(parts)))
