"""The page of `slotting`: the exchanges, where they lie, and what they do to days that the choice didn't see."""

from html import escape

from . import drawing
from .figures import counted, percent, thousands
from .look import STYLE
from .output import slot_of
from .pages import bar, cell, number, table

# The lines of exchanges in the drawing, and a narrow column for bars.
OWN_STYLE = '''.move{stroke:#1463b0;stroke-width:2;fill:none}.end{stroke:#1463b0;stroke-width:9;stroke-linecap:round}
.loads td:last-child{width:20%;min-width:4em}.drawn{break-inside:avoid}'''


def signed(part, whole):
    """A difference in percent with its sign."""
    told = percent(part, whole)
    return told.replace('-', '\u2212') if told.startswith('-') else '+' + told


def goes(row, other):
    """Where the article of a row goes."""
    return '<b>%s</b> <span class="place">%s</span> to <span class="place">%s</span>' % (
        escape(row.article), row.location, other.location)


def of_exchange(found, place, each):
    """The cells of an exchange: each article with the way that it goes."""
    ways = '<br>'.join('%s<br>%s' % (goes(*pair), goes(*reversed(pair))) for pair in each.rows)
    days = 'never' if each.pays_after() is None else counted(each.pays_after(), 'day')
    taken = days if place <= found.taken else days + ',<br>not taken'
    return (number(place), cell(ways), number(each.saves()), number(each.after), cell(taken, 'right'),
            bar(max(each.saves(), 0), max(other.saves() for other in found.exchanges)))


def of_exchanges(found):
    rows = [of_exchange(found, place, each) for place, each in enumerate(found.exchanges, 1)]
    heads = ('>', 'articles', '>saves', '>walk after', '>pays after', '')
    return '<h2>Exchanges</h2>' + table(heads, rows, 'loads') if rows else '<p>No exchange was found that saves.</p>'


def line_of(layout, place, pair):
    """An exchange in the drawing: a line between its two places, with its number in the middle."""
    (x0, y0), (x1, y1) = (drawing.scale_of(layout).point(slot_of(row.location)) for row in pair)
    x, y, wide = (x0 + x1) / 2, (y0 + y1) / 2, drawing.wide_of(place) + 6
    return ('<path class="move" d="M%.1f %.1fL%.1f %.1f"/><path class="end" d="M%.1f %.1fh0M%.1f %.1fh0"/>'
            '<rect class="tag" x="%.1f" y="%.1f" width="%.1f" height="%d"/><text class="n" x="%.1f" y="%.1f">%d</text>'
            % (x0, y0, x1, y1, x0, y0, x1, y1, x - wide / 2, y - drawing.HIGH_TAG / 2, wide, drawing.HIGH_TAG, x,
               y + 0.36 * drawing.LETTERS, place))


def picture(found):
    """A drawing of the block with the exchanges that are taken."""
    lines = [line_of(found.layout, place, pair) for place, each in enumerate(found.exchanges[:found.taken], 1)
             for pair in each.rows]
    size = 'viewBox="0 0 %d %.0f" width="100%%"' % (drawing.WIDE, drawing.scale_of(found.layout).height)
    return ('<div class="drawn"><h2>Where they lie</h2><svg xmlns="http://www.w3.org/2000/svg" role="img" %s>%s%s%s'
            '</svg></div>') % (size, drawing.STYLE, drawing.block(found.layout), ''.join(lines)) if lines else ''


def of_judged(found):
    """How the walk of each day changes with each exchange that is taken."""
    walks = {'the day itself': [found.exchanges[0].before, *(each.after for each in found.exchanges[:found.taken])],
             **found.judged} if found.taken else {}
    rows = [(cell('before' if not place else 'after %d' % place), *(walk_cell(each[0], each[place])
                                                                    for each in walks.values()))
            for place in range(found.taken + 1)]
    told = '<p class="facts">Days that the choice didn\'t see judge it: a layout that fits one day fits no other.</p>'
    return '<h2>Other days</h2>%s%s' % (told, table(('', *('>' + escape(name) for name in walks)), rows)) \
        if found.judged and walks else ''


def walk_cell(before, walk):
    if walk is None:
        return cell('other units', 'right')
    return cell('%s, %s' % (thousands(walk), signed(walk - before, before)), 'right') if walk != before \
        else number(walk)


def told_of(found):
    """What was found, in words."""
    told = 'Tried by planning the whole day again: %s. Exchanges that save: %d, of which %d pay.%s' % (
        thousands(found.tried), len(found.exchanges), found.taken,
        ' Lengths in %s.' % escape(found.unit) if found.unit else '')
    if not found.taken:
        return told
    before, after = found.exchanges[0].before, found.exchanges[found.taken - 1].after
    return told + ' With these the day walks %s in place of %s, %s.' % (thousands(after), thousands(before),
                                                                      signed(after - before, before))


def page(found):
    """The whole page, which needs no other file."""
    parts = ('<h1>Where to put it</h1><p class="facts">%s</p>' % told_of(found), of_exchanges(found), picture(found),
             of_judged(found))
    return ('<!DOCTYPE html>\n<html lang="en"><head><meta charset="utf-8">'
            '<meta name="viewport" content="width=device-width,initial-scale=1">'
            '<title>Where to put it</title><style>%s</style></head><body>\n<section>%s</section>\n</body></html>\n'
            % (STYLE + OWN_STYLE, ''.join(parts)))
