"""The pages of a cart. How much goes onto a sheet of paper is reckoned here, so that each further sheet has a head of
its own with its number."""

import re
import zlib
from collections import namedtuple
from html import escape
from urllib.parse import quote

from . import drawing
from .bar_codes import bar_code
from .figures import counted, length, thousands
from .since import remark

# How sheets are told: the day's name, when it was planned, the unit of length, whether picks have bar codes, what was
# missing, and the pickers by batch.
Told = namedtuple('Told', 'name run unit codes missing pickers')

# Millimetres of an A4 sheet within its margins, and of what stands on it, as look.py has it.
WIDE, ROOM = 186, 270
HEAD, TITLE, LINE, HEADINGS, ROW, NOTE, CODES = 16, 6.8, 5.1, 7.6, 9.2, 7.5, 11
SIGN, SMALL = 2.8, 2.3  # the widest that a sign of a name and one of running text are on the mean
ARTICLE, ORDER = 20, 12  # signs of a name in a line of its column


def lines_of(text, signs):
    return -(-len(text) // signs)


def place_of(wave, batch):
    return 'cart-%s-%d' % (quote(wave.name, safe=''), batch.number)


def key_of(told, wave, batch):
    """By what a browser keeps the ticks of a cart: its day, its name, and a sum of its picks, so that another plan of
    the day begins without ticks."""
    return '%s/%s/%d/%08x' % (told.name, wave.name, batch.number, zlib.crc32(repr(batch.picks).encode()))


def row_of(told, wave, stop, pick, place):
    """The rows of one pick, and how high they are on paper."""
    notes = remark(told.missing, (wave.name, pick.order, pick.location))
    cells = (str(stop), escape(pick.location), escape(pick.article), thousands(pick.quantity),
             '<b>%d</b> %s' % (place, escape(pick.order)), '<input type="checkbox">')
    row = ''.join('<td>%s</td>' % cell for cell in cells)
    text = '<tr%s>%s</tr>' % (' class="has-note"' if notes or told.codes else '', row)
    high = max(ROW, LINE * max(lines_of(pick.article, ARTICLE), lines_of(pick.order, ORDER)) + 2.5)
    if notes:
        note, more = '; '.join(notes), ' has-note' if told.codes else ''
        text += '<tr class="note%s"><td colspan="6">%s</td></tr>' % (more, _unbroken(escape(note)))
        high += max(NOTE, LINE * lines_of(note, 60) + 2.5)
    if told.codes:
        text += '<tr class="codes"><td colspan="6">%s%s</td></tr>' % (bar_code(pick.location), bar_code(pick.article))
        high += CODES
    return text, high


def _unbroken(text):
    """A text whose locations are broken at no hyphen."""
    return re.sub(r'\d+-\d+-[LR]', r'<span class="place">\g<0></span>', text)


def sheets_of(rows, first, later):
    """Rows with their heights, dealt to sheets of paper: the first has less room for them than the others. A row that
    is too high goes alone."""
    sheets, room = [[]], first
    for text, high in rows:
        if high > room and (sheets[-1] or len(sheets) == 1):
            sheets.append([])
            room = later
        sheets[-1].append(text)
        room -= high
    return sheets


def facts_of(told, wave, batch, walk):
    """What stands above the drawing, line by line."""
    units = sum(pick.quantity for pick in batch.picks)
    room = ' of %s that the cart holds' % thousands(wave.units) if wave.units is not None else ''
    yield 'Places on the cart: %s.' % ', '.join('<b>%d</b> %s' % (place, escape(order))
                                                for place, order in enumerate(batch.orders, 1))
    yield '%s, %s, %s%s; the tour is %s long, and no shorter one passes all of them.' % (
        counted(len(walk), 'stop'), counted(len(batch.picks), 'pick'), counted(units, 'unit'), room,
        length(batch.length, told.unit))
    if batch.rules:
        yield 'By usual rules the walk is: %s.' % ', '.join(
            '%s %s (%s longer)' % (escape(rule.name), thousands(rule.length), thousands(rule.surplus))
            for rule in batch.rules)


def high_of(facts):
    """How high the facts are on paper: the first is of names."""
    texts = [re.sub('<[^>]*>', '', fact) for fact in facts]
    lines = [lines_of(texts[0], int(WIDE / SIGN)), *(lines_of(text, int(WIDE / SMALL)) for text in texts[1:])]
    return 2 + LINE * sum(lines)


def told_unit(told):
    return 'lengths in %s' % escape(told.unit) if told.unit else 'lengths in the unit of the layout file'


def head_of(told, wave, batch, page, pages):
    """The head of a sheet of paper."""
    picker = told.pickers.get('%s/%d' % (wave.name, batch.number))
    whose = ['Walked by picker <b>%d</b>' % picker] if picker else []
    run = ' &middot; '.join([escape(told.run), told_unit(told), *whose])
    return ('<header class="head"><h1>Wave %s, cart %d of %d</h1><p class="of">page %d of %d</p><p class="run">%s</p>'
            '<p class="fields"><span>Name</span><span>Time</span></p></header>'
            % (escape(wave.name), batch.number, len(wave.batches), page, pages, run))


def picks_of(rows):
    heads = ''.join('<th>%s</th>' % head for head in ('stop', 'location', 'article', 'take', 'place, order', 'done'))
    return '<table class="picks"><thead><tr>%s</tr></thead><tbody>%s</tbody></table>' % (heads, ''.join(rows))


def of_batch(layout, told, wave, batch):
    """The pages of a cart: its orders, the drawing of its tour, and its picks in the order of the walk."""
    walk, places = batch.walk(), {order: place for place, order in enumerate(batch.orders, 1)}
    rows = [row_of(told, wave, stop, pick, places[pick.order]) for stop, (_, picks) in enumerate(walk, 1)
            for pick in picks]
    facts = list(facts_of(told, wave, batch, walk))
    title = HEAD + TITLE * lines_of('Wave %s, cart %d of %d' % (wave.name, batch.number, len(wave.batches)), 36)
    later = ROOM - title - HEADINGS
    sheets = sheets_of(rows, later - high_of(facts) - drawing.high_on(layout, WIDE) - 3, later)
    picture = drawing.drawing(layout, batch, 'block', 'the tour of wave %s, cart %d' % (wave.name, batch.number))
    body = '<p class="facts">%s</p><div class="picture">%s</div>' % ('<br>'.join(facts), picture)
    pages = []
    for page, some in enumerate(sheets, 1):
        head = head_of(told, wave, batch, page, len(sheets)) + (body if page == 1 else '')
        rest = picks_of(some) if some else ''
        pages.append('<div class="page%s">%s%s</div>' % (' again' if page > 1 else '', head, rest))
    key = escape(key_of(told, wave, batch))
    return '<section id="%s" class="cart" data-key="%s">%s</section>' % (place_of(wave, batch), key, ''.join(pages))
