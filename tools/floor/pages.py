"""The pages of a day as one HTML file that needs no other file: for the planner, for each cart, for refills and for
pickers."""

from html import escape
from math import comb
from zlib import crc32

from . import drawing
from .cart_pages import Told, of_batch, place_of, told_unit
from .figures import hundredths, length, length_of_line, percent, thousands
from .look import SCRIPT, STYLE
from .output import name_of
from .refused_commands import cause_of
from .shortages import WAITS, short_of
from .since import cancelled, left_refills, missing


def cell(text, cls=''):
    return '<td%s>%s</td>' % (' class="%s"' % cls if cls else '', text)


def number(value):
    """A number with its thousands set apart."""
    return cell(thousands(value), 'right')


def bar(value, most):
    """A bar as long as a number is, beside the greatest one."""
    return cell('<div class="bar" style="width:%.1f%%"></div>' % (100 * value / most if most else 0))


def table(headings, rows, cls='names'):
    heads = ''.join('<th%s>%s</th>' % (' class="right"' if head.startswith('>') else '', head.lstrip('>'))
                    for head in headings)
    body = ''.join('<tr>%s</tr>' % ''.join(row) for row in rows)
    return '<table class="%s"><thead><tr>%s</tr></thead><tbody>%s</tbody></table>' % (cls, heads, body)


def price(orders, capacity):
    """The budget that pays for a node of a wave's tree: docs/BATCHES.md says why."""
    return (4 * orders + 4) * sum(comb(orders, size) for size in range(min(orders, capacity) + 1))


def state_of(wave):
    told = 'proven: no way to put its orders into carts is shorter'
    if wave.state != 'proven':
        budget = thousands(price(wave.size, wave.capacity))
        told = 'open: a better one may be there. A budget of %s, or --nodes 1, pays for a node of its tree' % budget
    return told + ('. <b>Cancelled later</b>' if wave.cancelled else '')


def walked(day):
    """The waves that weren't cancelled, whose carts are walked."""
    return [wave for wave in day.waves if not wave.cancelled]


def of_totals(day, told):
    """What all carts come to that are walked."""
    waves = walked(day)
    batches = [batch for wave in waves for batch in wave.batches]
    total, lines = sum(batch.length for batch in batches), sum(len(batch.picks) for batch in batches)
    proven = sum(wave.state == 'proven' for wave in waves)
    facts = [('waves proven', '%d of %d, %s' % (proven, len(waves), percent(proven, len(waves)))),
             ('orders', thousands(sum(wave.size for wave in waves))), ('carts', thousands(len(batches))),
             ('length of the tours', length(total, told.unit)), ('lines', thousands(lines)),
             ('units', thousands(sum(pick.quantity for batch in batches for pick in batch.picks)))]
    facts += [length_of_line(total, lines, told.unit)] if lines else []
    apart = '<p class="facts">Waves that were cancelled later don\'t count in these figures.</p>'
    boxes = ''.join('<div>%s<b>%s</b></div>' % fact for fact in facts)
    apart = apart if len(waves) < len(day.waves) else ''
    return '<div class="totals">%s</div>%s%s' % (boxes, apart, of_rules(day, told)) if batches else ''


def link_of(wave):
    """The name of a wave, with a way to its first page where it has one."""
    if wave.cancelled or not wave.batches:
        return escape(wave.name)
    return '<a href="#%s">%s</a>' % (place_of(wave, wave.batches[0]), escape(wave.name))


def of_waves(day):
    rows = [(cell(link_of(wave), 'name'), number(wave.size), number(len(wave.batches)), number(wave.cost),
             number(wave.bound), cell(percent(wave.cost - wave.bound, wave.cost or 1), 'right'), cell(state_of(wave)))
            for wave in day.waves]
    return '<h2>Waves</h2>' + table(('wave', '>orders', '>carts', '>length', '>bound', '>gap at most', 'state'), rows)


def of_each_rule(day):
    """What each usual rule would walk past the picks of all carts that are walked, and what the tours are long."""
    walks, toured = {}, 0
    for batch in (batch for wave in walked(day) for batch in wave.batches):
        toured += batch.length if batch.rules else 0
        for rule in batch.rules:
            walks[rule.name] = walks.get(rule.name, 0) + rule.length
    return [(name, long, toured) for name, long in walks.items()]


def of_rules(day, told):
    rows = [(cell(escape(name)), number(long), number(long - toured), cell(percent(long - toured, toured), 'right'))
            for name, long, toured in of_each_rule(day)]
    heads = ('rule', '>' + length_of('walk', told), '>longer than the tours by', '>that is')
    return '<h2>By usual rules</h2>' + table(heads, rows) if rows else ''


def of_roots(day):
    """Between what the linear bound of each wave lies, from its low side rounded down to its high side rounded up:
    nothing where the search ended before."""
    rows = []
    for wave in (wave for wave in day.waves if wave.root):
        low, high, over, state = wave.root
        sides, state = [hundredths(100 * low // over), hundredths(-(-100 * high // over))], escape(state)
        if state != 'narrow':
            sides, state = ['&ndash;', '&ndash;'], state + ': the search ended before it told anything'
        rows.append((cell(escape(wave.name), 'name'), *(cell(side, 'right') for side in sides), cell(state)))
    return '<h2>Linear bounds</h2>' + table(('wave', '>at least', '>at most', 'state'), rows) if rows else ''


def of_refused(day):
    rows = [(number(entry.number), number(entry.desk), cell(escape(' '.join(entry.command))),
             cell(escape(' '.join(entry.reply[1:]))), cell(escape(cause_of(day.entries, entry))))
            for entry in day.refused()]
    return '<h2>Refused commands</h2>' + table(('>entry', '>desk', 'command', 'refused', 'why'), rows) if rows else ''


def of_short(day):
    """The articles that a wave lacks: the last refusal of each wave that didn't get its stock later, and what was lost
    of waves that go on."""
    given_up = cancelled(day)
    short = {each.wave: each for each in short_of(day) if each.became == WAITS}
    rows = [(cell(escape(each.wave), 'name'), cell(escape(each.article), 'name'), number(each.wanted),
             number(each.free), number(each.wanted - each.free)) for each in short.values()]
    rows += [(cell(escape(entry.command[1]), 'name'), cell(escape(entry.reply[1]), 'name'),
              number(int(entry.reply[2])), cell('lost', 'right'), number(int(entry.reply[2])))
             for entry in day.entries if entry.reply[0] == 'lost' and entry.command[1] not in given_up]
    return '<h2>Short articles</h2>' + table(('wave', 'article', '>wanted', '>free', '>lacking'), rows) if rows else ''


def of_earlier(day):
    """The waves that went out in earlier runs over the same store."""
    names = ['%s%s' % (escape(name), ' (<b>cancelled later</b>)' if is_cancelled else '')
             for name, is_cancelled in day.earlier().items()]
    told = '<p class="facts">Went out in earlier runs, which have printed their sheets: %s.</p>'
    return told % ', '.join(names) if names else ''


def of_loads(day, told):
    """A bar for the load of each picker."""
    if not day.crew:
        return ''
    rows = [(cell('picker %d' % each.number), number(each.load), bar(each.load, day.crew.longest))
            for each in day.crew.pickers]
    return '<h2>Loads of the pickers</h2>' + table(('picker', '>' + length_of('load', told), ''), rows, 'loads')


def length_of(word, told):
    return '%s in %s' % (word, escape(told.unit)) if told.unit else word


def of_carts(day, told):
    """The carts that are walked, the longest first."""
    carts = sorted(((batch.length, name_of(wave, batch), place_of(wave, batch)) for wave in walked(day)
                    for batch in wave.batches), key=lambda it: -it[0])
    rows = ''.join('<li><a href="#%s">%s</a> %s</li>' % (place, escape(name), thousands(long))
                   for long, name, place in carts)
    return '<h2>Carts by %s</h2><ol class="carts">%s</ol>' % (length_of('length', told), rows) if rows else ''


def of_omitted(omitted):
    """What has no page here, since an earlier output has the same, and which pages of that are void."""
    if not omitted:
        return ''
    void = ' These pages of it are void: %s.' % escape(', '.join(omitted.void)) if omitted.void else ''
    return '<p class="facts"><b>%d carts</b> have no page here: those of %s still hold.%s</p>' % (
        len(omitted.same), escape(omitted.path), void)


def of_planner(day, told, omitted=None):
    """The first page."""
    none = '<p>No wave went out%s.</p>' % (' in this run' if day.earlier() else '')
    waves = of_waves(day) if day.waves else none
    head = '<h1>%s</h1><p class="facts">%s; %s.</p>' % (escape(told.name), escape(told.run), told_unit(told))
    parts = (of_omitted(omitted), of_totals(day, told), waves, of_earlier(day), of_short(day), of_refused(day),
             of_roots(day), of_loads(day, told), of_carts(day, told))
    return '<section>%s%s</section>' % (head, ''.join(parts))


def of_refills(day, told):
    """The page of units that are held elsewhere than the sheets say and are still to be picked."""
    rows = []
    for left in left_refills(day):
        cart, picker = escape(left.refill.wave) + ' (its sheet is of an earlier run)', ''
        if left.wave:
            name = name_of(left.wave, left.batch)
            cart = '<a href="#%s">%s</a>' % (place_of(left.wave, left.batch), escape(name))
            picker = told.pickers.get(name, '')
        rows.append((cell(escape(left.refill.location), 'name big'), cell(escape(left.article), 'name'),
                     cell(thousands(left.units), 'right big'), cell(escape(left.refill.order), 'name'),
                     cell(cart), cell(picker, 'right'), cell('<input type="checkbox">')))
    head = ('<h1>Refills</h1><p class="facts">%s</p><p class="fields"><span>Name</span><span>Time</span></p>'
            '<p class="facts">These units were missing where a sheet says; as many are held here in their stead, '
            'and are still to be picked.</p>' % escape(told.run))
    heads = ('location', 'article', '>take', 'order', 'wave and cart', '>picker', 'done')
    body = table(heads, rows)
    key = '%s/refills/%08x' % (escape(told.name), crc32(body.encode()))
    return '<section data-key="%s">%s%s</section>' % (key, head, body) if rows else ''


def of_crew(day, told):
    if not day.crew:
        return ''
    pages = {name_of(wave, batch): place_of(wave, batch) for wave in day.waves if not wave.cancelled
             for batch in wave.batches}
    rows = [(number(each.number), number(each.load), cell(', '.join(
        '<a href="#%s">%s</a>' % (pages[name], escape(name)) if name in pages else escape(name) + ' (cancelled later)'
        for name in each.batches)))
        for each in day.crew.pickers]
    text = ('<p class="facts">%s</p><p class="facts">The longest load is %s; no way to deal these carts to as many '
            'pickers has one below %s.</p>') % (
        escape(told.run), thousands(day.crew.longest), thousands(day.crew.least))
    heads = ('>picker', '>' + length_of('load', told), 'wave and cart')
    return '<section><h1>Pickers</h1>%s%s</section>' % (text, table(heads, rows))


def told_of(day, name, run, unit=None, codes=False):
    """How the sheets of a day are told."""
    return Told(name, run, unit, codes, missing(day), day.picker_of())


def of_day(layout, day, told, wanted=None, omitted=None):
    """The whole file, piece by piece. Waves that were cancelled later have no pages. Where carts are wanted these
    alone are there, without other pages."""
    yield ('<!DOCTYPE html>\n<html lang="en"><head><meta charset="utf-8">'
           '<meta name="viewport" content="width=device-width,initial-scale=1">'
           '<title>%s</title><style>%s</style></head><body>\n' % (escape(told.name), STYLE))
    yield '<svg width="0" height="0" style="position:absolute" aria-hidden="true">%s' % drawing.STYLE
    yield '<defs><g id="block">%s</g></defs></svg>\n' % drawing.block(layout)
    if not wanted:
        yield from (of_planner(day, told, omitted), of_crew(day, told), of_refills(day, told))
    for wave in walked(day):
        for batch in wave.batches:
            if (not wanted or wanted(wave, batch)) and not (omitted and (wave.name, batch.number) in omitted.same):
                yield '\n' + of_batch(layout, told, wave, batch)
    yield '\n<script>%s</script></body></html>\n' % SCRIPT
