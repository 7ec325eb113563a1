"""Tells what two plans differ in, wave by wave: cost, bound, state, batches and replies; and what their rules, brackets
and crews differ in.

usage: tools/wave compare DAY OTHER

Both are outputs of `waveplan plan`. Waves are compared by their names, replies by their commands: where a command was
given more than once, first with first. Of two runs over one store the second has no sheets of what went out in the
first. Nothing here is proved.

Status: 0 where they differ in nothing of this, 1 where they do, 2 where one is no output of a plan.
"""

from endings import RIGHT, WRONG, Words, tell_usage

from .output import read_output


def by_command(day):
    """The replies by their commands, the first, second and so on of each."""
    found, counts = {}, {}
    for entry in day.entries:
        text = ' '.join(entry.command)
        counts[text] = counts.get(text, 0) + 1
        found[text, counts[text]] = ' '.join(entry.reply)
    return found


def named(key):
    text, count = key
    return text if count == 1 else '%s (time %d)' % (text, count)


def of_replies(left, right):
    left, right = by_command(left), by_command(right)
    for key in left:
        if key not in right:
            yield '%s: only in the first, answered %s' % (named(key), left[key])
        elif left[key] != right[key]:
            yield '%s: %s, and %s' % (named(key), left[key], right[key])
    for key in right:
        if key not in left:
            yield '%s: only in the second, answered %s' % (named(key), right[key])


def change(left, right):
    told = '%d, and %d' % (left, right)
    return told + ' (%+.2f %%)' % (100 * (right - left) / left) if left else told


def bracket(root):
    return '%d to %d over %d, %s' % root


def of_wave(left, right):
    for name in ('cost', 'bound'):
        if getattr(left, name) != getattr(right, name):
            yield '%s %s: %s' % (left.name, name, change(getattr(left, name), getattr(right, name)))
    for name, one, other in (('state', left.state, right.state), ('cancelled later', left.cancelled, right.cancelled),
                             ('capacity', left.capacity, right.capacity), ('units', left.units, right.units)):
        if one != other:
            yield '%s %s: %s, and %s' % (left.name, name, one, other)
    if left.root and right.root and left.root != right.root:
        yield '%s bracket: %s, and %s' % (left.name, bracket(left.root), bracket(right.root))
    yield from of_batches(left, right)


def of_batches(left, right):
    """The batches that the one has and the other hasn't, by their orders; the same orders with other picks."""
    one, other = ({frozenset(batch.orders): batch for batch in wave.batches} for wave in (left, right))
    for title, mine, yours in (('first', one, other), ('second', other, one)):
        for orders, batch in mine.items():
            if orders not in yours:
                yield '%s: only in the %s: batch of %s, length %d' % (left.name, title, ' '.join(batch.orders),
                                                                      batch.length)
    for orders, batch in one.items():
        if orders in other and batch.picks != other[orders].picks:
            yield '%s: the batch of %s has other picks' % (left.name, ' '.join(batch.orders))
        if orders in other and batch.rules and other[orders].rules and batch.rules != other[orders].rules:
            yield '%s: by rules other walks for the batch of %s' % (left.name, ' '.join(batch.orders))


def of_waves(left, right):
    others = {wave.name: wave for wave in right.waves}
    for wave in left.waves:
        if wave.name in others:
            yield from of_wave(wave, others.pop(wave.name))
        else:
            yield '%s: %s only in the first' % (wave.name,
                                                'has its sheet' if wave.name in right.earlier() else 'went out')
    for name in others:
        yield '%s: %s only in the second' % (name, 'has its sheet' if name in left.earlier() else 'went out')


def of_told(left, right):
    """Rules and brackets that only one of two days tells."""
    for name, tells in (('rules', lambda wave: any(batch.rules for batch in wave.batches)),
                        ('brackets', lambda wave: wave.root)):
        has = [any(map(tells, day.waves)) for day in (left, right)]
        if has[0] != has[1] and left.waves and right.waves:
            yield '%s: told only in the %s' % (name, 'first' if has[0] else 'second')


def of_crew(left, right):
    one, other = left.crew, right.crew
    if not one or not other:
        for title, crew in (('first', one), ('second', other)):
            if crew:
                told = 'crew: only in the %s, %d pickers with a longest load of %d'
                yield told % (title, len(crew.pickers), crew.longest)
        return
    for name, mine, yours in (('pickers', len(one.pickers), len(other.pickers)),
                              ('longest load', one.longest, other.longest),
                              ('least longest load', one.least, other.least)):
        if mine != yours:
            yield 'crew %s: %s' % (name, change(mine, yours))
    for mine, yours in zip(one.pickers, other.pickers):
        if mine.batches != yours.batches:
            yield 'crew picker %d: %s, and %s' % (mine.number, ' '.join(mine.batches) or 'no batch',
                                                  ' '.join(yours.batches) or 'no batch')


def of_stock(left, right):
    rows = {row.location: row for row in right.rows}
    for row in left.rows:
        if row != rows.get(row.location, row):
            other = rows[row.location]
            yield 'stock %s %s: %d %d %d, and %d %d %d' % (row.location, row.article, *row[2:], *other[2:])
    if {row.location for row in left.rows} != set(rows):
        yield 'the two stocks have other rows'


def asked_words(words):
    known = Words('compare')
    known.add_argument('day', nargs='?')
    known.add_argument('other', nargs='?')
    return known.read(words)


def main(words):
    asked = asked_words(words)
    if asked.help or not asked.other:
        return tell_usage(__doc__, asked)
    left, right = read_output(asked.day), read_output(asked.other)
    found = [*of_replies(left, right), *of_waves(left, right), *of_told(left, right), *of_crew(left, right),
             *of_stock(left, right)]
    total = [sum(wave.cost for wave in day.waves) for day in (left, right)]
    if found:
        print('\n'.join(found))
        print('all waves: cost %s' % change(*total))
    else:
        print('no difference')
    return WRONG if found else RIGHT
