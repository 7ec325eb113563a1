"""The figures of a day: what can be added up over days, the shares of that, and the tables behind it.

Waves that were cancelled later count in none of the figures of waves, carts and walks.
"""

from fractions import Fraction

from .entries import command_of, reply_of
from .holding import plain
from .output import name_of
from .pages import of_each_rule, walked
from .refused_commands import cause_of
from .shortages import short_of

RULES = {'s-shape': 's_shape', 'return': 'return', 'largest-gap': 'largest_gap'}
PLAIN = ('waves', 'waves_cancelled', 'waves_not_given', 'waves_proven', 'orders', 'carts', 'lines', 'units', 'walk')
TROUBLES = ('refused', 'short', 'refilled', 'lost')


def share(part, whole):
    """A part of a whole in percent, None of no whole."""
    return Fraction(100 * part) / whole if whole else None


def counts_of(day):
    """What of a day can be added up over days. Beside each sum of which a share is told stands what it is a share of.
    """
    waves, earlier = walked(day), day.earlier()
    carts = [batch for wave in waves for batch in wave.batches]
    picks = [pick for batch in carts for pick in batch.picks]
    return {
        'waves': len(waves), 'waves_cancelled': sum(wave.cancelled for wave in day.waves) + sum(earlier.values()),
        'waves_not_given': len(earlier) - sum(earlier.values()),
        'waves_proven': sum(wave.state == 'proven' for wave in waves),
        'gap': sum(share(wave.cost - wave.bound, wave.cost) or 0 for wave in waves),
        'orders': sum(len(batch.orders) for batch in carts),
        'places': sum(wave.capacity * len(wave.batches) for wave in waves),
        'carts': len(carts), 'lines': len(picks), 'units': sum(pick.quantity for pick in picks),
        'walk': sum(batch.length for batch in carts), **counts_of_units(waves), **counts_of_rules(day),
        **counts_of_journal(day)}


def counts_of_units(waves):
    """The units on carts that hold a number of them, and how many they hold."""
    sized = [wave for wave in waves if wave.units is not None]
    return {'loaded': sum(pick.quantity for wave in sized for batch in wave.batches for pick in batch.picks),
            'room': sum(wave.units * len(wave.batches) for wave in sized)}


def counts_of_rules(day):
    """What each usual rule walks, and how long the tours are past whose picks that is told."""
    told, found = {name: (walk, toured) for name, walk, toured in of_each_rule(day)}, {}
    for name, key in RULES.items():
        found[key], found[key + '_tours'] = told.get(name, (0, 0))
    return found


def counts_of_journal(day):
    missing = missing_of(day)
    return {'refused': len(day.refused()), 'short': len(short_of(day)),
            'refilled': sum(row['refilled'] for row in missing), 'lost': sum(row['lost'] for row in missing)}


def added(counts):
    """The counts of several days together."""
    return {name: sum(each[name] for each in counts) for name in counts[0]}


def figures_of(counts, per_metre):
    """What a report tells of counts: None where it can't be told."""
    metres = Fraction(counts['walk']) / per_metre if per_metre else None
    lines = counts['lines']
    found = {name: counts[name] for name in PLAIN}
    found.update(proven_percent=share(counts['waves_proven'], counts['waves']),
                 gap_percent=mean(counts, 'gap', 'waves'),
                 orders_percent=share(counts['orders'], counts['places']),
                 units_percent=share(counts['loaded'], counts['room']), walk_a_line=mean(counts, 'walk', 'lines'),
                 metres=metres, metres_a_line=metres / lines if metres is not None and lines else None)
    for key in RULES.values():
        tours = counts[key + '_tours']
        found[key] = counts[key] if tours else None
        found[key + '_percent'] = share(counts[key] - tours, tours)
    return {**found, **{name: counts[name] for name in TROUBLES}}


def mean(counts, name, by):
    return Fraction(counts[name]) / counts[by] if counts[by] else None


def mean_of(rows):
    """The mean of each figure over the days that tell it."""
    found = {}
    for name in dict.fromkeys(name for row in rows for name in row):
        told = [row[name] for row in rows if row.get(name) is not None]
        found[name] = Fraction(sum(told)) / len(told) if told else None
    return found


def refused_of(day):
    """The refused commands by their reason and article: how many, and the cause of the first."""
    articles, found = articles_of(day), {}
    for entry in day.refused():
        key = (entry.reply[1], article_of(entry, articles))
        row = found.setdefault(key, {'reason': key[0], 'article': key[1], 'commands': 0,
                                     'first_cause': cause_of(day.entries, entry)})
        row['commands'] += 1
    return list(found.values())


def articles_of(day):
    """The article of each row, by its location."""
    return {row.location: row.article for row in day.rows}


def article_of(entry, articles):
    """The article of a command: the one that it or its reply names, or that of the row of which it speaks."""
    command, reply = command_of(entry.command), reply_of(entry.reply)
    at_place = articles.get(plain(command['location'])) if 'location' in command else None
    return command.get('article') or reply.get('article') or at_place or ''


def short_rows_of(day):
    """What waves were refused for want of, each with the units that would have covered it."""
    return [{'wave': each.wave, 'article': each.article, 'wanted': each.wanted, 'free': each.free,
             'lacking': each.wanted - each.free, 'became': each.became} for each in short_of(day)]


def missing_of(day):
    """The units that were missing, by their location: how often, and how many are held elsewhere and how many lost."""
    articles, found = articles_of(day), {}
    for entry in day.entries:
        if entry.command[0] == 'missing' and entry.reply[0] in ('refilled', 'lost'):
            location = plain(entry.command[3])
            row = found.setdefault(location, {'location': location, 'article': article_of(entry, articles),
                                              'times': 0, 'refilled': 0, 'lost': 0})
            row['times'] += 1
            row[entry.reply[0]] += int(entry.command[4])
    return list(found.values())


def loads_of(day, crew):
    """The load of each picker of a crew, and how much of it is of waves that weren't cancelled later."""
    lengths = {name_of(wave, batch): batch.length for wave in walked(day) for batch in wave.batches}
    return [{'picker': picker.number, 'load': picker.load,
             'walked': sum(lengths.get(name, 0) for name in picker.batches), 'carts': len(picker.batches)}
            for picker in crew.pickers]


def figures_of_crews(crews):
    """Of the crew with the longest load: its pickers, its longest and its shortest load, and what no crew's longest
    is below."""
    if not crews:
        return dict.fromkeys(('pickers', 'longest_load', 'shortest_load', 'least_load'))
    crew = max(crews, key=lambda crew: crew.longest)
    return {'pickers': len(crew.pickers), 'longest_load': crew.longest,
            'shortest_load': min((picker.load for picker in crew.pickers), default=None), 'least_load': crew.least}


def hours_of_waves(day, hours):
    """What went out by the hour in the names of waves, in its order; behind it what went out in waves without one."""
    found = {}
    for wave in sorted(walked(day), key=lambda wave: hours.get(wave.name, 24)):
        hour = hours.get(wave.name)
        row = found.setdefault(hour, {'hour': hour, 'waves': 0, 'carts': 0, 'lines': 0, 'walk': 0})
        row['waves'] += 1
        row['carts'] += len(wave.batches)
        row['lines'] += sum(len(batch.picks) for batch in wave.batches)
        row['walk'] += sum(batch.length for batch in wave.batches)
    return list(found.values())
