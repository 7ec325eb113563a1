"""Tells which articles to exchange so that a day's walk is shorter, and judges that by other days.

usage: tools/wave slotting [options] plan --layout FILE --stock FILE --orders FILE --desks FILE --capacity C ..

What stands from `plan` on are the words with which the day is planned today. An exchange swaps two rows of the stock:
the article of each, with all its units there, goes to the location of the other. Commands that name one of the two
locations, as `receive` and `pick`, go where the article lies then. Whether an article fits its new place isn't known
here.

What may be exchanged is ranked by how often a row is picked and how far its slot adds to the tours of its carts, and by
how far the carts would stray to the other place. Then each exchange is judged by planning the whole day again: of 12 at
a time the best is made, if it saves, and so on until none of 12 does. Then two exchanges at once are judged likewise,
of articles of one aisle that the same carts pick. A row takes part in one exchange at most. An exchange after which
other units would be picked isn't made.

  --tries N          so many are judged at most: 100 where it isn't given
  --move-cost L      what an exchange costs, as a length of walk: 0 where it isn't given. Two at once cost it twice
  --days N           within so many days an exchange is to pay: 1 where it isn't given
  --judge FOLDER ..  folders with orders.csv and desks.csv of other days, over the same layout and stock
  --stock-out FILE   the stock file after the exchanges that pay, with its records in their order
  --unit UNIT        the unit of length of the layout file, as cm
  --json             all of it as JSON
  --html             a page of it, for any browser and for A4
  --program FILE     the program, where it isn't the launcher beside the folder tools
  --jobs N           so many runs side by side, 1 to 64: as many as there are processors where it isn't given
  --keep FOLDER      where runs are kept: waveplan/planned in ~/.cache, or in XDG_CACHE_HOME, where it isn't given

Exchanges stand in the order of what they save, with the walk before and after each: the first saves most, and each
other one saves most of those that are left once the ones before it are made. They pay from the first on up to one that
doesn't: where what they save in so many days is more than they cost. Where waves aren't proven, a saving that is less
than the gap may be one of the search and not of the exchange.

A layout that fits one day fits no other. So days that the choice didn't see judge it: of each day of --judge the walk
is told before and after the exchanges that pay, and on the page and in JSON after each of them. Beside the tries there
are runs for that, and some that put the exchanges in their order.

A run is kept by the digest of the program, its words and its files, so what was run once isn't run again, and a call
that was interrupted goes on where it stopped. The folder may be removed.

Of a day of several desks another run may answer commands in another order; `tools/wave continue` writes them as those
of one desk.

Nothing here is proved; the plans that it reads are, where the program is. With --json there are `walk`, `walk_after`,
`waves`, `proven`, `gap_percent`, `tried`, `exchanges`, each with `rows`, `before`, `after`, `saves`, `pays_after_days`
and `is_taken`, and `judged`, each with `day` and `walks`: before all exchanges, and after each that is taken.

Status: 0, or 2 where the words aren't right, a file can't be read or a day is refused; 4 where runs can't be kept or an
output can't be written; 130 where it was interrupted.
"""

import json
import os
import sys
from collections import namedtuple

from endings import RIGHT, Trouble, Words, tell_usage

from . import slotting_pages, whole_files
from .candidates import Carts
from .exchanges import applied, rows_of, stock_file
from .figures import counted
from .given_day import add_launcher, parted, read_day, test_launcher
from .pages import walked
from .planning import add_options, interrupted_by_signals, planner_of, whole
from .slot_search import Search, length_after, walked_of
from .trouble import read_bytes
from .warehouse import layout_of

FORMAT = 'waveplan slotting 1'
OF_ANOTHER_DAY = ('orders', 'desks')


class Exchange(namedtuple('Exchange', 'rows before after cost')):
    """One exchange, or two that are made together: pairs of rows, the walk before and after, and what it costs."""

    def saves(self):
        return self.before - self.after

    def pays_after(self):
        """After how many days its saving is more than its cost, None where it never is."""
        return self.cost // self.saves() + 1 if self.saves() > 0 else None


class Row(namedtuple('Row', 'location article picks adds')):
    """A row of the stock: how often it is picked today, and how much its slot adds to the tours of its carts."""


# The layout, the day as it is planned, its exchanges, how many of them pay, the walks of other days, how many were
# tried, and the unit of length.
Found = namedtuple('Found', 'layout today exchanges taken judged tried unit')


def asked_words(words):
    known = Words('slotting')
    known.add_argument('--tries', type=whole(1, 10000), default=100)
    known.add_argument('--move-cost', type=whole(0, 10 ** 12), default=0)
    known.add_argument('--days', type=whole(1, 10 ** 6), default=1)
    known.add_argument('--judge', nargs='+', action='append', default=[])
    known.add_argument('--stock-out')
    known.add_argument('--unit')
    known.add_argument('--json', action='store_true')
    known.add_argument('--html', action='store_true')
    add_options(known)
    add_launcher(known)
    return known.read(words)


def other_day(day, folder):
    """Another day over the same layout and stock: that of a folder."""
    return day.with_files(**{name: read_bytes(os.path.join(folder, name + '.csv')) for name in OF_ANOTHER_DAY})


def others_of(asked, day, layout):
    """The days that judge, by the names of their folders."""
    found = {folder: other_day(day, folder) for folders in asked.judge for folder in folders}
    for folder, other in found.items():
        rows_of(other, layout, folder)
    return found


def in_order(search, cost):
    """The exchanges that were made, the one first that saves most after those before it, with the day's walks between.
    """
    left, made, walk, found = search.moves, [], search.first.length, []
    carts = Carts(search.layout, search.today)
    while left:
        ends = search.planner.plan_all([applied(search.day, [*made, *move]).run() for move in left], walked_of)
        lengths = [length_after(each, search.first) for each in ends]
        walks = [walk if length is None else length for length in lengths]
        best = walks.index(min(walks))
        rows = [told_rows(carts, search.rows, pair) for pair in left[best]]
        found.append(Exchange(rows, walk, walks[best], cost * len(rows)))
        made, walk, left = [*made, *left[best]], walks[best], left[:best] + left[best + 1:]
    return found


def told_rows(carts, rows, pair):
    """Two rows that change their articles, the one first that adds more to the tours."""
    told = [Row(location, rows[location], carts.picks.get(location, 0), carts.adds(location)) for location in pair]
    return tuple(sorted(told, key=lambda row: (-row.adds, -row.picks)))


def walks_after(planner, days, moves):
    """The walks of some days before some exchanges and after each of them, None where other units are picked."""
    done = [[each for move in moves[:count] for each in move] for count in range(len(moves) + 1)]
    found = iter(planner.plan_all([applied(day, some).run() for day in days.values() for some in done], walked_of))
    walks = {}
    for name in days:
        first, *after = [next(found) for _ in done]
        if isinstance(first, str):
            raise Trouble('%s is refused: %s' % (name, first))
        walks[name] = [first.length, *(length_after(each, first) for each in after)]
    return walks


def taken_of(exchanges, days):
    """How many of the exchanges pay, from the first on."""
    for count, each in enumerate(exchanges):
        if each.pays_after() is None or each.pays_after() > days:
            return count
    return len(exchanges)


def found_of(asked, planner, day):
    """What is found for a day."""
    layout = layout_of(day.files['layout'], 'the layout file')
    others = others_of(asked, day, layout)
    search = Search(planner, day, layout, asked.tries)
    search.run()
    exchanges = in_order(search, asked.move_cost)
    taken = taken_of(exchanges, asked.days)
    judged = walks_after(planner, others, [pairs_of(each) for each in exchanges[:taken]])
    return Found(layout, search.today, exchanges, taken, judged, asked.tries - search.left, asked.unit)


def pairs_of(exchange):
    """The locations of an exchange."""
    return [tuple(row.location for row in pair) for pair in exchange.rows]


def text_of(pair):
    """A pair of rows: each with its article and how often it is picked."""
    return ' with '.join('%s %s (%s)' % (row.location, row.article, counted(row.picks, 'pick')) for row in pair)


def changed(before, after):
    return '%d before, %s' % (before, 'other units are picked after' if after is None else '%d after (%+.1f%%)' % (
        after, 100 * (after - before) / before if before else 0))


def walk_of(day):
    return sum(wave.cost for wave in walked(day))


def gap_of(day):
    """How many waves are walked, how many of them are proven, and by how much of the cost the bounds are below it."""
    waves = walked(day)
    cost, bound = walk_of(day), sum(wave.bound for wave in waves)
    return len(waves), sum(wave.state == 'proven' for wave in waves), 100 * (cost - bound) / cost if cost else None


def table_of(found):
    """The exchanges as a table: for two at once the second stands below the first."""
    yield ['', 'exchange', 'before', 'after', 'saves', 'pays after']
    for number, each in enumerate(found.exchanges, 1):
        days = 'never' if each.pays_after() is None else counted(each.pays_after(), 'day')
        kept = '' if number <= found.taken else ', not taken'
        yield [str(number), text_of(each.rows[0]), *map(str, (each.before, each.after, each.saves())), days + kept]
        yield from (['', 'and ' + text_of(pair), '', '', '', ''] for pair in each.rows[1:])


def lines_of(found):
    walk = walk_of(found.today)
    yield 'today: walk %d; %s, %d of them proven, gap %.1f%%' % (walk, counted(gap_of(found.today)[0], 'wave'),
                                                                *gap_of(found.today)[1:])
    rows = list(table_of(found)) if found.exchanges else []
    wide = [max(map(len, column)) for column in zip(*rows)]
    for number, text, *others in rows:
        numbers = map(str.rjust, others[:-1], wide[2:])
        yield '  '.join([number.rjust(wide[0]), text.ljust(wide[1]), *numbers, others[-1]]).rstrip()
    after = found.exchanges[found.taken - 1].after if found.taken else walk
    yield 'after the %d that pay: walk %s; %d were tried' % (found.taken, changed(walk, after), found.tried)
    yield from ('judged by %s: walk %s' % (name, changed(walks[0], walks[-1])) for name, walks in found.judged.items())


def object_of(found):
    walk, (waves, proven, gap) = walk_of(found.today), gap_of(found.today)
    exchanges = [{'rows': [[row._asdict() for row in pair] for pair in each.rows], 'before': each.before,
                  'after': each.after, 'saves': each.saves(), 'pays_after_days': each.pays_after(),
                  'is_taken': number < found.taken} for number, each in enumerate(found.exchanges)]
    return {'format': FORMAT, 'walk': walk, 'walk_after': exchanges[found.taken - 1]['after'] if found.taken else walk,
            'waves': waves, 'proven': proven, 'gap_percent': gap, 'tried': found.tried, 'exchanges': exchanges,
            'judged': [{'day': name, 'walks': walks} for name, walks in found.judged.items()]}


@interrupted_by_signals()
def main(words):
    own, plan = parted(words)
    asked = asked_words(own)
    if asked.help or not words:
        return tell_usage(__doc__, asked)
    test_launcher(asked)
    day = read_day(plan)
    found = found_of(asked, planner_of(asked), day)
    if asked.stock_out is not None:
        taken = [pair for each in found.exchanges[:found.taken] for pair in pairs_of(each)]
        whole_files.write(asked.stock_out, stock_file(day.files['stock'], taken))
    sys.stdout.reconfigure(encoding='utf-8', errors='backslashreplace')
    if asked.json:
        print(json.dumps(object_of(found), separators=(',', ':')))
    elif asked.html:
        print(slotting_pages.page(found), end='')
    else:
        print('\n'.join(lines_of(found)))
    return RIGHT
