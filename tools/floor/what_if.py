"""Tells what the same day would be with other carts, pickers, budgets, waves, or another place of the depot.

usage: tools/wave what-if CHOICES [options] plan --layout FILE --stock FILE --orders FILE --desks FILE --capacity C ..

What stands from `plan` on are the words with which the day is planned today. Before them stands what is tried: lists,
as 2,3,5, and ranges, as 2..6. Of several choices all combinations are tried, at most 1000. The day as it is stands
first, as "today".

  --capacity LIST  so many orders on a cart
  --units LIST     so many units on a cart; `none` is a cart that holds any number
  --pickers LIST   so many pickers
  --budget LIST    so much that may be spent on the bound of each wave
  --nodes LIST     so many nodes of each wave's search, in the place of a budget
  --spacing LIST   this length from each aisle to the next, between all of them
  --depot LIST     the depot at the front of an aisle, as 10, or at its back, as 10@back; 1..5@back are five of them
  --wave LIST      waves of so many orders
  --rules [LIST]   what pickers would walk past the same carts by usual rules: s-shape, return, largest-gap, and tour,
                   which is the shortest tour; all four where no list stands there

  --unit UNIT      the unit of length of the layout file, as cm; of mm, cm, dm and m metres a line are told
  --per-metre N    so many of it are a metre, where it has another unit
  --json           the table as JSON
  --html           a page with a bar for each choice, the least walk first, for any browser and for A4
  --program FILE   the program, where it isn't the launcher beside the folder tools
  --jobs N         so many runs side by side, 1 to 64: as many as there are processors where it isn't given
  --keep FOLDER    where runs are kept: waveplan/planned in ~/.cache, or in XDG_CACHE_HOME, where it isn't given

Each choice is a run of the program. A run is kept by the digest of the program, its words and its files, so what was
run once isn't run again, and a call that was interrupted goes on where it stopped. The folder may be removed.

The table tells of each choice the walk, the difference from today, the walk for each line, how many lines are picked,
the carts, the longest load of a picker, how many waves are proven, the gap that is left (by how much of the cost the
bound is below it), and the seconds of the run. Waves that were cancelled later don't count. A choice that the program
refuses is a line that says why. Where with a choice commands are refused and other units are picked than today, it says
so and tells no difference, since its walk is of other work. By a rule the carts stay as they are, and stay with their
pickers; no bound is told of it.

With --wave the orders of the waves that went out, and weren't cancelled, go out in the order in which they were
submitted, in waves of so many, the last with what is left. Each is submitted and released by desk 1, one after the
other. What the day receives comes before all of them, so that each finds its stock. All other commands are left out:
`allot`, since a release holds what its wave wants; `cancel`, since what was cancelled isn't in; `pick` and `missing`,
since they name waves that aren't there, and rows in which another wave may hold.

Of a day of several desks another run may answer commands in another order; `tools/wave continue` writes them as those
of one desk.

Nothing here is proved; the plans that it reads are, where the program is. With --json `today` and each of `choices`
have `choice`, `walk`, `change_percent`, `walk_a_line` or `metres_a_line`, `lines`, `units`, `carts`, `longest_load`,
`proven`, `waves`, `bound`, `gap_percent` and `seconds`, or `choice` and `refused`. What isn't known is null.

Status: 0, or 2 where the words aren't right, a file can't be read or the day itself is refused; 4 where runs can't be
kept or the output can't be written; 130 where it was interrupted.
"""

import json
import sys
from collections import namedtuple

from endings import RIGHT, Trouble, Words, tell_usage

from . import choices, what_if_pages
from .figures import OF_METRE
from .given_day import add_launcher, parted, read_day, test_launcher
from .planning import add_options, interrupted_by_signals, planner_of, whole
from .walks import figures_of, planned
from .warehouse import layout_of

FORMAT = 'waveplan what-if 1'
HEADS = ('', 'walk', 'change', 'walk a line', 'lines', 'carts', 'longest load', 'proven', 'gap', 'seconds')


class Row(namedtuple('Row', 'label choice figures why')):
    """A choice: what it comes to, or why it is refused."""

    def walk(self):
        return self.figures.walks.get(self.choice.get('rules', 'tour'), self.figures.walks['tour'])

    def is_by_tours(self):
        return self.choice.get('rules', 'tour') == 'tour'

    def a_line(self, of_metre):
        """The walk for each line, None where there is none."""
        return self.walk().length / (self.figures.lines * of_metre) if self.figures.lines else None

    def gap(self):
        """How far the bound is below the cost in percent of that, None where there is no cost."""
        cost = self.walk().length
        return 100 * (cost - self.figures.bound) / cost if cost and self.is_by_tours() else None


class Table(namedtuple('Table', 'today rows unit of_metre')):
    """The day as it is, and all choices. `of_metre` of a unit make a metre, None where that isn't told."""

    def change(self, row):
        """How much longer the walk is than today's in percent, None where that is 0, or other units are picked."""
        walk = self.today.walk().length
        return None if self.lack(row) or not walk else 100 * (row.walk().length - walk) / walk

    def lack(self, row):
        """What is told of a choice with which other units are picked than today, None where the same are."""
        units, own = row.figures.units, self.today.figures.units
        refused = next((each for each in row.figures.refused if each not in self.today.figures.refused), None)
        return None if units == own else '%d of %d units%s' % (units, own, ', refused ' + refused if refused else '')

    def a_line(self):
        """The heading of the walk for each line."""
        return 'metres a line' if self.of_metre else 'walk a line'


def asked_words(words):
    known = Words('what-if')
    for name in choices.NAMES:
        known.add_argument('--' + name, **({'nargs': '?', 'const': 'all'} if name == 'rules' else {}))
    known.add_argument('--unit')
    known.add_argument('--per-metre', type=whole(1, 10 ** 6))
    known.add_argument('--json', action='store_true')
    known.add_argument('--html', action='store_true')
    add_options(known)
    add_launcher(known)
    return known.read(words)


def lists_of(asked):
    """The lists of values that the words choose."""
    given = {name: getattr(asked, name) for name in choices.NAMES if getattr(asked, name) is not None}
    if not given:
        raise Trouble('nothing is chosen: before `plan` stands what is tried, as --capacity 2..6; --help says what')
    if 'budget' in given and 'nodes' in given:
        raise Trouble('--nodes stands in the place of --budget: choose one of them')
    return {name: choices.values_of(name, text) for name, text in given.items()}


def result_of(ended):
    """What a run comes to, or why it is refused."""
    return ended.why() or figures_of(ended)


def rows_of(planner, day, lists):
    """A row for the day as it is, and one for each other choice."""
    today = planned(planner, day)
    layout = layout_of(day.files['layout'], 'the layout file')
    tried = [(choice, choices.fault(choice)) for choice in choices.combined(lists)]
    runs = [None if fault else choices.applied(choice, day, layout, today).run() for choice, fault in tried]
    own, *results = planner.plan_all([day.run(), *filter(None, runs)], result_of)
    left = iter(results)
    rows = [row_of(label_of(choice), choice, fault or next(left)) for choice, fault in tried]
    others = [row for row, run in zip(rows, runs) if run != day.run() or not row.is_by_tours()]
    as_it_is = choices.as_it_is(day, layout, lists)
    return row_of('today: ' + label_of(as_it_is), as_it_is, own), others


def label_of(choice):
    return ', '.join(choices.told(*each) for each in choice.items())


def row_of(label, choice, result):
    return Row(label, choice, None, result) if isinstance(result, str) else Row(label, choice, result, None)


def decimal(value, form='%.1f'):
    return '-' if value is None else form % value


def cells_of(table, row):
    """The texts of a row behind its label."""
    figures, walk = row.figures, row.walk()
    proven = '%d of %d' % (figures.proven, figures.waves) if row.is_by_tours() else '-'
    change = '-' if row is table.today else decimal(table.change(row), '%+.1f%%')
    return [str(walk.length), change, decimal(row.a_line(table.of_metre or 1)), str(figures.lines), str(figures.carts),
            decimal(walk.longest, '%d'), proven, decimal(row.gap(), '%.1f%%'), '%.2f' % figures.seconds]


def lines_of(table):
    """The table line by line, each column as wide as its longest text."""
    rows = [row for row in (table.today, *table.rows) if not row.why]
    cells = [[*HEADS[:3], table.a_line(), *HEADS[4:]], *([row.label, *cells_of(table, row)] for row in rows)]
    wide = [max(map(len, column)) for column in zip(*cells)]
    for place, (label, *others) in enumerate(cells):
        line = '  '.join([label.ljust(wide[0]), *map(str.rjust, others, wide[1:])])
        lack = table.lack(rows[place - 1]) if place else None
        yield line + ('  ' + lack if lack else '')
    yield from ('%s: %s' % (row.label, row.why) for row in table.rows if row.why)


def object_of_row(table, row):
    choice = {name: '%d@%s' % value if name == 'depot' else value for name, value in row.choice.items()}
    if row.why:
        return {'choice': choice, 'refused': row.why}
    figures, walk = row.figures, row.walk()
    return {'choice': choice, 'walk': walk.length, 'change_percent': table.change(row),
            table.a_line().replace(' ', '_'): row.a_line(table.of_metre or 1), 'lines': figures.lines,
            'units': figures.units, 'carts': figures.carts, 'longest_load': walk.longest,
            'proven': figures.proven if row.is_by_tours() else None, 'waves': figures.waves,
            'bound': figures.bound if row.is_by_tours() else None, 'gap_percent': row.gap(),
            'seconds': figures.seconds}


def object_of(table):
    return {'format': FORMAT, 'today': object_of_row(table, table.today),
            'choices': [object_of_row(table, row) for row in table.rows]}


@interrupted_by_signals()
def main(words):
    own, plan = parted(words)
    asked = asked_words(own)
    if asked.help or not words:
        return tell_usage(__doc__, asked)
    test_launcher(asked)
    lists = lists_of(asked)
    choices.combined(lists)
    day = read_day(plan)
    day = day.with_numbers(rules=1) if 'rules' in lists else day
    today, rows = rows_of(planner_of(asked), day, lists)
    table = Table(today, rows, asked.unit, asked.per_metre or OF_METRE.get(asked.unit))
    sys.stdout.reconfigure(encoding='utf-8', errors='backslashreplace')
    if asked.json:
        print(json.dumps(object_of(table), separators=(',', ':')))
    elif asked.html:
        print(what_if_pages.page(table), end='')
    else:
        print('\n'.join(lines_of(table)))
    return RIGHT
