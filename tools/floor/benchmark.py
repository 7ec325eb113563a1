"""Measures plans of instances as the literature makes them, or of plain files: cost, bound, gap, proven, nodes and
seconds.

usage: tools/wave benchmark --class NAME,.. [options] [--table | --json | --html]
       tools/wave benchmark --read FILE .. [options] [--table | --json | --html]
       tools/wave benchmark --class NAME,.. | --read FILE .. [options] --write FOLDER

The first form draws instances from seeds, the second reads plain files, of which - is standard input. Each is a day
that the program plans, with each budget and each number of nodes. The table has a row for each kind of instances,
with mean and spread over the seeds. The third form runs nothing: it writes each instance as a plain file, and as the
four files of this program.

  --class NAME,..     henn-waescher and gademann-velde, as told below
  --seeds N           so many seeds, 5 where it isn't given
  --seed N            the first of them, 1 where it isn't given; the others follow it
  --demand NAME,..    abc and uniform, of henn-waescher
  --orders LIST       how many orders an instance has; a list is as 8,16 or 2..6
  --units LIST        how many units a cart takes; `none` is a cart that takes any number
  --capacity LIST     how many orders a cart takes, 1 to 8
  --budget LIST       what may be spent on the bound of each wave, 2000000 where it isn't given
  --sharp             plans each also with --sharp 1 of the program
  --nodes LIST        plans each also with --nodes of the program in the place of a budget, 1 to 1000000000
  --table             the table in Markdown, with the date, the program and the command
  --json              all figures as one object
  --html              a page for a browser and for paper
  --program FILE      the program, where it isn't the launcher beside the folder tools
  --jobs N            so many runs side by side, 1 to 64: as many as there are processors where it isn't given
  --keep FOLDER       where runs are kept: waveplan/planned in ~/.cache, or in XDG_CACHE_HOME, where it isn't given

A program that doesn't know --sharp or --nodes leaves its row with the words `not in this program`. A run is kept by the
digest of the program, its words and its files: what was interrupted goes on where it stopped, and a kept run has the
seconds of when it was made. Runs side by side may make each other longer.

%(classes)s

The numbers are drawn as those of made days (docs/FORMATS.md), from the seed on. Each order draws how many articles it
has, and then for each its place. The places of aisles are counted aisle by aisle, slot by slot, left before right. By
demand abc the class of the article is drawn first, by a draw below 100, and its place among those of the class. So the
orders of a smaller instance are the first of a larger one of the same seed, and each cart is tried with the same ones.

A plain file has a line for each fact, in this order, with blanks between words. Lines that are empty or begin with #
are passed over. A location is aisle, slot and side; the order O2 wants one unit at 2-4-L and two at 3-1-R:

  instance three-orders
  aisles 3
  slots 4
  pitch 2
  clearance 1
  spacings 5 5
  depot 1 front
  capacity 2
  units 5
  orders 3
  order O1 1-4-L 1
  order O2 2-4-L 1 3-1-R 2
  order O3 3-1-L 1
  end

Lengths are whole: the pitch from slot to slot, the clearance from an end of an aisle to its nearest slot, a spacing
from each aisle to the next. Aisles are counted from the left, slots from the front. The depot is the front or the back
end of an aisle. `units none` is a cart that holds any number of units. An order is never split.

Nothing here is proved; the outputs that it reads are.

Status: 0; 1 where an instance came to nothing; 2 where a file or the words can't be read; 4 where something can't be
written.
"""

import shlex
import sys
import textwrap
import time

from endings import RIGHT, WRONG, Words, tell_usage
from opinion import words as command_line

from . import benchmark_pages, benchmark_runs, benchmark_tables, planning
from .benchmark_rows import failures
from .benchmark_tables import Made
from .instance_classes import CLASSES, DEMANDS, SEEDS
from .instances import BUDGETS, CAPACITIES, MOST_ORDERS, NODES, UNITS
from .plain_instances import NO_UNITS
from .word_lists import listed, named

__doc__ = __doc__.replace('%(classes)s', '\n\n'.join(
    textwrap.fill('%s: %s' % (each.name, each.told), 120) for each in CLASSES.values()))

MOST_SEEDS = 1000
FORMS = {'table': benchmark_tables.markdown_of, 'json': benchmark_tables.object_of, 'html': benchmark_pages.page_of}


def add_instances(known):
    """Adds the options that say which instances there are."""
    known.add_argument('--class', dest='classes', type=named(CLASSES), default=[])
    known.add_argument('--read', nargs='+', default=[])
    known.add_argument('--demand', type=named(DEMANDS))
    known.add_argument('--seeds', type=planning.whole(1, MOST_SEEDS), default=5)
    known.add_argument('--seed', type=planning.whole(*SEEDS), default=1)
    known.add_argument('--orders', type=listed(1, MOST_ORDERS))
    known.add_argument('--units', type=listed(*UNITS, {NO_UNITS: None}))
    known.add_argument('--capacity', type=listed(*CAPACITIES))


def asked_words(words):
    known = Words('benchmark')
    add_instances(known)
    known.add_argument('--budget', type=listed(*BUDGETS), default=[command_line.GIVEN['budget']])
    known.add_argument('--nodes', type=listed(*NODES), default=[])
    known.add_argument('--sharp', action='store_true')
    known.add_argument('--write')
    form = known.add_mutually_exclusive_group()
    for name in FORMS:
        form.add_argument('--' + name, dest='form', action='store_const', const=name)
    planning.add_options(known)
    return known.read(words)


def main(words):
    asked = asked_words(words)
    if asked.help or not (asked.classes or asked.read):
        return tell_usage(__doc__, asked)
    groups = benchmark_runs.groups_of(asked)
    if asked.write is not None:
        print('\n'.join(benchmark_runs.write_all(asked.write, groups)))
        return RIGHT
    planner = planning.planner_of(asked)
    rows = benchmark_runs.rows_of(groups, benchmark_runs.ways_of(asked), planner)
    command = shlex.join(['tools/wave', 'benchmark', *words])
    made = Made(time.strftime('%Y-%m-%d'), planner.of_program.hex(), command, asked.jobs, asked.classes)
    sys.stdout.reconfigure(encoding='utf-8', errors='backslashreplace')
    sys.stdout.write(FORMS.get(asked.form, benchmark_tables.text_of)(rows, made))
    return WRONG if any(failures(rows)) else RIGHT
