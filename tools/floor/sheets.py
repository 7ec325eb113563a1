"""Makes sheets for pickers of what a plan printed: one HTML file, for any browser or phone, and to be printed on A4.

usage: tools/wave sheets --layout FILE [options] DAY > day.html
       tools/wave sheets --layout FILE [--names FILE] --drawing WAVE BATCH DAY > tour.svg

DAY is the output of `waveplan plan`, or - for standard input, and FILE the layout file of that day. The first page is
for the planner: the day, its totals, each wave with its cost, its bound and how far the two are apart, short articles,
refused commands with their reasons, what usual rules would walk, where it was planned with --rules, between what its
linear bounds lie, where it was planned with --root, the load of each picker, where it was planned with --pickers, and
the carts by length. Then come the pickers with their carts, the refills that are still to be picked, and pages for each
cart: who walks it, its orders, a drawing of its tour, and its picks in the order of the walk, each with a box to tick.
A browser keeps the ticks. Waves that were cancelled later have no pages. What was told missing is marked at its pick,
with the place in its stead. Of a day that goes on from a store there are pages of what went out in the last run; the
first page names the waves of earlier runs, and those of them that were cancelled later.

  --unit UNIT      the unit of length of the layout file, as cm; of mm, cm, dm and m metres a line are told
  --day NAME       the name of the day on its pages, the date of the run where it isn't said
  --run TEXT       when the plan was run, the time at which DAY was written where it isn't said
  --codes          bar codes of the location and the article beside each pick, Code 128
  --wave W         the carts of this wave alone, without the first pages
  --cart K         with --wave, this cart of it alone
  --since DAY      leaves out the carts whose pages this earlier output of the day has too, and names its void pages
  --earlier DAY    of a day with a store the output of an earlier run, whose carts have pages too; as often as needed
  --drawing W K    the drawing of one cart alone, as SVG
  --names FILE     the texts of before in the place of names: the file of `tools/wave import`

Lines of kinds that this script doesn't know are passed over. Nothing here is proved; the output that it reads is.

Status: 0, or 2 where DAY is no output of a plan or FILE isn't its layout, with the reason on standard error.
"""

import os
import sys
import time

from endings import RIGHT, Words, tell_usage

from . import drawing, pages, warehouse
from .names import restored
from .output import read_output, with_earlier
from .trouble import Trouble
from .unchanged import unchanged


def asked_words(words):
    known = Words('sheets')
    known.add_argument('--codes', action='store_true')
    for name in ('--layout', '--names', '--unit', '--run', '--wave', '--cart', '--since'):
        known.add_argument(name)
    known.add_argument('--day', dest='name')
    known.add_argument('--earlier', action='append', default=[])
    known.add_argument('--drawing', nargs=2)
    known.add_argument('day', nargs='?')
    return known.read(words)


def batch_of(day, name, number):
    """A batch of a wave by its number."""
    wave = day.wave(name)
    for batch in wave.batches:
        if str(batch.number) == number:
            return batch
    raise Trouble('wave %s has no batch %s, but 1 to %d' % (name, number, len(wave.batches)))


def wanted_of(day, asked):
    """Which carts are wanted, None where all are. Fails where there is no such cart."""
    if not asked.wave:
        if asked.cart:
            raise Trouble('--cart %s is a cart of which wave? Say it with --wave' % asked.cart)
        return None
    if day.wave(asked.wave).cancelled:
        raise Trouble('wave %s was cancelled later, and has no pages' % asked.wave)
    number = batch_of(day, asked.wave, asked.cart).number if asked.cart else None
    return lambda wave, batch: wave.name == asked.wave and number in (None, batch.number)


def told_of(day, asked):
    """How the sheets are told: the day by its date and the run by its time, where the words don't say them."""
    written = time.localtime(os.stat(asked.day).st_mtime if asked.day != '-' else None)
    run = asked.run or 'planned ' + time.strftime('%Y-%m-%d %H:%M', written)
    return pages.told_of(day, asked.name or time.strftime('%A %Y-%m-%d', written), run, asked.unit, asked.codes)


def main(words):
    asked = asked_words(words)
    if asked.help or not asked.layout or not asked.day:
        return tell_usage(__doc__, asked)
    layout = warehouse.read_layout(asked.layout)
    day = restored(with_earlier(read_output(asked.day), asked.earlier), asked.names)
    warehouse.test_fits(layout, day)
    if asked.drawing:
        print(drawing.drawing(layout, batch_of(day, *asked.drawing)))
        return RIGHT
    wanted = wanted_of(day, asked)
    omitted = None
    if asked.since:
        omitted = unchanged(asked.since, restored(read_output(asked.since), asked.names), day)
    sys.stdout.reconfigure(encoding='utf-8', errors='backslashreplace')
    sys.stdout.writelines(list(pages.of_day(layout, day, told_of(day, asked), wanted, omitted)))
    return RIGHT
