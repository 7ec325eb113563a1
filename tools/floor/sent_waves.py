"""Takes the desk file out of an output of `waves`, and makes a page of it for the foreman.

usage: tools/wave waves [options] OUTPUT > desks.csv

OUTPUT is what `waveplan waves` printed, or - for standard input. Its desk file sends its waves out; what desks do after
them is written below it. The waves and the orders that are left are summed up on standard error.

  -o FILE          write the desk file into FILE, whole or not at all, in the place of standard output
  --html FILE      write a page for the foreman: the waves with their orders, their ranks and what their starts pay, and
                   the orders that are left, with why
  --unit UNIT      the unit of length of the layout file, as cm, on the page
  --layout FILE --stock FILE --orders FILE [--open FILE] [--journal FILE] [--units U]
                   the files of that run and the units of its carts: then it is told too of which receipts most orders
                   could go out. Of each article that is short it is looked how many orders more would be served if
                   enough of it came, and how many units that would take beside what is free

An order that is short of several articles is freed by no receipt alone. Nothing here is proved; the output that it
reads is.

Status: 0, or 2 where OUTPUT is no output of `waves`, or a file can't be read or would be refused; 4 where the output
can't be written.
"""

import re
import sys
from collections import Counter, namedtuple

from endings import RIGHT, Trouble, Words, tell_usage
from opinion import answers, waves
from opinion.refusals import Refusal
from opinion.words import Job

from . import sent_pages, whole_files
from .planning import whole
from .trouble import read_bytes

FILES = ('layout', 'stock', 'orders', 'open', 'journal')
NEEDED = FILES[:3]
MOST_UNITS = 40000000
MOST_RECEIPTS = 20  # so many articles, those that most orders are short of first
OUTPUT = re.compile('desks\n(desk,command,arguments\n(?:[1-8],.*\n)*)end desks\nwaves\n((?:wave .*\n)*)end waves\n'
                    'left\n((?:.*\n)*)end left\nend\n')
WAVE = re.compile(r'wave (\S+) orders (\d+) ranks (\d+) (\d+) start (\d+)')
LEFT = re.compile(r'(\S+) (in|over-cart|short|later)((?: \S+){0,3})')

# An output: its desk file, its waves, and the orders that are left, with why in words.
Output = namedtuple('Output', 'desks waves left')
Wave = namedtuple('Wave', 'name orders least greatest start')
Left = namedtuple('Left', 'order why rest')

# An article of which a receipt would free so many orders, and how many units it would take, beside how many orders are
# short of it first.
Receipt = namedtuple('Receipt', 'article short freed units')


def read_output(path):
    """What an output of `waves` has."""
    found = OUTPUT.fullmatch(read_bytes(path).decode('utf-8', 'replace'))
    if not found:
        raise Trouble('%s is no output of `waves` with status 0' % path)
    orders = {name: rest.split(',') for name, rest in re.findall(r'^\d,submit,([^,\n]+),(.*)$', found[1], re.MULTILINE)}
    told = [WAVE.fullmatch(line) for line in found[2].splitlines()]
    left = [LEFT.fullmatch(line) for line in found[3].splitlines()]
    if None in [*told, *left] or [each[1] for each in told] != [*orders]:
        raise Trouble('%s has lines that no output of `waves` has' % path)
    return Output(found[1], [Wave(each[1], orders[each[1]], *map(int, each.groups()[2:])) for each in told],
                  [Left(each[1], each[2], each[3].split()) for each in left])


def summed_up(output):
    """One line of how much goes out and what is left."""
    orders, left = sum(len(wave.orders) for wave in output.waves), Counter(each.why for each in output.left)
    names = {'in': 'in a wave already', 'over-cart': 'over the cart', 'short': 'short', 'later': 'later'}
    told = ', '.join('%d %s' % (left[why], name) for why, name in names.items() if left[why])
    return '%d waves with %d orders go out; %d orders are left%s' % (len(output.waves), orders, len(output.left),
                                                                    ': ' + told if told else '')


def day_of(asked):
    """What the files of the run say, None where they aren't named."""
    named = {name: getattr(asked, name) for name in FILES if getattr(asked, name)}
    if not named:
        return None
    try:
        files = answers.Files(Job('waves', named, {'units': asked.units}), read_bytes, answers.FULL)
        return answers.waves_day_of(files)
    except Refusal as why:
        raise Trouble('a file would be refused: %s' % why.line) from None


def receipts_of(day, output):
    """The articles of which a receipt would free orders, those that free most first."""
    if {each.order for each in output.left if each.why != 'in'} - {one.order for one in day.listed}:
        raise Trouble('the output tells orders that these files have not as open ones: name the files of that run')
    served = {one.order for one in waves.Turns(day).served}
    short = Counter(each.rest[0] for each in output.left if each.why == 'short')
    found = [receipt_of(day, article, count, served) for article, count in short.most_common(MOST_RECEIPTS)]
    return sorted((each for each in found if each.freed), key=lambda each: (-each.freed, each.units))


def receipt_of(day, article, count, served):
    """What a receipt of an article would free, if enough of it came."""
    free = sum(units for _, units in day.book.free_of(article))
    enough = sum(quantity for one in day.listed for each, quantity in day.book.orders[one.order] if each == article)
    turns = waves.Turns(day, {article: enough})
    wanted = sum(quantity for one in turns.served for each, quantity in day.book.orders[one.order] if each == article)
    return Receipt(article, count, len({one.order for one in turns.served} - served), max(0, wanted - free))


def asked_words(words):
    known = Words('waves')
    for name in FILES:
        known.add_argument('--' + name)
    known.add_argument('--units', type=whole(1, MOST_UNITS))
    known.add_argument('--html')
    known.add_argument('--unit')
    known.add_argument('-o', '--output')
    known.add_argument('given', nargs='?')
    return known.read(words)


def main(words):
    asked = asked_words(words)
    is_named = [bool(getattr(asked, name)) for name in NEEDED]
    if asked.help or not asked.given or any(getattr(asked, name) for name in FILES) and not all(is_named):
        return tell_usage(__doc__, asked)
    output, day = read_output(asked.given), day_of(asked)
    receipts = [] if day is None else receipts_of(day, output)
    if asked.html:
        whole_files.write(asked.html, sent_pages.page(output, None if day is None else receipts, asked.unit))
    if asked.output:
        whole_files.write(asked.output, output.desks)
    else:
        print(output.desks, end='', flush=True)
    print(summed_up(output), file=sys.stderr)
    for each in receipts:
        print('%d %s more would free %d of the orders' % (each.units, each.article, each.freed), file=sys.stderr)
    return RIGHT
