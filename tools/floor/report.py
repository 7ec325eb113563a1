"""Tells how good days were: what was walked and picked, how full the carts were, what is proven, refused and missing.

usage: tools/wave report [options] DAY [DAY ..]

DAY is the output of `waveplan plan`, or - for standard input. Each day has a line. Where there are several, their sum
and their mean follow: in the sum a share is that of all days together, and a mean is that of the days that tell it.

  walk     how long the tours are together. What is walked for refills stands in no output, and isn't in it
  lines    the picks of the sheets: units of one article at one location for one order
  full     the orders on the carts against the orders that they have places for, and where carts hold a number of
           units, the units on them against these
  proven   the waves whose bound is their cost. The gap of a wave is its cost less its bound, in percent of its cost;
           an open wave counts with its gap
  rules    how much longer S-shape, return and largest gap would walk past the same picks. They are missing where a day
           was printed without --rules 1
  refused  the refused commands by reason and article: the article that a command names, or its reply, or that lies at
           its location
  short    an article of which a wave wanted more than was free, once for each wave and article. What it wanted less
           what was free when it was refused last would have covered it; where several waves lack one article, each is
           reckoned by itself
  missing  the units that were told missing, by location: refilled, where as many are held elsewhere, or lost
  loads    the load of each picker as it was printed, with --pickers, where carts of cancelled waves count too; `least`
           is what no way to deal the carts has a longest load below
  hours    the walk by hour, where names of waves have a time: as MON-08.00, MON-08:00 or MON-08h00, or four digits at
           the end, as W-0930, where each name that ends with just four digits has a time there

A wave that was cancelled later counts in no figure of waves, carts, walk and hours; `cancelled` tells how many there
were. What was refused, short or missing is told of the whole journal, for such waves too.

Outputs of one day are put together, and that is told: the same output twice counts once; of two plans of a day, where
the journal of one goes on from that of the other, the later one counts; and of a day with a store, whose runs print
their own sheets alone, give the outputs of all runs. Waves whose output isn't given don't count, which is told too.

A report is of days of one layout. With --layout each tour is walked again over that file. Without it days are told
apart as far as outputs tell it: by where tours begin, by the back end of an aisle and rows behind it, and by lengths of
tours that no one layout gives.

  --per-metre N    how many units of the layout file a metre has, as 100 where they are centimetres: lengths are then
                   told in metres. Without it they are in the days' own units, and the columns say so
  --layout FILE    the layout file of all the days
  --names FILE     the texts of before in the place of names: the file of `tools/wave import`
  --csv FILE       a table with a record for each day, and for their sum and their mean
  --json FILE      one object, with the tables behind the days too
  --page FILE      a page of HTML with charts, for any browser and for paper
  --tables FOLDER  days.csv, as --csv has it, and what stands behind it: refused.csv, short.csv, missing.csv, loads.csv
                   and hours.csv, with records of each day

Without --csv, --json or --page to -, which is standard output, the report is text there. In tables and objects lengths
stay in units of the layout file, with `metres` and `metres_a_line` beside them. There `waves_not_given` counts the
waves whose output isn't given; `orders_percent` and `units_percent` say how full the carts were, `gap_percent` what the
mean gap is, and `return_percent` how much longer than the tours return walks, and so for the other rules. What can't be
told is empty or left out, and what isn't whole has two decimals. Nothing here is proved; the outputs that it reads are.

Status: 0, or 2 where a DAY is no output of a plan or of another layout than the others, or 4 where a FILE or FOLDER
can't be written, with the reason on standard error.
"""

import csv
import io
import json
import os
import re
import sys
from fractions import Fraction

from endings import RIGHT, Unwritten, Words, tell_usage

from . import report_page, whole_files
from .many_days import put_together, read_days
from .report_figures import Report, object_of, records_of
from .report_text import text_of
from .trouble import Trouble

NUMBER = re.compile(r'[0-9]{1,9}(\.[0-9]{1,9})?')


def asked_words(words):
    known = Words('report')
    for name in ('--per-metre', '--layout', '--names', '--csv', '--json', '--page', '--tables'):
        known.add_argument(name)
    known.add_argument('days', nargs='*')
    return known.read(words)


def units_of_metre(text):
    """How many units a metre has, None where that isn't said."""
    if text is None:
        return None
    if not NUMBER.fullmatch(text) or not Fraction(text):
        raise Trouble('--per-metre %s is no number of units above 0, as 100 for centimetres' % text[:40])
    return Fraction(text)


def table_text(records):
    to = io.StringIO()
    csv.writer(to).writerows(records)
    return to.getvalue()


def write_tables(folder, tables):
    """Writes each table into a folder, which is made where it isn't there."""
    try:
        os.makedirs(folder, exist_ok=True)
    except OSError as why:
        raise Unwritten('%s cannot be written: %s' % (folder, why.strerror)) from None
    for name, records in tables.items():
        whole_files.write('%s/%s.csv' % (folder, name), table_text(records))


def wanted_of(asked):
    """What is written, by the form: a path, or a dash for standard output, which only one of them can have."""
    wanted = {name: getattr(asked, name) for name in ('csv', 'json', 'page') if getattr(asked, name) is not None}
    if list(wanted.values()).count('-') > 1:
        raise Trouble('only one of --csv, --json and --page can go to standard output')
    return wanted


def text_in(form, report):
    """The report in a form: a table of the days, an object, or a page."""
    if form == 'csv':
        return table_text(records_of(report)['days'])
    return json.dumps(object_of(report)) + '\n' if form == 'json' else ''.join(report_page.page_of(report))


def main(words):
    asked = asked_words(words)
    if asked.help or not asked.days:
        return tell_usage(__doc__, asked)
    per_metre, wanted = units_of_metre(asked.per_metre), wanted_of(asked)
    days, notes = put_together(read_days(asked.days, asked.layout, asked.names))
    report = Report(days, per_metre, notes)
    if asked.tables is not None:
        write_tables(asked.tables, records_of(report))
    texts = {wanted[form]: text_in(form, report) for form in wanted}
    for path in texts:
        if path != '-':
            whole_files.write(path, texts[path])
    sys.stdout.reconfigure(encoding='utf-8', errors='backslashreplace')
    sys.stdout.write(texts['-'] if '-' in texts else ''.join(line + '\n' for line in text_of(report)))
    return RIGHT
