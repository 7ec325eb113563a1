"""Writes what a plan printed as tables that other programs read.

usage: tools/wave to-csv [--names FILE] DAY FOLDER

DAY is the output of `waveplan plan`, or - for standard input. FOLDER is made where it isn't there, and gets
journal.csv, waves.csv, batches.csv, picks.csv (with each pick's place in the walk), refills.csv, pickers.csv and
stock.csv, each with a heading, as RFC 4180 has it: commas, quotes where they are needed, line ends as CR LF. In
waves.csv the bracket of the linear bound, and in batches.csv what the three rules walk and the number of the picker,
are empty where the day doesn't tell them, and pickers.csv has its heading alone. docs/TABLES.md has all fields. Of a
day that goes on from a store the journal and the stock are of all runs, and the other tables of the last one. Nothing
here is proved; the output that it reads is.

With --names, the file of `tools/wave import`, the texts of before stand in the place of names.

Status: 0, or 2 where DAY is no output of a plan, or 4 where FOLDER can't be written, with the reason on standard error.
"""

import csv
import os

from endings import RIGHT, Unwritten, Words, tell_usage

from .names import restored
from .output import name_of, read_output

FIELDS = {'pick': ('order', 'location', 'quantity'), 'missing': ('order', 'location', 'quantity'),
          'receive': ('location', 'article', 'quantity')}


def journal(day):
    yield 'entry desk command wave orders location article quantity reply reason about'.split()
    for entry in day.entries:
        word, *rest = entry.command
        wave = '' if word == 'receive' else rest.pop(0)
        told = dict(zip(FIELDS.get(word, ()), rest))
        orders = told.get('order', ' '.join(rest) if word == 'submit' else '')
        refused = entry.reply[0] == 'refused'
        reason = entry.reply[1] if refused else ''
        about = ' '.join(entry.reply[2 if refused else 1:])
        yield [entry.number, entry.desk, word, wave, orders,
               *(told.get(each, '') for each in ('location', 'article', 'quantity')), entry.reply[0], reason, about]


def waves(day):
    yield ('wave entry order_count capacity units batches cost bound state cancelled_later root_low root_high '
           'root_over root_state').split()
    for wave in day.waves:
        units = '' if wave.units is None else wave.units
        yield [wave.name, wave.entry, wave.size, wave.capacity, units, len(wave.batches), wave.cost, wave.bound,
               wave.state, 'yes' if wave.cancelled else 'no',
               *(wave.root or [''] * 4)]


def batches(day):
    yield 'wave batch length orders picks units tour s_shape return largest_gap picker'.split()
    picker_of = day.picker_of()
    for wave in day.waves:
        for batch in wave.batches:
            tour = ' '.join('%d-%d' % point for point in batch.tour)
            rules = {rule.name: rule.length for rule in batch.rules}
            yield [wave.name, batch.number, batch.length, ' '.join(batch.orders), len(batch.picks),
                   sum(pick.quantity for pick in batch.picks), tour,
                   *(rules.get(name, '') for name in ('s-shape', 'return', 'largest-gap')),
                   picker_of.get(name_of(wave, batch), '')]


def picks(day):
    yield 'wave batch place location article quantity order'.split()
    for wave in day.waves:
        for batch in wave.batches:
            for place, (_, stop) in enumerate(batch.walk(), 1):
                for pick in stop:
                    yield [wave.name, batch.number, place, *pick]


def refills(day):
    yield 'entry wave order location quantity'.split()
    yield from map(list, day.refills)


def pickers(day):
    yield 'picker load batches'.split()
    for picker in day.crew.pickers if day.crew else ():
        yield [picker.number, picker.load, ' '.join(picker.batches)]


def stock(day):
    yield 'location article on_hand free held'.split()
    yield from map(list, day.rows)


TABLES = {'journal': journal, 'waves': waves, 'batches': batches, 'picks': picks, 'refills': refills,
          'pickers': pickers, 'stock': stock}


def asked_words(words):
    known = Words('to-csv')
    known.add_argument('--names')
    known.add_argument('day', nargs='?')
    known.add_argument('folder', nargs='?')
    return known.read(words)


def main(words):
    asked = asked_words(words)
    if asked.help or not asked.folder:
        return tell_usage(__doc__, asked)
    day = restored(read_output(asked.day), asked.names)
    tables = {name: list(rows(day)) for name, rows in TABLES.items()}
    try:
        os.makedirs(asked.folder, exist_ok=True)
        for name, rows in tables.items():
            with open('%s/%s.csv' % (asked.folder, name), 'w', encoding='utf-8', newline='') as it:
                csv.writer(it).writerows(rows)
    except OSError as why:
        raise Unwritten('%s cannot be written: %s' % (asked.folder, why.strerror)) from None
    return RIGHT
