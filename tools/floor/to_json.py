"""Writes what a plan printed as one JSON object.

usage: tools/wave to-json [--names FILE] DAY > day.json

DAY is the output of `waveplan plan`, or - for standard input. The object has `format`, `journal`, `waves` with their
batches, tours, picks and certificates, `refills`, `stock`, and `crew` where the day has one; each pick has its place in
the walk, and each batch its `rules`, and each wave its `root`, where they are told. docs/TABLES.md has all fields, and
docs/day.schema.json the same as a JSON Schema. `from-json` writes the output again. Of a day that goes on from a store
the journal and the stock are of all runs, and the rest of the last one. Nothing here is proved; the output that it
reads is.

With --names, the file of `tools/wave import`, the texts of before stand in the place of names: such an object doesn't
go back into the output.

Status: 0, or 2 where DAY is no output of a plan, with the reason on standard error.
"""

import json

from endings import RIGHT, Trouble, Words, tell_usage
from opinion import json_text

from .entries import command_of, reply_of
from .names import restored
from .output import read_output

FORMAT = 'waveplan 1'


def entry_of(entry):
    return {'entry': entry.number, 'desk': entry.desk, 'command': command_of(entry.command),
            'reply': reply_of(entry.reply)}


def batch_of(batch):
    places = [(place, pick) for place, (_, stop) in enumerate(batch.walk(), 1) for pick in stop]
    found = {'batch': batch.number, 'length': batch.length, 'orders': batch.orders, 'tour': batch.tour,
             'picks': [{'place': place, **pick._asdict()} for place, pick in places]}
    return {**found, 'rules': [rule._asdict() for rule in batch.rules]} if batch.rules else found


def certificate_of(wave):
    """The value of a wave's certificate, None where it has none."""
    if not wave.certificate:
        return None
    try:
        json_text.read(wave.certificate.encode())
    except json_text.NotJson:
        raise Trouble('the certificate of wave %s is no JSON' % wave.name) from None
    return json.loads(wave.certificate)


def wave_of(wave):
    found = {'wave': wave.name, 'entry': wave.entry, 'order_count': wave.size, 'capacity': wave.capacity,
             'cost': wave.cost, 'bound': wave.bound, 'state': wave.state, 'cancelled_later': wave.cancelled,
             'batches': [batch_of(batch) for batch in wave.batches], 'certificate': certificate_of(wave)}
    if wave.units is not None:
        found['units'] = wave.units
    return {**found, 'root': wave.root._asdict()} if wave.root else found


def crew_of(crew):
    pickers = [{'picker': each.number, 'load': each.load, 'batches': each.batches} for each in crew.pickers]
    return {'longest': crew.longest, 'least': crew.least, 'pickers': pickers}


def object_of(day):
    found = {'format': FORMAT, 'journal': [entry_of(entry) for entry in day.entries],
             'waves': [wave_of(wave) for wave in day.waves], 'refills': [refill._asdict() for refill in day.refills],
             'stock': [row._asdict() for row in day.rows]}
    return {**found, 'crew': crew_of(day.crew)} if day.crew else found


def asked_words(words):
    known = Words('to-json')
    known.add_argument('--names')
    known.add_argument('day', nargs='?')
    return known.read(words)


def main(words):
    asked = asked_words(words)
    if asked.help or not asked.day:
        return tell_usage(__doc__, asked)
    print(json.dumps(object_of(restored(read_output(asked.day), asked.names)), separators=(',', ':')))
    return RIGHT
