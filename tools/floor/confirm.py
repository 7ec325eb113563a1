"""Writes the commands that tell a wave, one of its batches, or a list of what was picked, as picked and missing.

usage: tools/wave confirm DAY WAVE [BATCH] [--desk N] [--after DESKS] [--names FILE] [--earlier DAY] .. >> desks.csv
       tools/wave confirm DAY --from FILE [--desk N] [--after DESKS] [--names FILE] [--earlier DAY] .. >> desks.csv

DAY is the output of `waveplan plan`, or - for standard input. With a wave there is one record
`N,pick,WAVE,ORDER,LOCATION,QUANTITY` for all that the wave, or the batch of this number, still holds at the end of the
day for an order at a location: what its sheet says, less what the journal tells as picked or missing, and with what is
held elsewhere in its place. There is no heading: the records go behind those of a desk file.

With --from the records are those of a table of what was picked, with the heading wave,order,location,quantity in any
order of its columns, and commas, semicolons or tabs between them. Where less was picked than is held, the rest is told
as missing, before anything is told as picked; a quantity of 0 says that nothing was there. What isn't in the table
stays held.

With --after the commands of DESKS that DAY hasn't answered yet come before these records: what they tell as picked or
missing is left out. DESKS may be the file to which the records are added. What is held elsewhere by them is confirmed
after the next plan.

With --names, the file of `tools/wave import`, the texts of before may stand in the place of names, as they do on sheets
that were printed with it.

Of a day that goes on from a store DAY is the last output, and --earlier names the outputs of earlier runs: the wave's
sheet stands in one of them, and refills may in others. Nothing here is proved; the output that it reads is.

Status: 0, or 2 where DAY is no output of a plan, the wave isn't there to be picked, or the table tells of more than is
held, with the reason on standard error.
"""

import collections
import sys

from endings import RIGHT, Words, tell_usage
from opinion import tables
from opinion.refusals import Refusal
from opinion.stock_book import command_text

from .confirmed import read_confirmed
from .holding import still_held
from .names import named_by
from .output import read_output, with_earlier
from .trouble import Trouble, read_bytes

MOST = 100000  # units that one command tells


def records(desk, word, wave, told):
    """The records of one command for some units by order and location."""
    for (order, location), units in told.items():
        while units > 0:
            yield '%d,%s,%s,%s,%s,%d' % (desk, word, wave, order, location, min(units, MOST))
            units -= MOST


def new_commands(day, path):
    """The commands of a desk file that a day hasn't answered: those beyond the whole journal, where the file has it;
    else, as with a store, those behind the journal's last commands, where the file begins with these, or all."""
    try:
        scripts = tables.read_desks(read_bytes(path))
    except Refusal as why:
        raise Trouble('%s is no desk file: %s; tools/explain says why' % (path, why.line)) from None
    found = [command for desk in sorted(scripts) for command in scripts[desk]]
    texts, answered = list(map(command_text, found)), [' '.join(entry.command) for entry in day.entries]
    if not collections.Counter(answered) - collections.Counter(texts):
        return _beyond(answered, found)
    most = min(len(texts), len(answered))
    return found[max(count for count in range(most + 1) if answered[len(answered) - count:] == texts[:count]):]


def _beyond(answered, commands):
    """The commands beyond those that were answered, each as often as it stands there more often."""
    left, new = collections.Counter(answered), []
    for command in commands:
        text = command_text(command)
        new += [] if left[text] else [command]
        left[text] -= left[text] > 0
    return new


def held_after(held, wave, commands):
    """What is held after some commands that tell units of a wave as picked or missing."""
    for word, *arguments in commands:
        if word in ('pick', 'missing') and arguments[0] == wave:
            key = (arguments[1], str(arguments[2]))
            held[key] = held.get(key, 0) - arguments[3]
    return {key: units for key, units in held.items() if units > 0}


def held_of(day, name, batch, commands):
    """What a wave, or one of its batches, still holds after some commands. Fails where there is no such wave to be
    picked."""
    wave = day.wave(name)
    if wave.cancelled:
        raise Trouble('wave %s was cancelled later, and holds nothing' % wave.name)
    batches = [each for each in wave.batches if batch in (None, each.number)]
    if not batches:
        raise Trouble('wave %s has no batch %s, but 1 to %d' % (wave.name, batch or 'at all', len(wave.batches)))
    return held_after(still_held(day, wave, batches), wave.name, commands)


def of_table(day, picked, commands):
    """For each wave of a table what is missing and what was picked. Fails where more was picked than is held."""
    for wave, told in picked.items():
        held, missing = held_of(day, wave, None, commands), {}
        for (order, location), (units, line) in told.items():
            rest = held.get((order, location), 0) - units
            if rest < 0:
                raise Trouble('line %d: wave %s holds %d for %s at %s, and %d were picked there: was it told already?'
                              % (line, wave, held.get((order, location), 0), order, location, units))
            missing[order, location] = rest
        yield wave, missing, {key: units for key, (units, _) in told.items()}


def asked_words(words):
    known = Words('confirm')
    known.add_argument('--desk', type=int, choices=range(1, 9), default=1)
    known.add_argument('day', nargs='?')
    known.add_argument('wave', nargs='?')
    known.add_argument('batch', nargs='?', type=int)
    known.add_argument('--earlier', action='append', default=[])
    known.add_argument('--after')
    known.add_argument('--names')
    known.add_argument('--from', dest='table')
    return known.read(words)


def main(words):
    asked = asked_words(words)
    if asked.help or not asked.day or bool(asked.wave) == bool(asked.table):
        return tell_usage(__doc__, asked)
    day = with_earlier(read_output(asked.day), asked.earlier)
    commands, named = new_commands(day, asked.after) if asked.after else [], named_by(asked.names)
    if asked.wave:
        wave = named(asked.wave)
        found = [(wave, {}, held_of(day, wave, asked.batch, commands))]
    else:
        found = list(of_table(day, read_confirmed(asked.table, named), commands))
    for word, place in (('missing', 1), ('pick', 2)):
        for told in found:
            sys.stdout.writelines(line + '\n' for line in records(asked.desk, word, told[0], told[place]))
    return RIGHT
