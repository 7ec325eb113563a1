"""Writes the output of a plan again of the JSON object that to-json has made of it.

usage: tools/wave from-json FILE > day.txt

FILE is such an object, or - for standard input. What comes of it is the output to the byte, but for lines of kinds that
to-json doesn't know. The object may have passed through other programs: the order of its keys and of the picks of a
batch tells nothing. Nothing here is proved; `waveplan audit` and `tools/second-opinion` judge what comes of it.

Status: 0, or 2 where FILE is no such object, with the reason on standard error.
"""

import json
import re
import sys

from endings import RIGHT, Words, tell_usage

from .entries import line_of
from .since import by_location
from .to_json import FORMAT
from .trouble import Trouble, read_bytes

WORD = re.compile('[!-~]+')


def lines_of_batch(batch):
    """The lines of a batch. Its picks are printed by their locations, and at one by the order of the wave."""
    yield 'batch %d length %d orders %s' % (batch['batch'], batch['length'], ' '.join(batch['orders']))
    yield 'tour %s' % ' '.join('%d-%d' % tuple(point) for point in batch['tour'])
    places = {order: place for place, order in enumerate(batch['orders'])}
    for pick in sorted(batch['picks'], key=lambda it: (by_location(it['location']), places[it['order']])):
        yield 'pick %s %s %d %s' % (pick['location'], pick['article'], pick['quantity'], pick['order'])
    if 'rules' in batch:
        yield 'rules %s' % ' '.join('%s %d %d' % (rule['name'], rule['length'], rule['surplus'])
                                    for rule in batch['rules'])


def lines_of_wave(wave):
    units = ' units %d' % wave['units'] if 'units' in wave else ''
    yield 'wave %s entry %d orders %d capacity %d%s cost %d bound %d %s%s' % (
        wave['wave'], wave['entry'], wave['order_count'], wave['capacity'], units, wave['cost'], wave['bound'],
        wave['state'], ' cancelled later' if wave['cancelled_later'] else '')
    for batch in wave['batches']:
        yield from lines_of_batch(batch)
    if wave['certificate'] is not None:
        yield 'certificate %s' % json.dumps(wave['certificate'], separators=(',', ':'), sort_keys=True)
    if 'root' in wave:
        root = wave['root']
        yield 'root %d %d over %d %s' % (root['low'], root['high'], root['over'], root['state'])
    yield 'end wave'


def lines_of_crew(crew):
    yield 'crew longest %d least %d' % (crew['longest'], crew['least'])
    for each in crew['pickers']:
        yield ' '.join(['picker %d load %d batches' % (each['picker'], each['load']), *each['batches']])
    yield 'end crew'


def lines_of(found):
    """All lines of an output."""
    yield from ('journal', *map(line_of, found['journal']), 'end journal')
    for wave in found['waves']:
        yield from lines_of_wave(wave)
    yield 'refills'
    for refill in found['refills']:
        yield 'refill %(entry)d %(wave)s %(order)s %(location)s %(quantity)d' % refill
    yield 'end refills'
    if 'crew' in found:
        yield from lines_of_crew(found['crew'])
    yield from ('stock', *('%(location)s %(article)s %(on_hand)d %(free)d %(held)d' % row for row in found['stock']))
    yield from ('end stock', 'end')


def read_object(path):
    """The object that a file has. Fails where it is none of this format."""
    try:
        found = json.loads(read_bytes(path).decode('utf-8-sig'))
    except (ValueError, RecursionError) as why:
        raise Trouble('%s is no JSON: %s' % (path, why)) from None
    told = found.get('format') if isinstance(found, dict) else None
    if told != FORMAT:
        raise Trouble('%s has %s where "format": "%s" is due: it is of another version of to-json, or no object of it'
                      % (path, '"format": %s' % json.dumps(told) if told is not None else 'no "format"', FORMAT))
    return found


def test_words(value):
    """Fails where a text is no word of an output, as one that --names has put in the place of a name. In a certificate
    there may be any."""
    if isinstance(value, str) and not WORD.fullmatch(value):
        raise ValueError('%s is no name' % ascii(value[:40]))
    for key in value if isinstance(value, dict) else ():
        test_words(value[key] if key not in ('certificate', 'format') else [])
    for each in value if isinstance(value, list) else ():
        test_words(each)


def main(words):
    known = Words('from-json')
    known.add_argument('file', nargs='?')
    asked = known.read(words)
    if asked.help or not asked.file:
        return tell_usage(__doc__, asked)
    found = read_object(asked.file)
    try:
        test_words(found)
        text = ''.join(line + '\n' for line in lines_of(found)).encode()
    except (LookupError, TypeError, ValueError, AttributeError, OverflowError) as why:
        raise Trouble('%s is not as to-json writes it, and docs/TABLES.md says: %s %s'
                      % (asked.file, type(why).__name__, why)) from None
    sys.stdout.buffer.write(text)
    return RIGHT
