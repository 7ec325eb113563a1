"""The journal: which lines are entries, and the audit that answers each command again."""

import re

from .refusals import Refusal
from .stock_book import command_text
from .tables import FORMS, Location

MOST_ENTRIES = 10000

NUMBER = r'(?:0|[1-9][0-9]{0,19})'  # a greater one is no number of 64 bits
NAME = r'[A-Za-z0-9._-]{1,40}'
PLACE = r'(?:0|[1-9][0-9]{0,4})'
LOCATION = '%s-%s-[LR]' % (PLACE, PLACE)
QUANTITY = r'(?:100000|[1-9][0-9]{0,4})'
STATE = '(?:submitted|allotted|released|cancelled|done)'

WORDS = {'name': NAME, 'location': LOCATION, 'quantity': QUANTITY}
COMMANDS = '|'.join(' '.join([word, *[WORDS[form] for form in forms]])
                    + ('(?: %s){0,100}' % NAME if word == 'submit' else '')
                    for word, forms in FORMS.items())
REFUSALS = '|'.join((
    'no-orders', 'wave-full (?P<n>%s)' % NUMBER, 'known-wave', 'unknown-order %s' % NAME, 'order-twice %s' % NAME,
    'order-taken %s %s' % (NAME, NAME),
    'over-cart %s (?P<units>%s)' % (NAME, NUMBER), 'unknown-wave', 'wrong-state %s' % STATE,
    'short %s (?P<wanted>%s) (?P<free>%s)' % (NAME, NUMBER, NUMBER), 'picking', 'not-held %s' % LOCATION,
    'too-much (?P<held>%s)' % NUMBER,
    'no-row', 'other-article %s' % NAME, 'too-many (?P<onhand>%s)' % NUMBER))
REPLIES = '|'.join(('submitted', 'allotted', 'released', 'cancelled', 'picked', 'received', 'refilled %s' % QUANTITY,
                    'lost %s %s' % (NAME, QUANTITY),
                    'refused (?:%s)' % REFUSALS))
ENTRY = re.compile('(?P<number>%s) (?P<desk>[1-8]) (?P<command>%s) -> (?P<reply>%s)' % (NUMBER, COMMANDS, REPLIES))
SHORT = ('n', 'units', 'held', 'onhand')  # numbers below 2 ^ 32; all others are below 2 ^ 64


class Entry:
    """One line of a journal: its number, its desk, its command and the reply that is printed."""

    def __init__(self, found):
        self.number, self.desk = int(found['number']), int(found['desk'])
        self.command, self.reply = command_of(found['command'].split(' ')), found['reply']


def command_of(words):
    """A command of the words in a line."""
    forms = FORMS[words[0]] if words[0] != 'submit' else ['name'] * (len(words) - 1)
    return (words[0], *[_argument(form, text) for form, text in zip(forms, words[1:])])


def _argument(form, text):
    if form == 'location':
        aisle, slot, side = text.split('-')
        return Location(int(aisle), int(slot), side)
    return int(text) if form == 'quantity' else text


def read_entry(line, knows_over_cart=True):
    """The entry that a line is, None where it is none."""
    try:
        found = ENTRY.fullmatch(line.decode('ascii'))
    except UnicodeDecodeError:
        return None
    if not found or int(found['number']) >= MOST_ENTRIES or (found['units'] is not None and not knows_over_cart):
        return None
    for name in ('n', 'units', 'held', 'onhand', 'wanted', 'free'):
        if found[name] is not None and int(found[name]) >= 2 ** (32 if name in SHORT else 64):
            return None
    return Entry(found)


def audit(data, book, knows_over_cart=True):
    """How many entries a journal has, where each has the reply that the book gives. Fails with the first that hasn't.
    """
    lines, count = data.split(b'\n'), 0
    if len(lines) < 2 or lines[0] != b'journal':
        raise Refusal(6, 'refused journal line 1', None, lines[0])
    for place, line in enumerate(lines[1:], 2):
        if line == b'end journal':
            return count
        entry = read_entry(line, knows_over_cart) if place < len(lines) else None
        if entry is None or entry.number != count:
            raise Refusal(6, 'refused journal line %d' % place, None, line)
        right = book.step(entry.command).reply
        if right != entry.reply:
            raise Refusal(6, 'refused journal entry %d printed %s right %s' % (count, entry.reply, right), None,
                          command_text(entry.command))
        count += 1
    raise AssertionError('a last line is an end or a fault')
