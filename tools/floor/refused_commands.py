"""Tells of each command that a journal has refused why it was, and what to do."""

from opinion import tables

from . import refusals
from .causes import closest
from .entries import command_of, reply_of
from .output import read_output
from .trouble import read_bytes

# Of each reason the cause and the cure. In braces stand the fields of the command and of the reply.
REASONS = refusals.of('command')


def is_done(entry):
    return entry.reply[0] != 'refused'


def last_before(entries, entry, wave, words, done=True):
    """The last entry before one whose command is one of some words for a wave, of those that were done or were
    refused."""
    return next((each for each in reversed(entries[:entry.number])
                 if each.command[0] in words and each.command[1:2] == [wave] and is_done(each) == done), None)


def told_before(entries, entry, reason):
    """What the journal tells before an entry that explains its refusal."""
    wave = entry.command[1]
    if reason in ('known-wave', 'wrong-state'):
        words = ('submit',) if reason == 'known-wave' else ('submit', 'allot', 'release', 'cancel', 'pick', 'missing')
        found = last_before(entries, entry, wave, words)
        return ', since entry %d' % found.number if found else ''
    if reason == 'picking':
        found = last_before(entries, entry, wave, ('pick',))
        return ', last in entry %d' % found.number if found else ''
    if reason == 'unknown-wave':
        found = last_before(entries, entry, wave, ('submit',), done=False)
        return ': entry %d would have, and was refused too' % found.number if found else ''
    return ''


def wanting(entries, entry, orders):
    """The orders of a wave that want a short article, each with its units."""
    submit = last_before(entries, entry, entry.command[1], ('submit',))
    wants = {}
    for order, article, units in orders:
        if submit and order in submit.command[2:] and article == entry.reply[2]:
            wants[order] = wants.get(order, 0) + units
    return ', '.join('%s wants %d' % each for each in wants.items())


def fields_of(entry):
    """The fields of a command and of its reply; where both have one of a name, that of the reply."""
    return {**command_of(entry.command), **reply_of(entry.reply)}


def cause_of(entries, entry):
    """Why a command was refused, nothing where the command or the reason isn't known here."""
    fields, reason = fields_of(entry), entry.reply[1]
    if reason not in REASONS or 'arguments' in fields:
        return ''
    return REASONS[reason][0].format_map(fields) + told_before(entries, entry, reason)


def cure_of(entry):
    fields, reason = fields_of(entry), entry.reply[1]
    if reason == 'wrong-state':
        return refusals.of('state').get(fields['state'], ('', 'see docs/RULES.md'))[1]
    return REASONS[reason][1].format_map(fields)


def explained(entries, entry, orders):
    """The lines that explain one refused command."""
    cause, reason = cause_of(entries, entry), entry.reply[1]
    yield 'entry    %d, desk %d: %s -> %s' % (entry.number, entry.desk, ' '.join(entry.command), ' '.join(entry.reply))
    if not cause:
        yield 'cause    this script does not know the command or the reason'
        yield 'cure     look it up in docs/FORMATS.md'
        return
    yield 'cause    %s' % cause
    near = closest(entry.reply[2], {order for order, _, _ in orders}) if reason == 'unknown-order' else None
    if near:
        yield 'perhaps  %s' % near
    if reason == 'short' and wanting(entries, entry, orders):
        yield 'orders   %s' % wanting(entries, entry, orders)
    later = [each for each in entries[entry.number + 1:] if each.command == entry.command and is_done(each)]
    if later:
        yield 'later    entry %d was answered %s' % (later[0].number, ' '.join(later[0].reply))
    yield 'cure     %s' % cure_of(entry)


def lines_of_orders(path):
    """The lines of an order file that are whole: an order, an article and the units."""
    rows = [record.fields for record in tables.records(read_bytes(path))]
    whole = [fields for fields in rows if len(fields) == 3 and tables.NUMBER.fullmatch(fields[2])]
    texts = [[field.decode('utf-8', 'replace') for field in fields] for fields in whole]
    return [(order, article, int(units)) for order, article, units in texts]


def of_journal(path, orders):
    """The lines that explain all refused commands of an output, none where there are none."""
    day, lines = read_output(path), lines_of_orders(orders) if orders else []
    return [line for entry in day.refused() for line in ['', *explained(day.entries, entry, lines)]][1:]
