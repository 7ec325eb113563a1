"""The commands and replies of a journal, parted into fields with names, and put together again."""

import re

# The fields behind the word of each command and of each reply, and behind the reason of each refusal.
COMMANDS = {
    'submit': ('wave', 'orders'), 'allot': ('wave',), 'release': ('wave',), 'cancel': ('wave',),
    'pick': ('wave', 'order', 'location', 'quantity'), 'missing': ('wave', 'order', 'location', 'quantity'),
    'receive': ('location', 'article', 'quantity'),
}
REPLIES = {
    'submitted': (), 'allotted': (), 'released': (), 'cancelled': (), 'picked': (), 'received': (),
    'refilled': ('quantity',), 'lost': ('article', 'quantity'),
}
REFUSALS = {
    'no-orders': (), 'wave-full': ('order_count',), 'known-wave': (), 'unknown-order': ('order',),
    'order-twice': ('order',),
    'order-taken': ('order', 'wave'), 'over-cart': ('order', 'units'), 'unknown-wave': (), 'wrong-state': ('state',),
    'short': ('article', 'wanted', 'free'), 'picking': (), 'not-held': ('location',), 'too-much': ('held',),
    'no-row': (),
    'other-article': ('article',), 'too-many': ('on_hand',),
}
LOCATION = re.compile('[0-9]{1,5}-[0-9]{1,5}-[LR]')
WHOLE = ('quantity', 'order_count', 'units', 'wanted', 'free', 'held', 'on_hand')


def _fields(names, words):
    """Some words as fields. Those of a kind that isn't known here stand in a list. Fails where words of a known kind
    aren't as they should be."""
    if names and names[-1] == 'orders' and words:
        return dict(zip(names, [*words[:len(names) - 1], words[len(names) - 1:]]))
    if names is None:
        return {'arguments': words}
    if len(names) != len(words):
        raise ValueError('%d words where %s are due' % (len(words), ' '.join(names) or 'none'))
    return {name: _value(name, word) for name, word in zip(names, words)}


def location_of(word):
    """A location. Fails where a word is none."""
    if not LOCATION.fullmatch(word):
        raise ValueError('%s is no location' % word)
    return word


def _value(name, word):
    if name == 'location':
        return location_of(word)
    return int(word) if name in WHOLE else word


def _words(names, fields):
    """The words of some fields, in the order of their names, or of the list where the kind isn't known."""
    for name in ('arguments',) if 'arguments' in fields else names:
        yield from map(str, fields[name] if isinstance(fields[name], list) else [fields[name]])


def command_of(words):
    """A command as fields. Each has an argument, of whatever kind it is."""
    if len(words) < 2:
        raise ValueError('%s has no argument' % words[0])
    return {'word': words[0], **_fields(COMMANDS.get(words[0]), words[1:])}


def reply_of(words):
    if words[0] == 'refused':
        return {'word': 'refused', 'reason': words[1], **_fields(REFUSALS.get(words[1]), words[2:])}
    return {'word': words[0], **_fields(REPLIES.get(words[0]), words[1:])}


def line_of(entry):
    """The line of an entry that was parted into fields."""
    command, reply = entry['command'], entry['reply']
    told = [str(entry['entry']), str(entry['desk']), command['word'],
            *_words(COMMANDS.get(command['word'], ()), command)]
    if reply['word'] == 'refused':
        answer = ['refused', reply['reason'], *_words(REFUSALS.get(reply['reason'], ()), reply)]
    else:
        answer = [reply['word'], *_words(REPLIES.get(reply['word'], ()), reply)]
    return '%s -> %s' % (' '.join(told), ' '.join(answer))
