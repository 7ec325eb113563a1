"""What waves were refused for want of, and what became of them."""

from collections import namedtuple

WAITS, WENT_OUT, ALLOTTED, CANCELLED = 'waits', 'went out', 'allotted', 'cancelled'
BECAME = {'released': WENT_OUT, 'allotted': ALLOTTED, 'cancelled': CANCELLED}

# A wave that wanted so many units of an article while so many were free, and what became of it.
Short = namedtuple('Short', 'wave article wanted free became')


def short_of(day):
    """Of each wave and article that it had too little of its last such refusal, in the order of the journal."""
    found, became = {}, {}
    for entry in day.entries:
        if entry.reply[:2] == ['refused', 'short']:
            key = (entry.command[1], entry.reply[2])
            found.pop(key, None)
            found[key] = (int(entry.reply[3]), int(entry.reply[4]))
        elif len(entry.reply) == 1 and entry.reply[0] in BECAME:
            became[entry.command[1]] = BECAME[entry.reply[0]]
    return [Short(*key, *units, became.get(key[0], WAITS)) for key, units in found.items()]
