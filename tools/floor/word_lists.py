"""Words of a command that are lists: of numbers and ranges, and of names."""

import argparse
import re

from .planning import whole

MOST_LISTED = 100
RANGE = re.compile('([0-9]+)[.][.]([0-9]+)')


def listed(least, most, others=None):
    """Reads a list of numbers and ranges of a word, as 2..6,8. `others` has words that stand for other values."""
    number = whole(least, most)

    def read_part(text):
        if text in (others or {}):
            return [others[text]]
        found = RANGE.fullmatch(text)
        low, high = map(number, found.groups()) if found else [number(text)] * 2
        if not 0 <= high - low < MOST_LISTED:
            raise argparse.ArgumentTypeError('it is no range of 1 to %d numbers' % MOST_LISTED)
        return range(low, high + 1)

    def read(word):
        return [*dict.fromkeys(value for text in word.split(',') for value in read_part(text))]
    return read


def named(known):
    """Reads a list of names of a word, each of which is known."""
    def read(word):
        for name in word.split(','):
            if name not in known:
                raise argparse.ArgumentTypeError('%s is none of %s' % (name[:80], ' and '.join(known)))
        return [*dict.fromkeys(word.split(','))]
    return read
