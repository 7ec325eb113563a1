"""The words of the command line, as docs/FORMATS.md has them."""

import re
from collections import namedtuple

from .refusals import Refusal

FILES = {
    'plan': ('layout', 'stock', 'orders', 'desks'),
    'check': ('layout', 'certificate'),
    'audit': ('layout', 'stock', 'orders', 'journal'),
    'make': (),
    'waves': ('layout', 'stock', 'orders', 'open', 'journal'),
}
OPTIONAL = {'waves': ('open', 'journal')}  # files that may be left out
MOST_BUDGET = 10 ** 18
PLAN_NUMBERS = {'capacity': (1, 8), 'budget': (0, MOST_BUDGET), 'nodes': (1, 10 ** 9), 'workers': (1, 16)}
CART_NUMBERS = {'units': (1, 40000000)}
SHOWN_NUMBERS = {'rules': (0, 1), 'pickers': (0, 100), 'root': (0, 1)}  # what a plan tells besides
STORE_NUMBERS = {'store': (0, 1)}
NUMBERS = {
    'plan': {**PLAN_NUMBERS, **CART_NUMBERS, **SHOWN_NUMBERS, **STORE_NUMBERS},
    'check': {},
    'audit': CART_NUMBERS,
    'make': {'number': (0, 2 ** 64 - 1), 'aisles': (1, 64), 'orders': (1, 10000), 'desks': (1, 8), 'wave': (1, 64),
             **PLAN_NUMBERS},
    'waves': {'wave': (1, 64), 'capacity': (1, 8), **CART_NUMBERS, 'most': (1, 500), 'desk': (1, 8),
              'effort': (0, 1000)},
}
GIVEN = {'budget': 2000000, 'nodes': None, 'workers': 1, 'units': None, 'rules': 0, 'pickers': 0, 'root': 0,
         'store': 0, 'most': 500, 'desk': 1, 'effort': 10}  # where they are left out
MOST_WAVES = 500
NUMBER = re.compile(r'\+?[0-9]+|-0+')
INSTEAD = {'nodes': 'budget'}  # what stands in the place of another, so that words have one of the two at most
SIGNED = ('rules', 'pickers', 'root', 'store', 'effort')  # whose 0 may have a minus

# A mode with the names of its files and its numbers, by their options.
Job = namedtuple('Job', 'mode files numbers')


def _bad(option=None, text=None):
    raise Refusal(1, 'refused words bad-words', option, text)


def _is_option(word):
    return word.startswith('-') and word != '-'


def _options(known, words):
    """The options that words give, each with its value."""
    found, left = {}, list(words)
    while left:
        word = left.pop(0)
        if word == '--':
            if left:
                _bad(None, left[0])
            break
        name, equals, value = word[2:].partition('=')
        if not word.startswith('--') or name not in known or name in found:
            _bad(name if name in known else None, word)
        if not equals:
            if not left or _is_option(left[0]):
                _bad(name)
            value = left.pop(0)
        found[name] = value
    return found


def number(name, text, bounds):
    """The number that a text says for an option."""
    low, high = bounds
    digits = text.lstrip('+-').lstrip('0') or '0'
    if (not NUMBER.fullmatch(text) or text.startswith('-') and name not in SIGNED
            or len(digits) > len(str(high)) or not low <= int(digits) <= high):
        _bad(name, text)
    return int(digits)


def read_words(words):
    """The job that words say."""
    if not words:
        raise Refusal(1, 'refused words no-mode')
    for word in words:
        if any('\udc80' <= letter <= '\udcff' for letter in word):
            _bad(None, word)
    mode = words[0]
    if mode not in FILES:
        raise Refusal(1, 'refused words unknown-mode', None, mode)
    found = _options({*FILES[mode], *NUMBERS[mode]}, words[1:])
    for name in (*FILES[mode], *NUMBERS[mode]):
        if name not in found and name not in GIVEN and name not in OPTIONAL.get(mode, ()):
            _bad(name)
    numbers = {name: number(name, found[name], bounds) if name in found else GIVEN[name]
               for name, bounds in NUMBERS[mode].items()}
    for name, other in INSTEAD.items():
        if name in found and other in found:
            _bad(name, other)
    waves = -(-numbers['orders'] // numbers['wave']) if mode == 'make' else 0
    if waves > MOST_WAVES:
        raise Refusal(1, 'refused words too-many-waves %d' % waves)
    return Job(mode, {name: found[name] for name in FILES[mode] if name in found}, numbers)
