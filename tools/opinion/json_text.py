"""JSON as docs/FORMATS.md has it: UTF-8 without a mark, at most 127 lists and objects deep, of equal keys the last."""

import json
import re

DEEPEST = 127
SURROGATE = re.compile(r'\\u[dD][89a-fA-F]')


class NotJson(ValueError):
    """The bytes aren't JSON."""


class Number:
    """A number that isn't whole: it has a sign, a point or an exponent, or is 2 ^ 64 or more."""

    def __init__(self, text):
        self.text = text

    def __repr__(self):
        return self.text


def _whole(text):
    if text.startswith('-') or len(text) > 20 or int(text) >= 2 ** 64:
        return _broken(text)
    return int(text)


def _broken(text):
    if float(text) in (float('inf'), float('-inf')):
        raise NotJson('a number beyond all numbers')
    return Number(text)


def _none(name):
    raise NotJson('%s is no JSON' % name)


def _parts(value):
    """The values in a list or an object, and the texts in it."""
    if isinstance(value, dict):
        return list(value.values()), list(value)
    return (value, []) if isinstance(value, list) else ([], [value] if isinstance(value, str) else [])


def _tested(value, has_surrogates):
    """Fails where lists and objects lie too deep, or a text has half a character."""
    level, depth = [value], 0
    while level:
        inner, texts = [], []
        for each in level:
            parts, some = _parts(each)
            inner += parts
            texts += some
        depth += any(isinstance(each, (dict, list)) for each in level)
        if depth > DEEPEST:
            raise NotJson('more than %d lists and objects deep' % DEEPEST)
        if has_surrogates and any('\ud800' <= letter <= '\udfff' for text in texts for letter in text):
            raise NotJson('half a character')
        level = inner
    return value


def read(data):
    """The value that bytes have as JSON. Whole numbers are int, all others Number."""
    try:
        text = data.decode('utf-8')
        value = json.loads(text, parse_int=_whole, parse_float=_broken, parse_constant=_none)
    except (UnicodeDecodeError, ValueError, RecursionError) as why:
        raise NotJson(str(why)) from None
    return _tested(value, SURROGATE.search(text) is not None)


def compact(value):
    """A value of whole numbers, texts, lists and objects as it is printed: nothing between its parts, keys in the order
    of their bytes."""
    return json.dumps(value, separators=(',', ':'), sort_keys=True, default=repr).encode()
