"""What may be chosen of a day: lists and ranges of values, and their combinations."""

import itertools
import json
import re

from endings import Trouble, shortened
from opinion.refusals import Refusal
from opinion.words import NUMBERS, number

from .given_day import number_fault
from .recut import recut
from .warehouse import Layout

MOST = 1000  # combinations
NAMES = ('capacity', 'units', 'pickers', 'budget', 'nodes', 'spacing', 'depot', 'wave', 'rules')
OF_PLAN = ('capacity', 'units', 'pickers', 'budget', 'nodes')
RULES = ('tour', 's-shape', 'return', 'largest-gap')
DEPOT = re.compile(r'([^@]*)(?:@(front|back))?')


def _fail(name, text, why):
    raise Trouble('--%s %s: %s' % (name, shortened(text), why))


def _number(name, text):
    if not re.fullmatch('[0-9]{1,18}', text):
        _fail(name, text, 'here stands a whole number, a list as 2,3,5 or a range as 2..6')
    return int(text)


def _numbers(name, text):
    """The numbers of a part of a list: of a range all from its first to its last."""
    first, dots, last = text.partition('..')
    low = _number(name, first)
    high = _number(name, last) if dots else low
    if high < low:
        _fail(name, text, 'the range goes backwards')
    if high - low >= MOST:
        _fail(name, text, 'the range has more than %d values' % MOST)
    return range(low, high + 1)


def _of_part(name, text):
    """The values of a part of a list."""
    if name == 'rules':
        if text not in (*RULES, 'all'):
            _fail(name, text, 'the rules are %s, or all' % ', '.join(RULES))
        return RULES if text == 'all' else [text]
    if name == 'units' and text == 'none':
        return [None]
    if name == 'depot':
        found = DEPOT.fullmatch(text)
        if not found:
            _fail(name, text, 'a depot is an aisle, as 10, or one with its end, as 10@back')
        return [(aisle, found[2] or 'front') for aisle in _numbers(name, found[1])]
    return _numbers(name, text)


def values_of(name, text):
    """The values of a list, each once."""
    found = {}
    for part in text.split(','):
        found.update(dict.fromkeys(_of_part(name, part)))
        if len(found) > MOST:
            _fail(name, text, 'the list has more than %d values' % MOST)
    return list(found)


def combined(lists):
    """All combinations of the values of some lists, each with the names of its values."""
    names = [name for name in NAMES if name in lists]
    count = 1
    for name in names:
        count *= len(lists[name])
    if count > MOST:
        raise Trouble('the choices have %d combinations, and at most %d are tried: leave some out' % (count, MOST))
    return [dict(zip(names, values)) for values in itertools.product(*(lists[name] for name in names))]


def told(name, value):
    """A value as it is told."""
    if name == 'wave':
        return 'waves of %d' % value if value else 'its own waves'
    if name == 'rules':
        return 'by shortest tours' if value == 'tour' else 'by %s' % value
    if name == 'depot':
        return 'depot %d@%s' % value
    if name == 'spacing':
        return 'spacing %s' % (value or 'of its own')
    return '%s %s' % (name, 'none' if value in (None, 0) and name in ('units', 'pickers', 'nodes') else value)


def as_it_is(day, layout, names):
    """The values that a day has for some names."""
    spacings = set(layout.spacings)
    values = {**day.numbers, 'spacing': spacings.pop() if len(spacings) == 1 else None, 'wave': None, 'rules': 'tour',
              'depot': (layout.depot, 'back' if layout.back else 'front')}
    return {name: values[name] for name in NAMES if name in names}


def fault(choice):
    """What is wrong with the numbers of a choice, None where nothing is."""
    for name in OF_PLAN:
        if choice.get(name) is not None:
            try:
                number(name, str(choice[name]), NUMBERS['plan'][name])
            except Refusal:
                return number_fault(name, choice[name])
    return 'a wave has 1 to 64 orders' if choice.get('wave') is not None and not 1 <= choice['wave'] <= 64 else None


def applied(choice, day, layout, today):
    """A day with a choice. `today` is its output as it is, where its waves are cut anew."""
    found = day.with_numbers(**{name: choice[name] for name in OF_PLAN if name in choice})
    other = with_layout(layout, choice)
    if other != layout:
        found = found.with_files(layout=layout_file(other))
    return found.with_files(desks=recut(today, choice['wave'])) if choice.get('wave') else found


def with_layout(layout, choice):
    """A layout with the spacing and the depot of a choice."""
    if 'spacing' in choice:
        layout = layout._replace(spacings=(choice['spacing'],) * (layout.aisles - 1))
    if 'depot' in choice:
        layout = layout._replace(depot=choice['depot'][0], back=choice['depot'][1] == 'back')
    return layout


def layout_file(layout: Layout):
    """The bytes of a layout file, in version 2."""
    found = {**layout._asdict(), 'version': 2, 'end': 'back' if layout.back else 'front'}
    return json.dumps({name: value for name, value in found.items() if name != 'back'}).encode()
