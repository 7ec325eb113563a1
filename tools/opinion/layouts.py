"""The layout file, of either version, and the lengths in a warehouse."""

from collections import namedtuple

from . import json_text
from .refusals import Refusal

SHAPE = ['version', 'aisles', 'slots', 'pitch', 'clearance']
KEYS = {1: SHAPE + ['spacing', 'depot'], 2: SHAPE + ['spacings', 'depot', 'end']}
MOST = {'aisles': 64, 'slots': 200, 'pitch': 10000, 'clearance': 10000, 'spacing': 10000}


class Layout(namedtuple('Layout', 'aisles slots pitch clearance spacings depot back')):
    """A block of parallel aisles. `spacings` has the length from each aisle to the next; the depot lies at the back
    where `back` is true."""

    def length(self):
        """The length of an aisle from end to end."""
        return 2 * self.clearance + (self.slots - 1) * self.pitch

    def depth(self, slot):
        """How far a slot or an end lies from the front end."""
        if slot == 0:
            return 0
        return self.length() if slot == self.slots + 1 else self.clearance + (slot - 1) * self.pitch

    def depot_point(self):
        return self.depot, self.slots + 1 if self.back else 0

    def has(self, aisle, slot):
        """Whether there is such a slot."""
        return 1 <= aisle <= self.aisles and 1 <= slot <= self.slots


def _is_whole(value):
    return isinstance(value, int) and not isinstance(value, bool)


def _refuse(why, key=None, value=None):
    raise Refusal(2, 'refused layout %s' % ' '.join(filter(None, (why, key))), key, value)


def _test_range(value, key, most):
    if not _is_whole(value):
        _refuse('not-whole', key, value)
    if not 1 <= value <= most:
        _refuse('out-of-range', key, value)


def _test_spacings(value, aisles):
    if not isinstance(value, list) or not all(map(_is_whole, value)):
        _refuse('not-whole', 'spacings', value)
    if len(value) != aisles - 1 or not all(1 <= each <= MOST['spacing'] for each in value):
        _refuse('out-of-range', 'spacings', value)


def _test_key(found, key):
    value = found[key]
    if key == 'spacings':
        _test_spacings(value, found['aisles'])
    elif key == 'end':
        if value not in ('front', 'back'):
            _refuse('not-end', None, value)
    elif key == 'depot':
        _test_range(value, key, found['aisles'])
    elif key != 'version':
        _test_range(value, key, MOST[key])


def _version(found, versions):
    """The version of a layout file. Where one version alone is known, its keys are looked for first."""
    if len(versions) > 1:
        if 'version' not in found:
            _refuse('missing-key', 'version')
        if not _is_whole(found['version']):
            _refuse('not-whole', 'version', found['version'])
        if found['version'] not in versions:
            _refuse('out-of-range', 'version', found['version'])
        return found['version']
    return versions[0]


def _test_version(value, versions):
    if not _is_whole(value):
        _refuse('not-whole', 'version', value)
    if value not in versions:
        _refuse('out-of-range', 'version', value)


def read_layout(data, versions=(1, 2)):
    """The layout that bytes say, where files of these versions are read."""
    try:
        found = json_text.read(data)
    except json_text.NotJson:
        _refuse('not-json')
    if not isinstance(found, dict):
        _refuse('not-object')
    keys = KEYS[_version(found, versions)]
    for key in keys:
        if key not in found:
            _refuse('missing-key', key)
    for key in found:
        if key not in keys:
            _refuse('unknown-key', None, key)
    _test_version(found['version'], versions)
    for key in keys:
        _test_key(found, key)
    aisles = found['aisles']
    spacings = tuple(found.get('spacings', [found.get('spacing')] * (aisles - 1)))
    return Layout(aisles, found['slots'], found['pitch'], found['clearance'], spacings, found['depot'],
                  found.get('end') == 'back')
