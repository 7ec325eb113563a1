"""A table of what pickers confirm: a wave, an order, a location, and how many units were picked there for it."""

import csv
import io
import re

from .holding import plain
from .trouble import Trouble, read_bytes

COLUMNS = ('wave', 'order', 'location', 'quantity')
LOCATION = re.compile(r'[0-9]{1,5}-[0-9]{1,5}-[LR]')
NUMBER = re.compile(r'[0-9]{1,9}')


def _rows(path):
    """The rows of a table with the numbers of their lines, commas, semicolons or tabs between the cells."""
    try:
        text = read_bytes(path).decode('utf-8-sig')
    except UnicodeDecodeError:
        raise Trouble('%s is not UTF-8: save it as "CSV UTF-8"' % path) from None
    first = text.partition('\n')[0]
    reader = csv.reader(io.StringIO(text.replace('\r\n', '\n')), delimiter=max(',;\t', key=first.count))
    try:
        return [(reader.line_num, [cell.strip() for cell in cells]) for cells in reader if any(cells)]
    except csv.Error as why:
        raise Trouble('%s is no table: line %d: %s' % (path, reader.line_num, why)) from None


def read_confirmed(path, named):
    """What was picked: by wave, and in it by order and location, the units and the line that told them last. `named`
    gives the names of the texts that stand there."""
    rows = _rows(path)
    heading = [cell.lower() for cell in rows[0][1]] if rows else []
    if not set(COLUMNS) <= set(heading):
        raise Trouble('%s has the heading "%s"; it should have wave,order,location,quantity'
                      % (path, ','.join(heading)))
    places, found = [heading.index(column) for column in COLUMNS], {}
    for line, cells in rows[1:]:
        wave, order, location, units = (cells[place] if place < len(cells) else '' for place in places)
        if not LOCATION.fullmatch(location) or not NUMBER.fullmatch(units) or not wave or not order:
            raise Trouble('line %d of %s is not a wave, an order, a location as 3-17-L and a number: %s'
                          % (line, path, ','.join(cells)))
        told, key = found.setdefault(named(wave), {}), (named(order), plain(location))
        told[key] = (told.get(key, (0, 0))[0] + int(units), line)
    return found
