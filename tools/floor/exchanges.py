"""Exchanges of two rows of a stock: the article of each, with its units, lies at the location of the other."""

from endings import Trouble
from opinion import tables
from opinion.refusals import Refusal

AT = {b'pick': 4, b'missing': 4, b'receive': 2}  # where the location stands in the record of a command


def swapped(exchanges):
    """Where what lies at each location goes by some exchanges of two locations."""
    where = {}
    for one, other in exchanges:
        where.update({one: other, other: one})
    return where


def location_of(field):
    """The location that a field says, without leading zeros."""
    aisle, slot, side = tables.LOCATION.fullmatch(field).groups()
    return '%d-%d-%s' % (int(aisle), int(slot), side.decode())


def by_location(text):
    aisle, slot, side = text.split('-')
    return int(aisle), int(slot), side


def rows_of(day, layout, told):
    """The article at each location of a day's stock file, in the order of the locations. Fails where its stock or its
    desks can't be read; `told` names the day."""
    try:
        tables.read_desks(day.files['desks'])
        return {str(row.location): row.article for row in tables.read_stock(day.files['stock'], layout).rows}
    except Refusal as why:
        raise Trouble('%s is refused: %s' % (told, why.line)) from None


def _fields(data):
    return [record.fields for record in tables.records(data)]


def _file(lines):
    return b''.join(b','.join(fields) + b'\n' for fields in lines)


def stock_file(data, exchanges):
    """A stock file after exchanges. Its records keep their order and their articles, and change their locations."""
    where = swapped(exchanges)
    heading, *rows = _fields(data)
    places = [location_of(row[0]) for row in rows]
    return _file([heading, *([where.get(place, place).encode(), *row[1:]] for place, row in zip(places, rows))])


def desk_file(data, exchanges):
    """A desk file whose commands go where the articles lie after exchanges."""
    where, lines = swapped(exchanges), _fields(data)
    for fields in lines[1:]:
        if fields[1] in AT:
            place = location_of(fields[AT[fields[1]]])
            fields[AT[fields[1]]] = where.get(place, place).encode()
    return _file(lines)


def applied(day, exchanges):
    """A day over the stock after exchanges."""
    if not exchanges:
        return day
    return day.with_files(stock=stock_file(day.files['stock'], exchanges),
                          desks=desk_file(day.files['desks'], exchanges))
