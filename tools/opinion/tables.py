"""The three tables: records of comma-separated fields, and what the readers of the stock, the orders and the desks make
of them."""

import re
from collections import namedtuple

from .refusals import Refusal

MARK = b'\xef\xbb\xbf'
NAME = re.compile(rb'[A-Za-z0-9._-]{1,40}')
NUMBER = re.compile(rb'[0-9]{1,18}')
LOCATION = re.compile(rb'([0-9]{1,5})-([0-9]{1,5})-([LR])')
PLAIN_END = re.compile(rb'[,\r\n]')

MOST_ROWS, MOST_ON_HAND, MOST_PLACES = 25600, 1000000, 1000
MOST_ORDERS, MOST_LINES, MOST_QUANTITY = 10000, 50, 100000
MOST_COMMANDS, MOST_WAVES, MOST_DESKS = 10000, 500, 8

HEADINGS = {
    'stock': [b'location', b'article', b'on_hand'],
    'orders': [b'order', b'article', b'quantity'],
    'desks': [b'desk', b'command', b'arguments'],
    'open': [b'order', b'group', b'rank'],
}
MOST_GROUP, MOST_RANK = 32, 1000000000

# The forms of the fields of each command, from the third on. A submit has up to 100 orders besides.
FORMS = {
    'submit': ['name'],
    'allot': ['name'],
    'release': ['name'],
    'cancel': ['name'],
    'pick': ['name', 'name', 'location', 'quantity'],
    'missing': ['name', 'name', 'location', 'quantity'],
    'receive': ['location', 'name', 'quantity'],
}
MOST_SUBMITTED = 100

Record = namedtuple('Record', 'number fields place')  # its number from 1 on, and where it begins in the file
StockRow = namedtuple('StockRow', 'location article on_hand')


class Location(namedtuple('Location', 'aisle slot side')):
    """Where units lie. Locations are in order of aisle, slot and side."""

    def __str__(self):
        return '%d-%d-%s' % self


class Stock(namedtuple('Stock', 'rows articles')):
    """The rows in order of their locations, and the articles in order of their first records."""


def _end_of_quotes(data, place):
    """Where the quotes that open before a place are closed, the file's end where they aren't, and what is in them."""
    pieces = []
    while True:
        end = data.find(b'"', place)
        if end < 0:
            return len(data), b''.join(pieces) + data[place:]
        pieces.append(data[place:end])
        if data[end + 1:end + 2] != b'"':
            return end + 1, b''.join(pieces)
        pieces.append(b'"')
        place = end + 2


def _field(data, place):
    """One field from a place on, and where it ends: at a comma, a line's end, or the file's."""
    quoted = b''
    if data[place:place + 1] == b'"':
        place, quoted = _end_of_quotes(data, place + 1)
    found = PLAIN_END.search(data, place)
    end = found.start() if found else len(data)
    return quoted + data[place:end], end


def _record(data, place):
    """The fields of one record from a place on, and the place behind it."""
    fields = []
    while True:
        text, place = _field(data, place)
        fields.append(text)
        if data[place:place + 1] != b',':
            return fields, place + 1
        place += 1


def all_records(data):
    """Every record, with all its fields, the empty ones at its end too. Empty lines are none."""
    place, number = len(MARK) if data.startswith(MARK) else 0, 0
    while place < len(data):
        if data[place:place + 1] in (b'\r', b'\n'):
            place += 1
            continue
        number, start = number + 1, place
        fields, place = _record(data, start)
        yield Record(number, fields, start)


def records(data):
    """The records that have a field, without the empty fields at their ends."""
    for record in all_records(data):
        while record.fields and not record.fields[-1]:
            record.fields.pop()
        if record.fields:
            yield record


class Tests:
    """The tests of one record of a file, each of which refuses the file where it fails."""

    def __init__(self, name, record):
        self.name, self.record = name, record

    def fail(self, why, field=None):
        fields = self.record.fields
        text = fields[field - 1] if field and field <= len(fields) else None
        raise Refusal(2, 'refused %s row %d %s' % (self.name, self.record.number, why), field, text)

    def test(self, right, why, field=None):
        if not right:
            self.fail(why, field)

    def columns(self, least, most):
        self.test(least <= len(self.record.fields) <= most, 'columns')

    def texts(self):
        for field, text in enumerate(self.record.fields, 1):
            try:
                text.decode('utf-8')
            except UnicodeDecodeError:
                self.fail('not-utf8', field)

    def word(self, field):
        return self.record.fields[field - 1]

    def name_of(self, field):
        self.test(NAME.fullmatch(self.word(field)), 'bad-name', field)
        return self.word(field).decode()

    def location(self, field):
        found = LOCATION.fullmatch(self.word(field))
        self.test(found, 'bad-name', field)
        return Location(int(found[1]), int(found[2]), found[3].decode())

    def number(self, field):
        self.test(NUMBER.fullmatch(self.word(field)), 'bad-number', field)
        return int(self.word(field))

    def quantity(self, field, least=1, most=MOST_QUANTITY):
        value = self.number(field)
        self.test(least <= value <= most, 'out-of-range', field)
        return value


def _behind_heading(name, data):
    """The records behind the heading, which has to be the first."""
    found = records(data)
    first = next(found, Record(1, [], 0))
    Tests(name, first).test(first.fields == HEADINGS[name], 'columns')
    return found


def read_stock(data, layout):
    """The stock that bytes say, in a layout."""
    rows, places = {}, {}
    for count, record in enumerate(_behind_heading('stock', data), 1):
        tests = Tests('stock', record)
        tests.test(count <= MOST_ROWS, 'too-many-rows')
        tests.columns(3, 3)
        tests.texts()
        location = tests.location(1)
        tests.test(layout.has(location.aisle, location.slot), 'unknown-location', 1)
        tests.test(location not in rows, 'location-twice', 1)
        article = tests.name_of(2)
        tests.test(places.get(article, 0) < MOST_PLACES, 'too-many-places', 2)
        rows[location] = StockRow(location, article, tests.quantity(3, 0, MOST_ON_HAND))
        places[article] = places.get(article, 0) + 1
    return Stock([rows[location] for location in sorted(rows)], list(places))


def read_orders(data, stock):
    """The orders that bytes say, over a stock: the lines of each, an article and a quantity, in the order of their
    first records."""
    orders, articles = {}, set(stock.articles)
    for record in _behind_heading('orders', data):
        tests = Tests('orders', record)
        tests.columns(3, 3)
        tests.texts()
        order = tests.name_of(1)
        tests.test(order in orders or len(orders) < MOST_ORDERS, 'too-many-orders', 1)
        tests.test(len(orders.get(order, ())) < MOST_LINES, 'too-many-lines', 1)
        article = tests.name_of(2)
        tests.test(article in articles, 'unknown-article', 2)
        orders.setdefault(order, []).append((article, tests.quantity(3)))
    return orders


def read_open(data, orders):
    """The open orders that bytes say, over the orders: of each its name, its group and its rank."""
    found = {}
    for record in _behind_heading('open', data):
        tests = Tests('open', record)
        tests.columns(3, 3)
        tests.texts()
        order = tests.name_of(1)
        tests.test(order in orders, 'unknown-order', 1)
        tests.test(order not in found, 'order-twice', 1)
        group = tests.name_of(2)
        tests.test(len(group) <= MOST_GROUP, 'bad-name', 2)
        found[order] = (order, group, tests.quantity(3, 0, MOST_RANK))
    return list(found.values())


def _argument(tests, form, field):
    return {'name': tests.name_of, 'location': tests.location, 'quantity': tests.quantity}[form](field)


def _command(tests):
    """The command of a record: its word and its arguments."""
    word = tests.word(2).decode()
    tests.test(word in FORMS, 'unknown-command', 2)
    forms, count = FORMS[word], len(tests.record.fields)
    if word == 'submit':
        tests.columns(3, 3 + MOST_SUBMITTED)
        forms = ['name'] * (count - 2)
    tests.columns(2 + len(forms), 2 + len(forms))
    return (word, *[_argument(tests, form, 3 + place) for place, form in enumerate(forms)])


def read_desks(data):
    """The scripts that bytes say: for each desk from 1 to the last one its commands."""
    scripts, submits = {}, 0
    for count, record in enumerate(_behind_heading('desks', data), 1):
        tests = Tests('desks', record)
        tests.test(count <= MOST_COMMANDS, 'too-many-rows')
        tests.test(len(record.fields) >= 2, 'columns')
        tests.texts()
        desk = tests.number(1)
        tests.test(1 <= desk <= MOST_DESKS, 'desk-number', 1)
        command = _command(tests)
        submits += command[0] == 'submit'
        tests.test(submits <= MOST_WAVES, 'too-many-waves')
        scripts.setdefault(desk, []).append(command)
    return scripts
