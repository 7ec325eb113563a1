"""Makes a file that waveplan reads of a table as a spreadsheet or a warehouse system writes it.

usage: tools/wave import stock|orders|desks FILE [options] -o stock.csv

FILE is a text of rows with a heading, or - for standard input: commas, semicolons or tabs between the cells; UTF-8 with
or without a mark, UTF-16 with its mark. The columns may stand in any order, and empty rows are passed over. What can't
be read is told on standard error, a line for each cause with what to do, and then nothing is written; the last line has
the options with which it may be read, as far as that can be guessed. Nothing here is proved; waveplan reads what comes
of it by its own tests. Options stand before or behind the other words.

  -o FILE                  write FILE, whole or not at all, in the place of standard output; it may be the file that is
                           read
  --all                    tell every cell that can't be read, and not ten of them
  --columns NAME=WORD,..   the words of the heading: of a stock location, article, on_hand; of orders order, article,
                           quantity; of desks desk, command, and either arguments, with all that stands right of it, or
                           wave, order, location, article, quantity
  --skip N                 so many lines of title stand above the heading
  --skip-last N            so many rows at the end are no records, as a row of totals
  --separator NAME         comma, semicolon or tab, where the heading doesn't show which
  --encoding NAME          utf-8, utf-16 or latin-1, where it isn't UTF-8 or UTF-16 with a mark
  --decimal SIGN           . or , : the sign before tenths. Then 36.0 is 36, and the other sign may set thousands apart:
                           1,200 is 1200
  --location PATTERN       how locations are written, {aisle}-{slot}-{side} where it isn't said; for instance
                           {aisle}-{side}-{slot} for 01-A-05. What isn't used, as a level or a bin, has a name of its
                           own: {aisle}-{slot}-{side}-{level}
  --sides WORD=L,WORD=R    what stands for the left and the right side, L=L,R=R where it isn't said; small letters and
                           capitals are the same. Of a pattern without {side}: odd=L,even=R, where slots 1 and 2 face
                           each other, or all=L
  --aisles WORD=N,WORD=N   the number of each aisle that has letters
  --letters                aisles have letters: A is 1, B is 2, AA is 27
  --names FILE             names with blanks, slashes or other letters get names that fit, and FILE keeps both: the same
                           for the same text in every table and run. tools/sheets, to-csv, to-json and explain print the
                           texts again with --names FILE
  --take-dates             names that look like dates or powers, as 10-Apr or 4.7E12, are names

Status: 0; 1 where a cell can't be read; 2 where the file or the words can't be.
"""

import argparse
import os
import shlex
import sys

import endings
from endings import REFUSED, RIGHT, WRONG, Words, tell_usage

from . import guesses, sheet_files, whole_files
from .cells import Pattern, Unread, is_total, name, whole
from .complaints import Complaints
from .names import Names
from .trouble import Trouble, read_bytes

MOST_ON_HAND, MOST_QUANTITY, MOST_DESKS = 1000000, 100000, 8
MOST_ROWS, MOST_PLACES, MOST_ORDERS, MOST_LINES, MOST_COMMANDS = 25600, 1000, 10000, 50, 10000
COLUMNS = {'stock': ['location', 'article', 'on_hand'], 'orders': ['order', 'article', 'quantity'],
           'desks': ['desk', 'command']}
ARGUMENTS = ['arguments', 'wave', 'order', 'location', 'article', 'quantity']
HEADINGS = {'stock': 'location,article,on_hand', 'orders': 'order,article,quantity', 'desks': 'desk,command,arguments'}
NUMBERS = {'on_hand': (0, MOST_ON_HAND), 'quantity': (1, MOST_QUANTITY), 'desk': (1, MOST_DESKS)}
FORMS = {'submit': [], 'allot': ['wave'], 'release': ['wave'], 'cancel': ['wave'],
         'pick': ['wave', 'order', 'location', 'quantity'], 'missing': ['wave', 'order', 'location', 'quantity'],
         'receive': ['location', 'article', 'quantity']}
MOST_GUESSES = 6
USUAL = {'location': '{aisle}-{slot}-{side}', 'sides': {'L': 'L', 'R': 'R'}}
REPEATED = ('skip', 'skip_last', 'separator', 'encoding', 'columns', 'decimal', 'location', 'sides', 'aisles',
            'letters', 'names', 'take_dates')


class Reader:
    """Reads the rows of one file, and keeps what can't be read."""

    def __init__(self, asked, places):
        self.asked, self.places, self.unread, self.notes = asked, places, Complaints(), []
        self.pattern = Pattern(asked.location, asked.sides, asked.aisles, asked.letters)
        self.names = Names(asked.names) if asked.names else None
        self.records = []

    def tell(self, number, column, text, why, cause=None):
        self.unread.tell(number, column, self.places.get(column, 0), text, why, cause or why)

    def cell(self, number, column, text, read):
        """What a cell says, None where it can't be read."""
        try:
            return read(text)
        except Unread as why:
            self.tell(number, column, text, str(why), why.cause)
            return None

    def at(self, cells, column):
        """The text of a column, none where the heading hasn't it."""
        place = self.places.get(column, len(cells))
        return cells[place] if place < len(cells) else ''

    def kind(self, column):
        """How the cells of a column are read."""
        if column in NUMBERS:
            return lambda text: whole(text, self.asked.decimal, *NUMBERS[column])
        if column == 'location':
            return self.pattern.read
        takes_dates = self.asked.take_dates or column == 'wave'
        return lambda text: name(text, takes_dates, self.names)

    def row(self, number, cells, columns):
        """The fields of a row, in the order of some columns."""
        return [self.cell(number, column, self.at(cells, column), self.kind(column)) for column in columns]


def read_stock(reader, rows):
    seen, lines = {}, {}
    for number, cells in rows:
        fields = reader.row(number, cells, COLUMNS['stock'])
        location, article = fields[:2]
        reader.records.append(fields)
        if location in seen and location:
            tell_twice(reader, number, reader.at(cells, 'location'), location, seen[location])
        seen.setdefault(location, number)
        lines.setdefault(article, []).append(number)
        if article and len(lines[article]) == MOST_PLACES + 1:
            reader.tell(number, 'article', article, 'an article has at most %d locations: leave some out' % MOST_PLACES)
    lines.pop(None, None)
    test_count(reader, rows, MOST_ROWS)
    note_articles(reader, {article: each for article, each in lines.items() if len(each) > 1})


def tell_twice(reader, number, text, location, first):
    """Tells that a location stands in two rows."""
    unused = reader.pattern.unused()
    more = ', or have {%s} make a slot of its own' % unused[0] if unused else ''
    why = ('line %d has it too, as %s: waveplan would say "refused stock row %d location-twice". Join the two, or '
           'correct one%s' % (first, location, len(reader.records) + 1, more))
    reader.tell(number, 'location', text, why, 'twice')


def note_articles(reader, lines):
    """Notes which articles lie at more than one location."""
    if lines:
        article, numbers = next(iter(lines.items()))
        reader.notes.append('%d articles lie at more than one location, as %s in lines %d and %d: waveplan takes all '
                            'these rows, and says nothing of it' % (len(lines), article, *numbers[:2]))


def read_orders(reader, rows):
    lines = {}
    for number, cells in rows:
        fields = reader.row(number, cells, COLUMNS['orders'])
        lines[fields[0]] = lines.get(fields[0], 0) + 1
        if fields[0] and lines[fields[0]] == MOST_LINES + 1:
            reader.tell(number, 'order', fields[0], 'an order has at most %d lines: join lines of one article, or '
                        'divide it' % MOST_LINES)
        if len(lines) == MOST_ORDERS + 1 and lines[fields[0]] == 1:
            reader.tell(number, 'order', fields[0], 'there are at most %d orders: leave some out' % MOST_ORDERS)
        reader.records.append(fields)


def test_count(reader, rows, most):
    if len(rows) > most:
        reader.tell(rows[most][0], 'all', '', 'there are at most %d rows: leave some out' % most)


def word_of(text):
    """A command's word."""
    word = text.lower()
    if word not in FORMS:
        raise Unread('it is no command: one of %s' % ', '.join(FORMS), 'no command')
    return word


def orders_in(text, names):
    """The orders that one cell names: commas or semicolons stand between them, or else blanks."""
    if ',' in text or ';' in text or names is not None and text in names.name_of:
        return [order.strip() for order in text.replace(';', ',').split(',') if order.strip()]
    return text.split()


def texts_of(reader, cells, word):
    """The arguments of a command with their columns: all cells from `arguments` on, or those of its form's columns."""
    if 'arguments' in reader.places:
        texts = cells[reader.places['arguments']:]
        while texts and not texts[-1]:
            texts.pop()
        form = FORMS[word] or ['wave'] + ['order'] * max(1, len(texts) - 1)
        further = ['further'] * (len(texts) - len(form))
        return list(zip(form + further, texts + [''] * (len(form) - len(texts))))
    if word == 'submit':
        orders = orders_in(reader.at(cells, 'order'), reader.names)
        return [('wave', reader.at(cells, 'wave')), *[('order', order) for order in orders or ['']]]
    return [(column, reader.at(cells, column)) for column in FORMS[word]]


def argument_of(reader, number, word, column, text):
    """A field behind a command's word."""
    if column == 'further':
        reader.tell(number, column, text, 'a %s has no further field: leave it out' % word)
    elif not text and column not in reader.places and 'arguments' not in reader.places:
        reader.tell(number, column, text, 'a %s wants it, and the heading has no column for it: say which it is with '
                    '--columns %s=NAME' % (word, column))
    elif not text and word == 'submit' and column == 'order':
        reader.tell(number, column, text, 'it is empty: a submit names the orders of its wave')
    else:
        return [reader.cell(number, column, text, reader.kind(column))]
    return []


def read_desks(reader, rows):
    for number, cells in rows:
        desk = reader.cell(number, 'desk', reader.at(cells, 'desk'), reader.kind('desk'))
        word = reader.cell(number, 'command', reader.at(cells, 'command'), word_of)
        fields = [desk, word]
        for column, text in texts_of(reader, cells, word) if word else ():
            fields += argument_of(reader, number, word, column, text)
        reader.records.append(fields)
    test_count(reader, rows, MOST_COMMANDS)


READERS = {'stock': read_stock, 'orders': read_orders, 'desks': read_desks}


def pairs(text):
    """Pairs of a name and a word."""
    found = dict(pair.partition('=')[::2] for pair in text.split(','))
    if not all(found) or not all(found.values()):
        raise argparse.ArgumentTypeError('pairs are written NAME=WORD,NAME=WORD')
    return found


def numbered(text):
    """Pairs of a word and a number."""
    found = pairs(text)
    if not all(number.isdigit() and number.isascii() and 0 < int(number) < 100000 for number in found.values()):
        raise argparse.ArgumentTypeError('aisles are written WORD=NUMBER,WORD=NUMBER')
    return {word: int(number) for word, number in found.items()}


def asked_words(words):
    known = Words('import')
    for flag in ('--all', '--letters', '--take-dates'):
        known.add_argument(flag, action='store_true')
    for option, kind in (('--columns', pairs), ('--sides', pairs), ('--aisles', numbered)):
        known.add_argument(option, type=kind, default={})
    known.add_argument('--skip', type=int, default=0)
    known.add_argument('--skip-last', type=int, default=0)
    known.add_argument('--separator', choices=list(sheet_files.SEPARATORS))
    known.add_argument('--encoding', choices=list(sheet_files.ENCODINGS))
    known.add_argument('--decimal', choices=['.', ','])
    known.add_argument('--location', default=USUAL['location'])
    known.add_argument('--names')
    known.add_argument('-o', '--output')
    known.add_argument('kind', nargs='?', choices=[*COLUMNS])
    known.add_argument('file', nargs='?')
    asked = known.read(words)
    asked.sides = asked.sides or USUAL['sides']
    return asked


def table_of(asked):
    """The rows with the heading, and the places of the columns."""
    unknown = set(asked.columns) - {*COLUMNS[asked.kind], *(ARGUMENTS if asked.kind == 'desks' else ())}
    if unknown:
        raise Trouble('a file of %s has no column %s; it has %s' % (
            asked.kind, ', '.join(sorted(unknown)), ', '.join(COLUMNS[asked.kind])))
    sides = set(asked.sides.values())
    if sides != {'L', 'R'} and not (sides < {'L', 'R'} and 'all' in asked.sides):
        raise Trouble('--sides says what stands for L and what stands for R, as in A=L,B=R')
    text = sheet_files.text_of(asked.data, asked.encoding)
    rows = sheet_files.rows_of(text, asked.separator, asked.skip, asked.skip_last)
    optional = ARGUMENTS if asked.kind == 'desks' else ()
    places = sheet_files.columns_of(rows, asked.columns, [*COLUMNS[asked.kind], *optional], optional)
    if optional and not {'arguments', 'wave'} & set(places):
        raise no_arguments(asked, rows[0][1])
    return rows, places


def no_arguments(asked, heading):
    """What is told of a heading of commands that has no column for what stands behind their words."""
    told = 'the heading has neither a column arguments nor a column wave: say which it is with --columns'
    columns = guesses.some_columns_in(heading, ARGUMENTS, asked.columns)
    if not {'arguments', 'wave'} & set(columns):
        return Trouble(told)
    how = sheet_files.option_text('columns', columns)
    return sheet_files.Guessed('%s. They seem to be %s' % (told, how), columns=columns)


def table_by_guesses(asked):
    """The rows and places, read by what is asked and, where that can't be, by what is guessed; with what was told and
    guessed."""
    told, guessed = [], {}
    for _ in range(MOST_GUESSES):
        try:
            return (*table_of(asked), told, guessed)
        except sheet_files.Guessed as why:
            told.append(str(why))
            guessed.update(why.options)
            vars(asked).update(why.options)
    raise Trouble(told[-1])


def note_unused(reader, rows):
    """Notes the columns that are used for nothing."""
    last = reader.places.get('arguments', len(rows[0][1]))
    used = {*reader.places.values()}
    unused = [word for place, word in enumerate(rows[0][1]) if place < last and place not in used and word]
    if unused:
        told = 'the columns %s are used for nothing' if len(unused) > 1 else 'the column %s is used for nothing'
        reader.notes.append(told % ', '.join(unused))
    parts = reader.pattern.unused()
    if parts:
        reader.notes.append('%s: not used; two locations that differ in nothing else are one' % ', '.join(parts))


def options_for(reader, rows, guessed):
    """The options with which the cells may be read."""
    asked, cells, found = reader.asked, reader.unread.cells, dict(guessed)
    texts = {column: [reader.at(each, column) for _, each in rows[1:]] for column in reader.places}
    wrong = {cell.column for cell in cells}
    number = next((column for column in ('on_hand', 'quantity') if column in wrong and column in texts), None)
    if number and not asked.decimal:
        sign = guesses.decimal_of(list(filter(None, texts[number])), NUMBERS[number])
        found.update({'decimal': sign} if sign else {})
    if 'location' in wrong and 'location' in texts and not asked.letters and not asked.aisles:
        found.update(guesses.location_options(list(filter(None, texts['location']))))
    if {'signs', 'long'} & {cell.cause for cell in cells}:
        found['names'] = 'names.csv'
    if not asked.skip_last and any(map(is_total, rows[-1][1])):
        found['skip_last'] = 1
    return found


def given_options(asked, found):
    """All options for another try: those that were given, and those that were found, which go before."""
    values = {option: found.get(option, getattr(asked, option)) for option in REPEATED}
    return ' '.join(sheet_files.option_text(option, value) for option, value in values.items()
                    if value and value != USUAL.get(option))


def tell(reader, told, found):
    """Tells what can't be read, and with which options to try again."""
    asked, cells = reader.asked, reader.unread.cells
    for line in [*told, *reader.unread.lines(asked.all)]:
        endings.tell(line)
    if cells:
        endings.tell('import: %d cells of %s cannot be read; nothing was written' % (len(cells), asked.file))
    if found:
        to = shlex.quote(asked.output or asked.kind + '.csv')
        words = (asked.kind, shlex.quote(asked.file), given_options(asked, found), to)
        endings.tell('import: it may be read so: tools/import %s %s %s -o %s' % words)


def is_output(path):
    """Whether standard output goes to the file of this name."""
    try:
        return os.path.samestat(os.stat(path), os.fstat(sys.stdout.fileno()))
    except OSError:
        return False


def test_output(asked):
    """Fails where the shell has emptied the file that is to be read, since it is standard output too."""
    if not asked.output and os.path.isfile(asked.file) and is_output(asked.file):
        raise Trouble('%s stands behind > too, so the shell has emptied it before it was read: take it from where it '
                      'came, and say -o %s' % (asked.file, asked.file))


def write(reader):
    """Writes the records, and the names where a file keeps them."""
    asked, lines = reader.asked, [HEADINGS[reader.asked.kind], *[','.join(fields) for fields in reader.records], '']
    for note in reader.notes:
        endings.tell('import: ' + note)
    if reader.names:
        reader.names.write()
    if asked.output:
        whole_files.write(asked.output, '\n'.join(lines))
    else:
        print('\n'.join(lines), end='')


def main(words):
    asked = asked_words(words)
    if asked.help or not asked.file:
        return tell_usage(__doc__, asked)
    test_output(asked)
    asked.data = read_bytes(asked.file)
    rows, places, told, guessed = table_by_guesses(asked)
    try:
        reader = Reader(asked, places)
    except Unread as why:
        raise Trouble(str(why)) from None
    READERS[asked.kind](reader, rows[1:])
    if told or reader.unread.cells:
        tell(reader, told, options_for(reader, rows, guessed))
        return REFUSED if told else WRONG
    note_unused(reader, rows)
    write(reader)
    return RIGHT
