"""Explains why waveplan refuses some words or files: where it stands, what is there, the usual cause and the cure.

usage: tools/wave explain plan --layout FILE --stock FILE --orders FILE --desks FILE --capacity C [..]
       tools/wave explain check|audit|make|waves ..
       tools/wave explain journal DAY [--orders FILE]

With --names FILE, the file of `tools/wave import`, the lines behind the first have the texts of before in the place of
names.

The words are those of the run that was refused. The words and files are read as docs/FORMATS.md says, by a program of
this script's own, up to the first thing that is wrong; with --store 1 so is the file waveplan.store of the working
directory, which is left as it is. A `store fault` that another run over the store caused, or a failing or full disk, is
not seen here: look at the disk then. Nothing here is proved; the line that waveplan prints is the one that counts, and
the first line here is the same.

With `journal` each command is explained that was refused in the journal of DAY, the output of a plan; with the order
file it is told which orders want an article that is short. Bytes that a terminal would obey are shown as \\x1b.

Status: 0 where nothing is refused, 1 where something is, which is explained, 2 where there are no words.
"""

import os
import sys
import textwrap

from endings import REFUSED, RIGHT, WRONG, Words, tell_usage
from opinion import answers, json_text, stores, tables
from opinion.refusals import MOST_BYTES
from opinion.words import FILES, INSTEAD, NUMBERS, read_words

from . import causes, refusals, refused_commands
from .names import restored_line, taken_from, texts_of


def bytes_of(name):
    """The bytes of a file up to the first that is too many, None where it can't be read."""
    try:
        with open(name, 'rb') as it:
            return it.read(MOST_BYTES + 1)
    except OSError:
        return None


def names_in(folder):
    """The names in a folder, none where it can't be read."""
    try:
        return os.listdir(folder)
    except OSError:
        return []


def bytes_of_store():
    """The bytes of the store, up to the first that is too many: none where one can be made, None where it can't be read
    or written."""
    if not os.path.lexists(stores.NAME):
        return b'' if os.access('.', os.R_OK | os.W_OK) else None
    try:
        with open(stores.NAME, 'r+b') as it:
            return it.read(stores.MOST_BYTES + 1) if os.path.isfile(stores.NAME) else None
    except OSError:
        return None


def shown(value):
    if isinstance(value, bytes):
        value = value.decode('utf-8', 'backslashreplace')
    return str(value) if len(str(value)) <= 80 else str(value)[:80] + '..'


def visible(text):
    """A text with all signs that a terminal would obey, or not show, as their numbers."""
    return ''.join(sign if sign.isprintable() else ascii(sign)[1:-1] for sign in text)


class Explained:
    """What is told of one refusal, line by line."""

    def __init__(self, words, why):
        self.words, self.why, self.lines = words, why, []
        self.parts = why.line.split(' ')

    def say(self, title, text):
        self.lines.append(visible('%-8s %s' % (title, text)))

    def cause(self, cause, cure):
        self.say('cause', cause)
        self.say('cure', cure)

    def tell(self, place, why, before='', behind=('', ''), **fields):
        """Says a cause and its cure, with what stands before the one, and behind both."""
        cause, cure = refusals.pair(place, why, **fields)
        self.cause(before + cause + behind[0], cure + behind[1])

    def file(self, name):
        return read_words(self.words).files[name]

    def explain(self):
        kind = self.parts[1]
        if self.parts[:2] == ['read', 'fault']:
            self.of_read(self.parts[2])
        elif kind == 'words':
            self.of_words(self.parts[2])
        elif 'store' in self.parts[:2]:
            self.say('file', os.path.abspath(stores.NAME))
            getattr(self, 'of_store_' + self.parts[-1 if kind == 'fault' else 2].replace('-', '_'))()
        elif self.parts[2] == 'too-long':
            self.say('file', self.file(kind))
            self.tell('file', 'too-long')
        elif kind in causes.FIELDS:
            self.of_row(kind, int(self.parts[3]), self.parts[4])
        else:
            getattr(self, 'of_' + kind)()
        return self.lines

    def of_read(self, name):
        path = self.file(name)
        self.say('file', path or '(an empty name)')
        if os.path.isdir(path):
            self.tell('read', 'folder')
        elif os.path.exists(path):
            self.tell('read', 'forbidden')
        else:
            near = causes.closest(os.path.basename(path), names_in(os.path.dirname(path) or '.'))
            self.tell('read', 'missing', behind=('', ', perhaps %s' % near if near else ''))

    def of_words(self, why):
        if why in ('no-mode', 'unknown-mode'):
            return self.tell('words', 'mode')
        if why == 'too-many-waves':
            return self.tell('words', why, n=self.parts[3])
        mode, name = self.words[0], self.why.field
        if mode not in FILES:
            self.say('word', shown(self.why.text))
            return self.tell('words', 'not-utf8')
        if name and str(self.why.text).startswith('--' + name):
            self.say('option', '--' + name)
            return self.tell('words', 'twice')
        if name in INSTEAD and self.why.text == INSTEAD[name]:
            self.say('option', '--' + name)
            return self.tell('words', 'instead', other=INSTEAD[name], option=name)
        if name in NUMBERS[mode] and self.why.text is not None:
            self.say('option', '--%s %s' % (name, shown(self.why.text)))
            least, most = NUMBERS[mode][name]
            return self.tell('words', 'range', least=least, most=most)
        if name:
            self.say('option', '--' + name)
            return self.tell('words', 'missing')
        self.say('word', shown(self.why.text))
        known = ['--' + each for each in (*FILES[mode], *NUMBERS[mode])]
        near = causes.closest(str(self.why.text), known)
        self.tell('words', 'unknown', mode=mode,
                  options=' '.join(known) + (', perhaps %s is meant' % near if near else ''))

    def of_layout(self):
        self.say('file', self.file('layout'))
        why, value = self.parts[2], self.why.text
        if why == 'not-json':
            return self.of_not_json(self.file('layout'), causes.LAYOUTS[why][1])
        if self.why.field:
            self.say('key', self.why.field + ('' if value is None else ': ' + shown(causes.as_json(value))))
        elif value is not None:
            self.say('key', 'end: %s' % shown(causes.as_json(value)) if why == 'not-end' else shown(value))
        if self.why.field == 'spacings' and value is not None:
            return self.cause(*causes.of_spacings(value, self.layout_object()['aisles']))
        return self.cause(*causes.LAYOUTS[why])

    def layout_object(self):
        return json_text.read(bytes_of(self.file('layout')))

    def of_not_json(self, path, cure):
        """Where a file is no JSON, and why."""
        place, cause = causes.of_not_json(bytes_of(path))
        if place:
            self.say('place', place)
        self.cause(cause, cure)

    def of_row(self, name, row, why):
        path = self.file(name)
        data = bytes_of(path)
        record = next((each for each in tables.records(data) if each.number == row), None)
        fields = record.fields if record else []
        self.say('file', path)
        if record:
            self.say('record', '%d%s: %s' % (row, line_of(data, record), shown(b','.join(fields))))
        if self.why.field:
            self.say('field', '%d, %s: "%s"' % (self.why.field, causes.field_name(name, fields, self.why.field),
                                                shown(self.why.text or b'')))
        self.say('meaning', causes.ROWS[why][0])
        self.cause(*self.closer(name, why, fields, data, row))

    def closer(self, name, why, fields, data, row):
        """The cause and the cure, as closely as they can be told."""
        text = (self.why.text or b'').decode('utf-8', 'replace')
        if why == 'columns':
            is_heading = row == next((each.number for each in tables.records(data)), 1)
            return causes.of_first_row(name, data) if is_heading else causes.of_columns(name, fields)
        if why == 'bad-name':
            return causes.of_name(causes.field_name(name, fields, self.why.field), text)
        if why == 'bad-number':
            return causes.of_number(text)
        if why == 'unknown-command':
            near = causes.closest(text, list(causes.FORMS))
            return 'there is no command of that name', causes.ROWS[why][1] + (', perhaps %s' % near if near else '')
        return getattr(self, 'of_' + why.replace('-', '_'), lambda text, data: causes.ROWS[why])(text, data)

    def of_unknown_location(self, text, data):
        layout = answers.Files(read_words(self.words), bytes_of, answers.FULL).layout()
        return 'the layout has aisles 1 to %d with slots 1 to %d' % (layout.aisles,
                                                                     layout.slots), causes.ROWS['unknown-location'][1]

    def of_location_twice(self, text, data):
        first = next(each.number for each in tables.records(data) if each.number > 1 and each.fields[0].lstrip(b'0')
                     and same_place(each.fields[0], text))
        return 'record %d has it too' % first, causes.ROWS['location-twice'][1]

    def of_unknown_article(self, text, data):
        files = answers.Files(read_words(self.words), bytes_of, answers.FULL)
        stock = tables.read_stock(files.bytes('stock'), files.layout())
        near = causes.closest(text, stock.articles)
        return 'no record of the stock file has it', causes.ROWS['unknown-article'][1] + ('; perhaps %s '
                                                                                          'is meant' % near if near
                                                                                          else '')

    def of_unknown_order(self, text, data):
        cause, cure = causes.ROWS['unknown-order']
        near = causes.closest(text, list(answers.Files(read_words(self.words), bytes_of, answers.FULL).opening()[2]))
        return cause, cure + ('; perhaps %s is meant' % near if near else '')

    def of_order_twice(self, text, data):
        first = next(each.number for each in tables.records(data) if each.fields[0] == text.encode())
        return 'record %d names it too' % first, causes.ROWS['order-twice'][1]

    def of_certificate(self):
        self.say('file', self.file('certificate'))
        if self.parts[2] == 'node':
            self.say('node', '%s of the tree, in preorder from 0' % self.parts[3])
            told, cure = causes.NODES[self.parts[4]]
            return self.cause(told + (': %s' % ' '.join(self.parts[5:]) if self.parts[5:] else ''), cure)
        if self.parts[2] == 'not-json':
            return self.of_not_json(self.file('certificate'), causes.CERTIFICATES['not-json'][1])
        return self.cause(*causes.CERTIFICATES[self.parts[2]])

    def of_journal(self):
        self.say('file', self.file('journal'))
        if self.parts[2] == 'line':
            data = bytes_of(self.file('journal'))
            self.say('line', '%s: %s' % (self.parts[3], shown(self.why.text or b'')))
            if data.startswith(b'\xef\xbb\xbf') or b'\r' in data[:200]:
                return self.tell('journal', 'mark')
            return self.cause(*causes.of_journal(data, self.parts[3]))
        self.say('command', shown(self.why.text))
        self.of_entry('journal')

    def of_entry(self, place):
        """Why an entry has another reply than the program gives it."""
        if ' over-cart ' in self.why.line:
            return self.tell(place, 'units', behind=(': ' + self.told_units(), ''))
        return self.tell(place, 'entry')

    def of_store_fault(self):
        if os.path.isdir(stores.NAME):
            return self.tell('fault', 'folder')
        return self.tell('fault', 'forbidden' if os.path.lexists(stores.NAME) else 'place')

    def of_store_too_long(self):
        self.tell('store', 'too-long')

    def of_store_record(self):
        self.say('record', '%s, counted from 0: %s' % (self.parts[3], shown(self.why.text.rstrip(b'\n'))))
        has_end = self.why.text.endswith(b'\n')
        told = 'it is not the line of the entry of this number' if has_end else 'it has no line feed at its end'
        if self.parts[3] == '0':
            return self.tell('store', 'beginning', told + ': ')
        self.tell('store', 'record', told + ': ')

    def of_store_entry(self):
        self.say('command', shown(self.why.text))
        self.of_entry('store')

    def of_store_entries(self):
        self.tell('store', 'entries', old=len(stores.records(bytes_of_store())))

    def told_units(self):
        units = read_words(self.words).numbers['units']
        return 'these words say none' if units is None else 'these words say %d' % units


def same_place(field, text):
    found, other = tables.LOCATION.fullmatch(field), tables.LOCATION.fullmatch(text.encode())
    if not found or not other:
        return False
    return (int(found[1]), int(found[2]), found[3]) == (int(other[1]), int(other[2]), other[3])


def line_of(data, record):
    """The line of a record, where it isn't its number."""
    before = data[:record.place].replace(b'\r\n', b'\n').replace(b'\r', b'\n').count(b'\n')
    return '' if before + 1 == record.number else ', line %d of the file' % (before + 1)


def of_no_store():
    """What is to be said of a store without a record, though there is a file: a run takes it as an empty one, and
    writes over it."""
    data = bytes_of_store()
    if data and not stores.records(data) and data != stores.CLOSED:
        yield 'file     %s' % os.path.abspath(stores.NAME)
        yield ('beware   it has %d bytes and no record of a store: a run takes it as an empty store, and writes over it'
               % len(data))
        yield 'cure     look what it is; move it away, or run in another folder'


def explain_journal(words, texts):
    """Explains the commands that a journal has refused, with texts in the place of names."""
    known = Words('explain journal')
    known.add_argument('day', nargs='?')
    known.add_argument('--orders')
    asked = known.read(words)
    if asked.help or not asked.day:
        return tell_usage(__doc__, asked)
    lines = refused_commands.of_journal(asked.day, asked.orders)
    print('\n'.join(visible(restored_line(line, texts)) for line in lines) or 'no command was refused')
    return WRONG if lines else RIGHT


def main(words):
    words = words[1:] if words and os.path.basename(words[0]) == 'waveplan' else words
    if not words or words == ['--help']:
        print(__doc__, end='', file=sys.stdout if words else sys.stderr)
        return RIGHT if words else REFUSED
    words, names = taken_from(words)
    texts = texts_of(names)
    if words[:1] == ['journal']:
        return explain_journal(words[1:], texts)
    why = answers.refusal_of(words, bytes_of, None, bytes_of_store())
    if why is None:
        print('nothing in these words and files is refused')
        if read_words(words).numbers.get('store'):
            told = 'where the run said `store fault`, %s: %s' % refusals.pair('fault', 'busy')
            print(textwrap.fill(told, 99))
            print(''.join(visible(line) + '\n' for line in of_no_store()), end='')
        return RIGHT
    print(why.line)
    print('\n'.join(restored_line(line, texts) for line in Explained(words, why).explain()))
    return WRONG
