"""What each refusal means where it stands: the field, its text, the usual cause and the cure. refusals.txt has the same
in general."""

import difflib
import json
import re

from opinion import json_text, tables

from . import refusals

FIELDS = {
    'stock': ['location', 'article', 'on_hand'],
    'orders': ['order', 'article', 'quantity'],
    'desks': ['desk', 'command'],
    'open': ['order', 'group', 'rank'],
}
FORMS = {'submit': ['wave'], 'allot': ['wave'], 'release': ['wave'], 'cancel': ['wave'],
         'pick': ['wave', 'order', 'location', 'quantity'],
         'missing': ['wave', 'order', 'location', 'quantity'], 'receive': ['location', 'article', 'quantity']}
HEADINGS = {'stock': 'location,article,on_hand', 'orders': 'order,article,quantity', 'desks': 'desk,command,arguments',
            'open': 'order,group,rank'}

ROWS, LAYOUTS, NODES, CERTIFICATES = map(refusals.of, ('record', 'layout', 'node', 'certificate'))

# What Python's reader of JSON says, in other words.
JSON_FAULTS = {
    "Expecting ',' delimiter": 'a comma is missing here, or a bracket',
    "Expecting ':' delimiter": 'a colon is missing behind a key',
    'Expecting property name enclosed in double quotes':
        'a key in double quotes is due here: a comma is too many, or the quotes are not straight',
    'Expecting value':
        'a value is due here: a comma is too many, or something stands here that is no number, text, list or object',
    'Extra data': 'something stands behind the end',
    'Unterminated string starting at': 'the quote that is opened here is not closed',
    'Illegal trailing comma before end of object': 'this comma is too many',
    'Illegal trailing comma before end of array': 'this comma is too many',
}


def as_json(value):
    """A value as it stands in a file of JSON."""
    if isinstance(value, json_text.Number):
        return value.text
    if isinstance(value, list):
        return '[%s]' % ', '.join(map(as_json, value))
    return json.dumps(value, ensure_ascii=False, default=as_json)


def of_not_json(data):
    """Where a file stops to be JSON, and why."""
    if data.startswith(b'\xef\xbb\xbf'):
        return 'line 1, column 1', 'the file is not JSON: it begins with a byte order mark'
    try:
        json.loads(data.decode('utf-8'))
    except UnicodeDecodeError as why:
        before = data[:why.start].decode('utf-8')
        return _place(before + '?', len(before)), 'the file is not JSON: a byte stands here that is no UTF-8'
    except json.JSONDecodeError as why:
        return _place(why.doc, why.pos), 'the file is not JSON: ' + JSON_FAULTS.get(why.msg, why.msg)
    except (ValueError, RecursionError):
        pass
    try:
        json_text.read(data)
    except json_text.NotJson as why:
        return '', 'the file is not JSON: %s' % why
    return '', 'the file is not JSON'


def _place(text, place):
    """A place in a text as its line and column, with the line."""
    before = text[:place].split('\n')
    line = text.split('\n')[len(before) - 1]
    return 'line %d, column %d: %s' % (len(before), len(before[-1]) + 1, line[:80])


def of_spacings(value, aisles):
    """What is wrong with the list of spacings: what it is, how many there are, or one of them."""
    if not isinstance(value, list):
        return refusals.pair('spacings', 'no-list')
    wrong = [(place, as_json(each)) for place, each in enumerate(value, 1) if type(each) is not int]
    if wrong:
        return refusals.pair('spacings', 'not-whole', place=wrong[0][0], value=wrong[0][1])
    if len(value) != aisles - 1:
        return refusals.pair('spacings', 'count', count=len(value), aisles=aisles, due=aisles - 1)
    place, each = next((place, each) for place, each in enumerate(value, 1) if not 1 <= each <= 10000)
    return refusals.pair('spacings', 'range', place=place, value=each)


def of_journal(data, line):
    """Why a line is not of a journal, where the file is another than an output."""
    if data.startswith((b'\x01', b'\x00')):
        return refusals.pair('journal', 'store')
    first = re.split(rb'[\r\n]', data, 1)[0].decode('utf-8', 'replace')
    named = [name for name, heading in HEADINGS.items() if first == heading]
    if line == '1' and named:
        return refusals.pair('journal', 'other', kind=named[0])
    if line == '1' and first.startswith(('refused ', 'read fault ')):
        return refusals.pair('journal', 'refused')
    return refusals.pair('journal', 'line')


def field_name(file, record, field):
    """The name of a field of a record."""
    names = FIELDS[file]
    if file == 'desks' and field > 2:
        word = record[1].decode('utf-8', 'replace') if len(record) > 1 else ''
        forms = FORMS.get(word, [])
        return forms[field - 3] if field - 3 < len(forms) else 'order'
    return names[field - 1] if field <= len(names) else 'a further field'


def of_first_row(file, data):
    """Why the heading isn't found."""
    text = data[3:] if data.startswith(b'\xef\xbb\xbf') else data
    first = re.split(rb'[\r\n]', text, 1)[0]
    shown = first.decode('utf-8', 'replace')
    plain = shown.strip().lower().replace(' ', '').replace('"', '')
    due = HEADINGS[file]
    if data[:4] in (b'PK\x03\x04', b'\xd0\xcf\x11\xe0'):
        return refusals.pair('heading', 'workbook')
    if data[:2] in (b'\xff\xfe', b'\xfe\xff') or b'\0' in data[:100]:
        return refusals.pair('heading', 'utf-16')
    if text.startswith(b'\xef\xbb\xbf'):
        return refusals.pair('heading', 'marks')
    if plain.startswith('sep='):
        return refusals.pair('heading', 'note', first=shown)
    if not data.strip():
        return refusals.pair('heading', 'empty', due=due)
    if plain.replace(';', ',') == due and ';' in shown:
        return refusals.pair('heading', 'semicolons')
    if '\t' in shown:
        return refusals.pair('heading', 'tabs')
    if plain == due:
        return refusals.pair('heading', 'letters', first=shown, due=due)
    if plain.startswith(due + ','):
        return refusals.pair('heading', 'column', first=shown)
    if sorted(plain.split(',')) == sorted(due.split(',')):
        return refusals.pair('heading', 'order', first=shown, due=due)
    others = [name for name, heading in HEADINGS.items() if heading == plain]
    if others:
        return refusals.pair('heading', 'other', kind=others[0], option=file)
    if due.encode() in text.lower():
        return refusals.pair('heading', 'title', first=shown)
    return refusals.pair('heading', 'unknown', first=shown[:80] or 'empty', due=due)


def of_columns(file, record):
    """Why a record has another number of fields."""
    shown = b','.join(record).decode('utf-8', 'replace')
    if file == 'desks':
        word = record[1].decode('utf-8', 'replace') if len(record) > 1 else ''
        if word in FORMS:
            form = ','.join(map(str.upper, FORMS[word])) + ',ORDER,..' * (word == 'submit')
            return refusals.pair('fields', 'command', count=len(record), word=word, form=form)
    if len(record) == 1 and b';' in record[0]:
        return refusals.pair('heading', 'semicolons')
    if any(b'\n' in field for field in record):
        return refusals.pair('fields', 'quote')
    if re.search(r'\d,\d{3}\b', shown):
        return refusals.pair('fields', 'thousands', count=len(record))
    return refusals.pair('fields', 'count', count=len(record), due=len(FIELDS[file]), heading=HEADINGS[file])


def of_name(name, text):
    """Why a text is no name, or no location."""
    if not text:
        return refusals.pair('name', 'empty')
    if text != text.strip():
        return refusals.pair('name', 'blank')
    if name == 'location':
        if re.fullmatch(r'\d{1,5}-\d{1,5}-[lr]', text):
            return refusals.pair('location', 'side')
        if re.match(r'\d{4}-\d\d?-\d\d?|\d\d?[./]\d\d?[./]\d+|.*(?i:jan|feb|mar|apr|may|jun|jul|aug|sep|oct|nov|dec)',
                    text):
            return refusals.pair('location', 'date')
        if re.fullmatch(r'(?i)(grand )?total|sum|summe|gesamt', text):
            return refusals.pair('location', 'totals')
        return of_location(text)
    if len(text) > 40:
        return refusals.pair('name', 'long', count=len(text))
    if name == 'group' and tables.NAME.fullmatch(text.encode()):
        return refusals.pair('name', 'group', count=len(text))
    bad = ' '.join('a blank' if sign == ' ' else sign for sign in sorted(set(re.sub(r'[A-Za-z0-9._-]', '', text))))
    return refusals.pair('name', 'signs', signs=bad)


def of_location(text):
    """Why a text is no location."""
    letter = re.fullmatch(r'([A-Za-z]{1,2})[-. /]?(\d+)[-. /](\d+)', text)
    if letter:
        number = 0
        for sign in letter[1].upper():
            number = 26 * number + ord(sign) - 64
        return refusals.pair('location', 'letter', number=number, letter=letter[1])
    if re.fullmatch(r'\d+-\d+(-\d+)?', text):
        return refusals.pair('location', 'no-side')
    return refusals.pair('location', 'form')


def of_number(text):
    """Why a text is no number."""
    if not text:
        return refusals.pair('name', 'empty')
    if text != text.strip():
        return refusals.pair('number', 'blank')
    if re.fullmatch(r'\d+[.,]0+', text):
        return refusals.pair('number', 'point')
    if re.fullmatch(r"\d{1,3}([.,' ]\d{3})+", text):
        return refusals.pair('number', 'thousands')
    if text.startswith('-'):
        return refusals.pair('number', 'below')
    if text.startswith('#') or text.startswith('='):
        return refusals.pair('number', 'formula')
    return refusals.pair('number', 'digits')


def closest(text, known):
    """A name that is nearly this one."""
    same = [name for name in known if name.lower() == text.lower()]
    return (same or difflib.get_close_matches(text, known, 1) or [None])[0]
