"""Tables as spreadsheets and warehouse systems write them: the bytes as text, the text as rows of cells, the heading
found in them."""

import csv
import io
import shlex

from . import guesses
from .trouble import Trouble

SEPARATORS = {'comma': ',', 'semicolon': ';', 'tab': '\t'}
ENCODINGS = {'utf-8': 'utf-8-sig', 'utf-16': 'utf-16', 'latin-1': 'latin-1'}
WORKBOOKS = {b'PK\x03\x04': 'a workbook (.xlsx or .ods)', b'\xd0\xcf\x11\xe0': 'an old workbook (.xls)',
             b'%PDF': 'a PDF', b'<htm': 'a web page', b'<!DO': 'a web page'}
HOW_TO_SAVE = 'open it in the spreadsheet and save it as "CSV UTF-8", or as "Text CSV" with the character set UTF-8'


class Guessed(Trouble):
    """Why a table can't be read, with the options by which it may be, by their names."""

    def __init__(self, why, **options):
        super().__init__(why)
        self.options = options


def text_of(data, encoding=None):
    """The text of a file. Without a name for it the encoding is UTF-8, or UTF-16 where the file begins with its mark.
    """
    for first, kind in WORKBOOKS.items():
        if data.startswith(first):
            raise Trouble('this is %s and no table of text: %s' % (kind, HOW_TO_SAVE))
    name = encoding or ('utf-16' if data[:2] in (b'\xff\xfe', b'\xfe\xff') else 'utf-8')
    if not encoding and b'\0' in data[:200] and name == 'utf-8':
        raise Guessed('this is UTF-16 without a mark: say so with --encoding utf-16, or %s' % HOW_TO_SAVE,
                      encoding='utf-16')
    try:
        return data.decode('utf-16-le' if name == 'utf-16' and data[:2] not in (b'\xff\xfe', b'\xfe\xff')
                           else ENCODINGS[name])
    except UnicodeDecodeError:
        if name == 'utf-8':
            raise Guessed('this is not UTF-8: say --encoding latin-1 where it comes from an old Windows program',
                          encoding='latin-1') from None
        raise Trouble('this is not %s: leave --encoding out, or name another' % name.upper()) from None


def _separator(lines):
    """The separator that stands most often in the first line, where it stands in the next one too; else the one that
    most lines have as often."""
    first, *others = [line for line in lines if line.strip()][:guesses.NEAR] or ['']
    if first.lower().startswith('sep='):
        raise Guessed('the first line is "%s": say --skip 1, and --separator where it is not found' % first.strip(),
                      skip=1)
    best = max(SEPARATORS.values(), key=first.count)
    if best in first and (not others or best in others[0]):
        return best
    return max(SEPARATORS.values(), key=lambda mark: _usual_count([line.count(mark) for line in others]))


def _usual_count(counts):
    """How many lines have a mark as often as most of those that have it, and how often that is."""
    usual = max(filter(None, counts), key=counts.count, default=0)
    return (counts.count(usual), usual) if usual else (0, 0)


def rows_of(text, separator=None, skip=0, skip_last=0):
    """The rows of a table with their numbers in the file, without those that are to be skipped and those that are
    empty."""
    csv.field_size_limit(1 << 30)
    lines = text.replace('\r\n', '\n').replace('\r', '\n').split('\n')[skip:]
    mark = SEPARATORS[separator] if separator else _separator(lines)
    reader = csv.reader(io.StringIO('\n'.join(lines)), delimiter=mark)
    rows, before = [], 0
    try:
        for cells in reader:
            rows.append((skip + before + 1, [cell.replace('\u00a0', ' ').strip() for cell in cells]))
            before = reader.line_num
    except csv.Error as why:
        raise Trouble('line %d is no row of a table: %s' % (skip + before + 1, why)) from None
    rows = [(number, cells) for number, cells in rows if any(cells)]
    return rows[:len(rows) - skip_last] if skip_last else rows


def columns_of(rows, names, known, optional=()):
    """The place of each column in the rows, by the heading: the words that were given for it, its own name, or for
    optional ones its plural, in small letters or capitals."""
    if not rows:
        raise Trouble('there is no heading: the file has no row that is not empty')
    number, heading = rows[0]
    places, words = {}, [cell.lower() for cell in heading]
    for name in known:
        wanted = [names[name].lower()] if name in names else [name, name + 's'] if name in optional else [name]
        found = [place for place, cell in enumerate(words) if cell in wanted]
        if len(found) > 1:
            raise Trouble('the heading in line %d has %s %d times: name the columns differently'
                          % (number, names.get(name, name), len(found)))
        if found:
            places[name] = found[0]
        elif name in names or name not in optional:
            raise _no_column(rows, names, [each for each in known if each in names or each not in optional])
    return places


def _no_column(rows, names, wanted):
    """What is told of a heading that lacks columns, with a guess at where they stand."""
    number, heading = rows[0]
    words = [cell.lower() for cell in heading]
    lacking = [name for name in wanted if names.get(name, name).lower() not in words]
    told = 'the heading in line %d has no column %s; it has: %s.' % (
        number, ', '.join(names.get(name, name) for name in lacking), ', '.join(filter(None, heading)) or 'nothing')
    at = None if names else guesses.rows_above(rows, wanted)
    if at is None:
        return Trouble('%s Say which they are with --columns %s, and --skip N where N lines of title stand above the '
                       'heading' % (told, ','.join('%s=NAME' % name for name in lacking)))
    line, columns = at
    options = {**({'skip': line - 1} if line != number else {}), **({'columns': columns} if columns else {})}
    words, how = ', with other words' if columns else '', ' and '.join(option_text(*each) for each in options.items())
    return Guessed('%s It seems to be line %d%s: say so with %s' % (told, line, words, how), **options)


def option_text(name, value):
    """An option as it is written."""
    if value is True:
        return '--' + name.replace('_', '-')
    if isinstance(value, dict):
        value = ','.join('%s=%s' % pair for pair in value.items())
    return '--%s %s' % (name.replace('_', '-'), shlex.quote(str(value)))
