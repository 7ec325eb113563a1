"""What single cells say: names, whole numbers, locations. Each fails with what to do where it says none."""

import re

NAME = re.compile(r'[A-Za-z0-9._-]{1,40}')
MONTH = (r'(?:jan(?:uary|uar)?|feb(?:ruary|ruar)?|m[aä]r(?:ch|z)?|apr(?:il)?|ma[iy]|june?|juni|july?|juli|aug(?:ust)?|'
         r'sept?(?:ember)?|o[ck]t(?:ober)?|nov(?:ember)?|de[cz](?:ember)?)\.?')
DATE = re.compile(r'\d{4}-\d\d?-\d\d?(?: .*)?|\d\d?[./]\d\d?[./]\d{2,4}|'
                  r'\d\d?[-. /]+%s(?:[-. /]+\d{2,4})?|%s[-. /]+\d{2,4}' % (MONTH, MONTH), re.IGNORECASE)
POWER = re.compile(r'[+-]?\d+(?:[.,]\d+)?[eE][+-]?\d+')
# A power as spreadsheets and programs write one; 12E4 is more likely a name.
SHORTENED = re.compile(r'[+-]?\d[.,]\d+[eE][+-]?\d+|[+-]?\d+[eE][+-]\d+')
TOTALS = ('total', 'sum', 'summe', 'gesamt', 'somme', 'totale', 'suma', 'grand total', 'subtotal', 'zwischensumme')
THOUSANDS = re.compile('[ \u00a0\u2009\u202f\'\u2019]')  # what sets thousands apart and never stands before tenths
ERRORS = ('#N/A', '#NV', '#REF!', '#WERT!', '#VALUE!', '#NAME?', '#DIV/0!')
AS_TEXT = ('give the column the type Text where the spreadsheet reads the table (Excel: Data, From Text/CSV; '
           'LibreOffice: the window that opens), and write it again')


class Unread(ValueError):
    """Why a cell says nothing that can be used, and what to do about it. All cells of one cause have the same
    `cause`."""

    def __init__(self, why, cause=None):
        super().__init__(why)
        self.cause = cause or why


def _test_usual(text):
    """The usual accidents of any cell."""
    if not text:
        raise Unread('it is empty: fill it in, or leave the row out')
    if text.startswith('#') and text.rstrip('!?').isupper() or text.upper() in ERRORS:
        raise Unread('it is an error of the spreadsheet: mend the formula')
    if text.startswith('='):
        raise Unread('it is a formula: save the values')
    if is_total(text):
        raise Unread('this looks like a row of totals: leave it out, with --skip-last 1 where it is the last')


def is_total(text):
    return text.lower().rstrip(':') in TOTALS


def _test_text(text):
    """What spreadsheets make of texts that look like something else."""
    if DATE.fullmatch(text):
        raise Unread('a spreadsheet has made a date of it: ' + AS_TEXT + '; where it is a name, say --take-dates')
    if SHORTENED.fullmatch(text):
        raise Unread('a spreadsheet has made a number of it: ' + AS_TEXT + '; where it is a name, say --take-dates')


def name(text, takes_dates=False, names=None):
    """A name as waveplan has it: the text itself, or the one that is kept for it among some names."""
    _test_usual(text)
    if not takes_dates:
        _test_text(text)
    if names is not None:
        return names.of(text)
    if NAME.fullmatch(text):
        return text
    if re.fullmatch('[A-Za-z0-9._-]+', text):
        raise Unread('it has %d characters, and a name has at most 40: shorten it, or say --names FILE, which keeps a '
                     'short one for it' % len(text), 'long')
    bad = sorted(set(re.sub(r'[A-Za-z0-9._-]', '', text)))
    told = ' '.join('the blank' if sign == ' ' else '"%s"' % sign for sign in bad)
    raise Unread('a name has letters without accents, digits, and the signs - _ . alone: put something else for %s, '
                 'or say --names FILE, which keeps a name that fits for it' % told, 'signs')


def _groups(text, mark):
    """Digits in groups of three, set apart by a mark, as one number."""
    parts = text.split(mark)
    if len(parts) > 1 and not (1 <= len(parts[0]) <= 3 and all(len(part) == 3 for part in parts[1:])):
        raise Unread('its thousands are not set apart by threes: write the digits alone')
    return ''.join(parts)


def whole(text, decimal, least, most):
    """A whole number in a range. `decimal` is the sign before the tenths, None where none may stand."""
    _test_usual(text)
    if DATE.fullmatch(text):
        raise Unread('a spreadsheet has made a date of it: ' + AS_TEXT)
    if POWER.fullmatch(text):
        raise Unread('the spreadsheet has shortened it to a power of ten: widen the column, format it as a number '
                     'without decimals')
    if text.startswith('-'):
        raise Unread('it is below 0: correct it')
    digits = text.lstrip('+')
    if decimal:
        digits, point, tenths = digits.partition(decimal)
        if tenths.strip('0'):
            raise Unread('it is no whole number: units are counted whole')
        mark = ',' if decimal == '.' else '.'
        digits = _groups(THOUSANDS.sub(mark, digits), mark)
    elif re.fullmatch(r'\d+(?: \d+)+', THOUSANDS.sub(' ', digits)):
        digits = _groups(THOUSANDS.sub(' ', digits), ' ')
    if not digits.isdigit() or not digits.isascii():
        mark = re.fullmatch(r'\d+(?:[.,]\d+)+', THOUSANDS.sub('', digits)) and not decimal
        hint = 'say --decimal . or --decimal , for the sign that stands before tenths' if mark else 'write digits alone'
        raise Unread('it is no whole number as it stands: %s' % hint)
    digits = digits.lstrip('0') or '0'
    if len(digits) > len(str(most)) or not least <= int(digits) <= most:
        raise Unread('it is not within %d to %d: correct it, or divide it' % (least, most))
    return digits


def number_of_letters(text):
    """The number that letters count to: A is 1, Z is 26, AA is 27."""
    number = 0
    for letter in text.upper():
        number = number * 26 + ord(letter) - ord('A') + 1
    return number


class Pattern:
    """How locations are written: {aisle}, {slot} and {side} with other signs between them, and what stands for the
    sides. Any other word in braces stands for letters and digits that aren't used. Without {side} odd and even slots
    lie on the two sides, as houses of a street are numbered, or all on one."""

    def __init__(self, text, sides, aisles=None, letters=False):
        self.parts = re.findall(r'\{(\w+)\}', text)
        self.text, self.letters = text, letters
        self.sides = {key.lower(): side for key, side in sides.items()}
        self.aisles = {key.lower(): number for key, number in (aisles or {}).items()}
        if not self.is_whole():
            raise Unread('a pattern of locations has {aisle}, {slot} and {side} once each, as in '
                         '{aisle}-{side}-{slot}; what is not used has a name of its own, as {level}; and without '
                         '{side} say --sides odd=L,even=R, where odd slots lie on the left, or --sides all=L')
        pieces = re.split(r'(\{\w+\})', text)
        self.form = re.compile(''.join(self.piece(each) for each in pieces), re.IGNORECASE)

    def is_whole(self):
        """Whether the pattern has what a location is made of, each part once."""
        says_side = 'side' in self.parts or set(self.sides) in ({'odd', 'even'}, {'all'})
        are_names = all(part.isidentifier() for part in self.parts)
        return (says_side and are_names and {'aisle', 'slot'} <= set(self.parts)
                and len(set(self.parts)) == len(self.parts))

    def unused(self):
        """The parts that say nothing of a location."""
        return [part for part in self.parts if part not in ('aisle', 'slot', 'side')]

    def piece(self, text):
        """The expression for a piece of the pattern."""
        if not re.fullmatch(r'\{\w+\}', text):
            return re.escape(text)
        aisles = self.words(self.aisles) if self.aisles else '[A-Za-z]{1,2}' if self.letters else r'\d{1,5}'
        known = {'slot': r'\d{1,5}', 'side': self.words(self.sides), 'aisle': aisles}
        return '(?P<%s>%s)' % (text[1:-1], known.get(text[1:-1], '[A-Za-z0-9]+'))

    @staticmethod
    def words(known):
        """The expression for one of some words."""
        return '|'.join(sorted(map(re.escape, known), key=len, reverse=True))

    def read(self, text):
        found = self.form.fullmatch(text)
        if not found:
            _test_usual(text)
            if DATE.fullmatch(text):
                raise Unread('a spreadsheet has made a date of it: ' + AS_TEXT)
            sides = ' with %s for the side' % ' or '.join(sorted(self.sides)) if 'side' in self.parts else ''
            raise Unread('it is not of the form %s%s: say how locations are written with --location and --sides, and '
                         'with --letters or --aisles where aisles have letters; a level or a bin is not used, and is '
                         '{level} in --location' % (self.text, sides))
        return '%d-%d-%s' % self.place(found)

    def place(self, found):
        """The aisle, the slot and the side of a location that has the form."""
        aisle, slot = found['aisle'], int(found['slot'])
        number = self.aisles[aisle.lower()] if self.aisles else number_of_letters(aisle) if self.letters else int(aisle)
        if 'side' in self.parts:
            return number, slot, self.sides[found['side'].lower()]
        if 'all' in self.sides:
            return number, slot, self.sides['all']
        return number, (slot + 1) // 2, self.sides['odd' if slot % 2 else 'even']
