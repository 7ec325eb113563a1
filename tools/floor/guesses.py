"""Guesses at what a table means whose heading or cells can't be read as they stand. Nothing is read by a guess: it only
says with which options to try again."""

import re

from .cells import DATE, Pattern, Unread, is_total, whole

# Words of headings, in small letters and without signs, by the column that they mostly stand for.
WORDS = {
    'location': 'location locationid loc bin binlocation storagebin place shelf platz lagerplatz stellplatz lagerort '
                'fach position',
    'article': 'article articleno articlenumber articleid artikel artikelnummer artikelnr item itemno itemnumber '
               'itemid sku material materialnummer product productid productcode partnumber',
    'on_hand': 'onhand onhandqty qty quantity qtyonhand stock bestand lagerbestand menge available verfügbar units '
               'anzahl count amount',
    'order': 'order orderno ordernumber orderid salesorder auftrag aufträge auftraege auftragsnummer auftragnr '
             'auftragsnr bestellung bestellungen bestellnummer',
    'quantity': 'quantity qty orderedqty menge bestellmenge anzahl stück stueck amount units pieces pcs',
    'desk': 'desk deskno desknumber station terminal pult packplatz packtisch arbeitsplatz workplace',
    'command': 'command action befehl kommando aktion',
    'wave': 'wave waveid waveno wavenumber welle',
    'arguments': 'arguments argumente args',
}
WORDS = {column: words.split() for column, words in WORDS.items()}
NEAR = 30  # rows among which a heading is looked for
MOST_JUDGED = 400  # cells by which patterns are judged


def plain(word):
    return re.sub(r'[\W_]', '', word.lower())


def column_in(heading, column, taken):
    """The word of a heading that mostly stands for a column, None where none or more than one does."""
    words, known = [word for word in heading if word and word not in taken], WORDS[column]
    same = [word for word in words if plain(word) in known]
    like = [word for word in words if any(len(each) > 3 and each in plain(word) for each in known)]
    found = same or like
    return found[0] if len(found) == 1 else None


def columns_in(heading, wanted):
    """The words for the wanted columns that a heading doesn't have by their own names, None where one isn't found."""
    words, found = [word.lower() for word in heading], {}
    for column in wanted:
        if column not in words:
            word = column_in(heading, column, [*found.values(), *(each for each in heading if each.lower() in wanted)])
            if word is None or ',' in word or '=' in word:
                return None
            found[column] = word
    return found


def some_columns_in(heading, wanted, known):
    """The words that are known for columns, and those of a heading that mostly stand for others, if there are any."""
    found = dict(known)
    for column in wanted:
        word = column_in(heading, column, [*found.values(), 'desk', 'command']) if column not in found else None
        found.update({column: word} if word and word.lower() != column else {})
    return found


def rows_above(rows, wanted):
    """The number of the first row that may be the heading, among those that a table begins with, and the words for its
    columns."""
    for number, cells in rows[:NEAR]:
        found = columns_in(cells, wanted)
        if found is not None:
            return number, found
    return None


def decimal_of(texts, bounds):
    """The sign before tenths by which most of these numbers are read, None where neither helps."""
    def read(sign):
        return sum(is_read(text, sign, bounds) for text in texts)
    plainly, point, comma = read(None), read('.'), read(',')
    if max(point, comma) <= plainly or point == comma:
        return None
    return '.' if point > comma else ','


def is_read(text, sign, bounds):
    try:
        whole(text, sign, *bounds)
    except Unread:
        return False
    return True


def parts_of(text):
    """A text cut into runs of letters, runs of digits, and the signs between them."""
    return re.findall(r'[^\W\d_]+|\d+|[\W_]', text)


def shape_of(text):
    return tuple('a' if part[0].isalpha() else '0' if part[0].isdigit() else part for part in parts_of(text))


def location_options(texts):
    """The options by which most of these locations are read, none where nothing is found."""
    texts = [text for text in texts[:MOST_JUDGED] if text and not DATE.fullmatch(text) and not is_total(text)]
    shapes = [shape_of(text) for text in texts]
    if not shapes:
        return {}
    shape = max(sorted(set(shapes)), key=shapes.count)
    columns = list(zip(*(parts_of(text) for text, each in zip(texts, shapes) if each == shape)))
    options = options_of(shape, columns)
    return options if options and is_better(options, texts) else {}


def is_fixed(shape, column, place):
    """Whether a part of a shape is the same sign or word in all locations: letters only where digits follow them."""
    if shape[place] not in ('a', '0'):
        return True
    return shape[place] == 'a' and len(set(column)) == 1 and shape[place + 1:place + 2] == ('0',)


def side_of(shape, columns, places):
    """The place of the part that says the side: the last letters behind the first part that are one word or two."""
    for place in reversed(places[1:]):
        if shape[place] == 'a' and len({each.upper() for each in columns[place]}) <= 2:
            return place
    return None


def options_of(shape, columns):
    """The options for locations of a shape: the first part is the aisle, the next number the slot."""
    places = [place for place in range(len(shape)) if not is_fixed(shape, columns[place], place)]
    side = side_of(shape, columns, places)
    others = [place for place in places if place != side]
    if len(others) < 2 or shape[others[1]] != '0':
        return {}
    names = dict(zip(others, ['{aisle}', '{slot}', '{level}', *('{part%d}' % number for number in range(len(others)))]))
    names.update({} if side is None else {side: '{side}'})
    options = {'location': ''.join(names.get(place, columns[place][0]) for place in range(len(shape)))}
    options.update({'letters': True} if shape[others[0]] == 'a' else {})
    return {**options, 'sides': sides_of(None if side is None else {each.upper() for each in columns[side]})}


def sides_of(words):
    """What stands for the left and the right side. Without words slots are numbered through both sides."""
    if words is None:
        return {'odd': 'L', 'even': 'R'}
    if words <= {'L', 'R'}:
        return {'L': 'L', 'R': 'R'}
    return dict(zip([*sorted(words), '?'], 'LR'))


def is_better(options, texts):
    """Whether a pattern reads more of the locations than the usual one."""
    def read(pattern):
        return sum(bool(pattern.form.fullmatch(text)) for text in texts)
    usual = Pattern('{aisle}-{slot}-{side}', {'L': 'L', 'R': 'R'})
    return read(Pattern(options['location'], options['sides'], letters='letters' in options)) > read(usual)
