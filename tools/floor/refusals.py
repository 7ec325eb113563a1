"""What refusals.txt tells: of each refusal what it means and what to do, and the tables of docs/FORMATS.md."""

import functools
import re
from collections import namedtuple
from pathlib import Path

FILE = Path(__file__).resolve().with_name('refusals.txt')
# A refusal by its name, with what the file has of it.
Told = namedtuple('Told', 'place why line cause often note cure')
# Words that stand on the page for what a run fills in, where they aren't the same in capitals.
ON_THE_PAGE = {'order_count': 'N', 'on_hand': 'ONHAND'}


def read(text):
    """The refusals of a text, in its order."""
    for block in re.split(r'\n\n+', re.sub(r'(?m)^#.*\n', '', text).strip()):
        name, *lines = re.sub(r'\n  +', ' ', block).split('\n')
        fields = dict(re.fullmatch(r'(\w+): ?(.*)', line).groups() for line in lines)
        yield Told(*name.split(), **{field: fields.get(field, '') for field in Told._fields[2:]})


@functools.lru_cache(maxsize=None)
def known():
    """All refusals, by their places and names."""
    return {(told.place, told.why): told for told in read(FILE.read_text(encoding='utf-8'))}


def of(place):
    """The causes and cures of a place, by their names."""
    return {told.why: (told.cause, told.cure) for told in known().values() if told.place == place}


def pair(place, why, /, **fields):
    """A cause and its cure, with what a run fills in."""
    told = known()[place, why]
    return told.cause.format_map(fields), told.cure.format_map(fields)


def on_the_page(text):
    """A text as the page has it, which says no number of one run, and is docs/FORMATS.md itself."""
    words = re.sub(r'\{(\w+)\}', lambda found: ON_THE_PAGE.get(found[1], found[1].upper()), text)
    return words.replace('docs/FORMATS.md', 'this page')


def row(told):
    """The row of a table that tells a refusal."""
    more = '. Often %s' % told.often if told.often else '; %s' % told.note if told.note else ''
    cells = [told.line or '`%s`' % told.why, told.cause + more,
             told.cure or '; '.join('%s: %s' % (why, cure) for why, (_, cure) in of('state').items())]
    return '| %s |' % ' | '.join(map(on_the_page, cells))


def tables():
    """The rows of each table of the page: those of a place, but for what is told beside a line of its own."""
    always = ('record', 'node', 'command')
    shown = [told for told in known().values() if told.line or told.place in always]
    return {place: [row(told) for told in shown if told.place == place]
            for place in dict.fromkeys(told.place for told in shown)}
