"""The tables of refusals and their cures, held to tools/floor/refusals.txt, of which tools/explain tells them too."""

from floor import refusals

SECTION = 'Refusals and their cures'
HEADS = ('| Line |', '| WHY |', '| Reply |', '|---')


def page_of(place):
    return 'docs/RULES.md' if place == 'command' else 'docs/FORMATS.md'


def rows_of(page):
    """The rows of the tables of the section, each with its line."""
    is_within = False
    for line in page.lines:
        if line.text.startswith('## '):
            is_within = line.text == '## ' + SECTION
        elif is_within and line.text.startswith('|') and not line.text.startswith(HEADS):
            yield line.number, line.text


def all_of(pages):
    """The rows that each page has, beside those that are made of the refusals: a place, and what is wrong there, or
    None."""
    tables = refusals.tables()
    for page in pages:
        due = [row for place, rows in tables.items() if page_of(place) == page.name for row in rows]
        found = list(rows_of(page)) if due else []
        for number, text in found:
            why = None if text in due else 'tools/floor/refusals.txt has no such row: %s' % text
            yield '%s:%d' % (page.name, number), why
        texts = [text for _, text in found]
        missing = [row for row in due if row not in texts]
        yield from ((page.name, 'the section %s lacks the row %s' % (SECTION, row)) for row in missing)
        if due and not missing:
            in_order = [text for text in texts if text in due] == due
            yield page.name, None if in_order else 'the rows of %s stand in another order' % SECTION
