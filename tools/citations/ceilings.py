"""How many words each document may have, tables and code among them. A document that gets more makes another part
shorter, or its number here is raised with a reason in the commit."""

CEILINGS = {
    'README.md': 1510,
    'docs/BATCHES.md': 6220,
    'docs/CONTRIBUTING.md': 980,
    'docs/CREWS.md': 685,
    'docs/DAY.md': 1950,
    'docs/DECISIONS.md': 5405,
    'docs/DESKS.md': 2360,
    'docs/EXAMPLES.md': 1975,
    'docs/FORMATS.md': 6285,
    'docs/MAP.md': 3100,
    'docs/MEASURES.md': 3430,
    'docs/PROMISES.md': 6190,
    'docs/QUESTIONS.md': 1760,
    'docs/RULES.md': 1730,
    'docs/SAFETY.md': 2390,
    'docs/STORE.md': 1975,
    'docs/TABLES.md': 605,
    'docs/TOURS.md': 3495,
}


def all_of(pages):
    """Each document has a ceiling, and no more words than that: a place, and what is wrong there, or None."""
    for page in pages:
        words, ceiling = sum(len(line.text.split()) for line in page.lines), CEILINGS.get(page.name)
        if ceiling is None:
            yield page.name, 'tools/citations/ceilings.py has no ceiling for it'
        else:
            yield page.name, None if words <= ceiling else 'it has %d words, and may have %d' % (words, ceiling)
