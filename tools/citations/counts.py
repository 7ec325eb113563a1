"""Numbers of the documents that a command counts, or that are counted here, held to the text in which they stand."""

import functools
import re
import subprocess
import sys

CLAUSES = re.compile(r'((?:`[\w.]+`(?:, | and )?)+) of `(wp_\w+)`')
NUMBERS = {'two': 2, 'three': 3, 'four': 4, 'five': 5, 'six': 6, 'seven': 7, 'eight': 8, 'nine': 9, 'ten': 10}


def all_of(pages, sources):
    """All that is counted: a place, and what is wrong there, or None."""
    known = {page.name: page for page in pages}
    counter = next((each for each in ('docs/lines-to-read', 'tools/gate/lines-to-read') if sources.has_path(each)),
                   None)
    lines = Lines(sources.top, counter)
    for page in pages:
        yield from lines_to_read(page, lines)
        yield from stated(page, sources)
    if 'docs/PROMISES.md' in known:
        yield from headline(known['docs/PROMISES.md'], lines)
    if 'docs/MAP.md' in known:
        yield from table_of_crates(known['docs/MAP.md'], sources)


class Lines:
    """Counts the lines that a reader of some definitions reads."""

    def __init__(self, top, script):
        self.script = script and str(top / script)

    def of(self, words):
        """The lines in all, and how many names of the kit are cited beside; None where they can't be counted."""
        return _counted_by(self.script, words) if self.script else None


@functools.lru_cache(maxsize=None)
def _counted_by(script, words):
    done = subprocess.run([sys.executable, '-B', script, *words], stdout=subprocess.PIPE, stderr=subprocess.STDOUT)
    found = re.search(rb'(\d+)  lines in all\n *(\d+)  names', done.stdout)
    return (int(found[1]), int(found[2])) if found else None


def _place(page, line):
    return '%s:%d' % (page.name, line.number)


def lines_to_read(page, lines):
    """Of each command that counts lines to read the number stands in the same paragraph."""
    for line, text in page.quoted():
        script, *words = text.split()
        if script.endswith('/lines-to-read') and (words or 'lines' in line.text):
            counted = lines.of(tuple(words))
            right = counted and re.search(r'(?<!\d)%d(?!\d)' % counted[0], line.text.replace(',', ''))
            yield _place(page, line), None if right else '%s counts %s' % (text, counted[0] if counted else 'nothing')
            if counted and not words and 'names are cited' in line.text:
                right = ' %d of their names are cited' % counted[1] in line.text
                yield _place(page, line), None if right else '%s counts %d names of the kit' % (text, counted[1])


def _roots(cell):
    """The definitions that a cell names before it says more: `a` and `b` of a crate."""
    cell = re.split(r':|, which', cell)[0]
    return [name for found in CLAUSES.finditer(cell) for name in re.findall(r'`([\w.]+)`', found[1])]


def headline(page, lines):
    """The last column of the table of the headline. Where it says that there are so many more, it counts those of the
    rows before too."""
    so_far = []
    for line in page.lines:
        cells = [cell.strip() for cell in line.text.split('|')]
        found = re.match(r'([0-9]{1,9})(?![0-9])(.*)',
                         cells[-2]) if len(cells) == 6 and line.section == 'The headline' else None
        if found:
            is_more, roots = ' more' in found[2], _roots(cells[3])
            before = (lines.of(tuple(so_far)) or (0, 0))[0] if is_more else 0
            so_far = so_far + roots if is_more else roots
            counted = lines.of(tuple(so_far))
            due = counted[0] - before if counted else None
            told = 'of %s there are %s lines%s' % (', '.join(roots), due, ' more' * is_more)
            yield _place(page, line), None if due == int(found[1]) else told


def counted_of(sources):
    """What is counted of the repository, by the words that stand behind the number."""
    edits = [file for file in sources.files if file.endswith('.edit')]
    kept = [file for file in edits if '/must-fail/' in file]
    crates = re.findall(r'^(\w+)(?: may_wait=(\d+))?:', sources.texts['crates.txt'], re.MULTILINE)
    tests = [file for file in sources.texts if re.match(r'crates/(?!\w+_tests/|wp_cases/)\w+/src/', file)]
    return {
        r'(\w[\w,]*) that may wait': sum(int(count) for name, count in crates if count and name != 'wp_cases'),
        r'(\d[\d,]*) crates(?! of)': len(crates),
        r'(\w[\w,]*) (?:wrong )?edits in `must-fail/`': len(kept),
        r'(\w[\w,]*) (?:wrong )?edits in `edits/`': len(edits) - len(kept),
        r'(\w[\w,]*) (?:wrong )?edits in all': len(edits),
        r'(\w[\w,]*) small tests stay in libraries': sum(sources.texts[file].count('#[test]') for file in tests),
    }


def stated(page, sources):
    """Numbers that the prose states."""
    prose = [line for line in page.lines if not line.is_code]
    found = ((line, due, each) for form, due in counted_of(sources).items() for line in prose
             for each in re.finditer(form, line.text))
    for line, due, each in found:
        word = each[1].lower().replace(',', '')
        number = int(word) if re.fullmatch('[0-9]{1,9}', word) else NUMBERS.get(word)
        if number is not None:
            yield _place(page, line), None if number == due else '%s, where %d are counted' % (each[0], due)


def table_of_crates(page, sources):
    """The table of the crates has those of crates.txt, and each comes after those on which it stands there."""
    below = {found[1]: set(found[2].split()) for found in re.finditer(r'^(\w+)(?: may_wait=\d+)?:(.*)$',
                                                                      sources.texts['crates.txt'], re.MULTILINE)}
    seen = []
    for line in page.lines:
        found = re.match(r'\| `(\w+)` \| ', line.text) if line.section == 'The crates' else None
        if found:
            later = sorted(name for name in below.get(found[1], ()) if name in below and name not in seen)
            why = '%s stands on %s, which comes later' % (found[1], ', '.join(later))
            yield _place(page, line), why if later else None
            seen.append(found[1])
    yield page.name, None if sorted(seen) == sorted(below) else 'the table of the crates has others than crates.txt'
