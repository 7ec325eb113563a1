"""The table of a benchmark: as plain text, as Markdown with what it was made by, and as one object."""

import json
import os
from collections import namedtuple

from .benchmark_rows import LEGEND, NUMBERS, failures, row_object, table_of
from .instance_classes import CLASSES

FORMAT = 'waveplan benchmark 1'
# What a table was made by: the date, the digest of the program, the command, how many runs were side by side, and
# the names of the classes whose instances it has.
Made = namedtuple('Made', 'date program command jobs classes')
SHOWN_DIGITS = 16  # so much of a digest is shown where a reader compares it by eye


def program_of(made):
    """How the program is named."""
    return 'the program with the SHA-256 %s..' % made.program[:SHOWN_DIGITS]


def machine_of(made):
    """How many runs were made side by side, and on how many processors."""
    runs = 'one run at a time' if made.jobs == 1 else 'up to %d runs side by side' % made.jobs
    return '%s on %d processors' % (runs, os.cpu_count() or 1)


def notes_of(made):
    """What is to be known of the classes."""
    return [CLASSES[name].told for name in made.classes]


def text_of(rows, made):
    """The table as plain text, with the lines of what came to nothing."""
    headings, cells = table_of(rows)
    wide = [max(map(len, column)) for column in zip(headings, *cells)]
    lines = ['  '.join(cell.rjust(width) if heading in NUMBERS else cell.ljust(width)
                       for heading, width, cell in zip(headings, wide, row)).rstrip() for row in [headings, *cells]]
    return '\n'.join([*lines, '', LEGEND, *failures(rows)]) + '\n'


def markdown_of(rows, made):
    """The table as Markdown."""
    headings, cells = table_of(rows)
    ruler = ['---:' if heading in NUMBERS else '---' for heading in headings]
    lines = ['| %s |' % ' | '.join(cell.replace('|', '\\|') for cell in row) for row in [headings, ruler, *cells]]
    told = ['Measured on %s with %s, %s, by' % (made.date, program_of(made), machine_of(made)), '',
            '    ' + made.command, '', LEGEND]
    failed = ['- ' + line for line in failures(rows)]
    return '\n'.join([*lines, '', *told, *([''] if failed else []), *failed]) + '\n'


def object_of(rows, made):
    """All figures as one object."""
    found = {'format': FORMAT, 'date': made.date, 'program': made.program, 'command': made.command, 'jobs': made.jobs,
             'classes': {name: CLASSES[name].told for name in made.classes}, 'rows': [row_object(row) for row in rows]}
    return json.dumps(found, separators=(',', ':')) + '\n'
