"""The documents as a check sees them: lines with their places, what stands in backquotes, links, and blocks of code."""

import re
import textwrap
from collections import namedtuple

QUOTED = re.compile(r'`([^`]+)`')
LINK = re.compile(r'\]\(([^)\s]+)\)')
HEADING = re.compile(r'(#+) (.*)')

# A line of a document: its number, its text, the heading above it, and whether it is code.
Line = namedtuple('Line', 'number text section is_code')

# Lines of code that follow each other, the prose before them, and the heading above them.
Block = namedtuple('Block', 'number lines before section')


class Page:
    """One document."""

    def __init__(self, name, text):
        self.name, self.lines = name, list(_lines_of(text))

    def quoted(self):
        """What stands in backquotes, each with its line."""
        for line in self.lines:
            if not line.is_code:
                yield from ((line, text) for text in QUOTED.findall(line.text))

    def links(self):
        for line in self.lines:
            if not line.is_code:
                yield from ((line, target) for target in LINK.findall(line.text))

    def anchors(self):
        """The names by which links find the headings."""
        found = (HEADING.fullmatch(line.text) for line in self.lines if not line.is_code)
        return {_anchor(each[2]) for each in found if each}

    def blocks(self):
        """The blocks of code. What goes on a list is indented further, so its blocks are too."""
        block, before = None, ''
        for line in [*self.lines, Line(0, 'the end', '', False)]:
            if line.is_code and line.text.strip():
                block = block or Block(line.number, [], before, line.section)
                block.lines.append(line.text)
            elif block:
                yield block._replace(lines=textwrap.dedent('\n'.join(block.lines)).split('\n'))
                block = None
            if line.text.strip() and not line.is_code:
                before = line.text


def _lines_of(text):
    section = ''
    for number, line in enumerate(text.split('\n'), 1):
        found = HEADING.fullmatch(line)
        section = found[2] if found else section
        yield Line(number, line, section, line.startswith('    '))


def _anchor(heading):
    plain = re.sub(r'[^\w\- ]', '', re.sub(r'\]\([^)]*\)', '', heading).lower())
    return plain.replace(' ', '-')
