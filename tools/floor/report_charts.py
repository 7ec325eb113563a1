"""Charts as SVG that any width of a screen or of paper shows with letters of the same size: lengths across are in
percent of the width. They need no colour: parts of a bar are dark and white."""

from collections import namedtuple
from html import escape

# A bar: its label, its figure as it is told, and its value, or the values of its two parts.
Bar = namedtuple('Bar', 'label told values')

HIGH, THICK, LINE = 36, 12, 13  # the height of a row, of its bar, and of the line of letters above it
HIGH_OF_COLUMNS, GAP = 120, 0.12
LONGEST_LABEL = 30
PARTS = ('dark', 'white')

STYLE = ('.chart{display:block;margin:2mm 0 1mm;break-inside:avoid;overflow:visible}'
         '.chart text{font:10.5pt Arial,Helvetica,sans-serif}.chart .told{text-anchor:end}'
         '.chart .dark{fill:#444}.chart .white{fill:#fff;stroke:#444;stroke-width:1.2}'
         '.columns{border-bottom:.3mm solid #000;height:%dpx;width:100%%}'
         '.ends{display:flex;justify-content:space-between;gap:4mm;margin:0 0 3mm}' % HIGH_OF_COLUMNS)


def shortened(label):
    return label if len(label) <= LONGEST_LABEL else label[:LONGEST_LABEL - 1] + '\u2026'


def bars(name, rows):
    """A bar for each row, below its label and its figure, as long as its value is beside the greatest."""
    most = max((sum(row.values) for row in rows), default=0) or 1
    parts = ['<svg class="chart" xmlns="http://www.w3.org/2000/svg" role="img" aria-label="%s" width="100%%" '
             'height="%d">' % (escape(name), HIGH * len(rows))]
    for place, row in enumerate(rows):
        line = HIGH * place + LINE
        parts.append('<text x="0" y="%d">%s</text><text class="told" x="100%%" y="%d">%s</text>'
                     % (line, escape(shortened(row.label)), line, escape(row.told)))
        parts += _bar(row.values, most, line + 5)
    return ''.join(parts) + '</svg>'


def _bar(values, most, top):
    """The parts of a bar, one behind the other."""
    begin = 0
    for kind, value in zip(PARTS, values):
        wide = float(100 * value / most)
        if value:
            yield '<rect class="%s" x="%.2f%%" y="%d" width="%.2f%%" height="%d"/>' % (kind, begin, top, wide, THICK)
        begin += wide


def columns(name, rows):
    """A column for each row, as high as its value is beside the greatest; below them the first and the last label, and
    between them the greatest. A browser tells a column's label and figure where it is pointed at."""
    most = max((row.values[0] for row in rows), default=0) or 1
    parts = ['<svg class="chart columns" xmlns="http://www.w3.org/2000/svg" role="img" aria-label="%s" '
             'viewBox="0 0 %d 100" preserveAspectRatio="none">' % (escape(name), len(rows))]
    for place, row in enumerate(rows):
        high = float(100 * row.values[0] / most)
        parts.append('<rect class="dark" x="%.2f" y="%.2f" width="%.2f" height="%.2f"><title>%s: %s</title></rect>'
                     % (place + GAP / 2, 100 - high, 1 - GAP, high, escape(row.label), escape(row.told)))
    greatest = max(rows, key=lambda row: row.values[0])
    told = (rows[0].label, 'greatest: %s, %s' % (greatest.label, greatest.told), rows[-1].label)
    return ''.join(parts) + '</svg><p class="ends">%s</p>' % ''.join('<span>%s</span>' % escape(text) for text in told)
