"""A drawing of a block of aisles with a tour, as SVG: numbers of aisles and slots, the stops in walking order, the way
with its direction, the depot."""

import functools
from html import escape

WIDE, HIGH, LOW = 1000, 520, 150  # the drawing's width, and its greatest and least height, in units of its own
LEFT, RIGHT, TOP, BOTTOM = 50, 36, 38, 42  # margins
ASIDE = 2.6  # how far to the right of its line a way is drawn, so that there and back are two lines
LETTERS = 14  # how high numbers are: 7 points and more on a page of A4, which shows the width as 186 millimetres
HIGH_TAG, DOT = 15, 2.8  # the height of a stop's number with its ground, and the radius of its dots
STEPS = (1, 2, 5, 10, 20, 50)  # every which aisle or slot has its number

STYLE = ('<style>.aisle{stroke:#d5d5d5;stroke-width:6}.cross{stroke:#e6e6e6;stroke-width:3}'
         '.tick{stroke:#999;stroke-width:1}.way{fill:none;stroke:#1463b0;stroke-width:1.8;stroke-linejoin:round}'
         '.head{fill:#1463b0}.stop{stroke:#000;stroke-width:%s;stroke-linecap:round}.lead{stroke:#000;stroke-width:.8}'
         '.tag{fill:#fff;stroke:#000;stroke-width:1}.depot{fill:#111}'
         'text{font-family:Arial,Helvetica,sans-serif;font-size:%dpx;text-anchor:middle}'
         '.slot{text-anchor:end}.slot,.num{fill:#333}.n{font-weight:700}</style>' % (2 * DOT, LETTERS))


class Scale:
    """Where the points of a layout lie in a drawing. The front is at its lower edge."""

    def __init__(self, layout):
        self.layout = layout
        across, self.deep = layout.across(layout.aisles), layout.depth(layout.slots + 1)
        wide = (WIDE - LEFT - RIGHT) / across if across else 0
        self.high = min(max(self.deep * wide, LOW), HIGH - TOP - BOTTOM) if across else HIGH - TOP - BOTTOM
        self.height = self.high + TOP + BOTTOM
        self.places = [LEFT + layout.across(aisle) * wide if wide else WIDE / 2
                       for aisle in range(1, layout.aisles + 1)]

    def x(self, aisle):
        return self.places[aisle - 1]

    def y(self, slot):
        return TOP + self.high * (1 - self.layout.depth(slot) / self.deep)

    def point(self, point):
        return self.x(point[0]), self.y(point[1])


@functools.lru_cache(maxsize=None)
def scale_of(layout):
    return Scale(layout)


def high_on(layout, wide):
    """How high a drawing is that is so wide."""
    return wide * scale_of(layout).height / WIDE


def _line(cls, left, right):
    return '<line class="%s" x1="%.1f" y1="%.1f" x2="%.1f" y2="%.1f"/>' % (cls, *left, *right)


def _path(cls, pieces):
    """Many shapes of one kind as one element, which opens faster than as many."""
    return '<path class="%s" d="%s"/>' % (cls, ''.join(pieces)) if any(pieces) else ''


def _text(cls, x, y, text):
    return '<text class="%s" x="%.1f" y="%.1f">%s</text>' % (cls, x, y, escape(str(text)))


def _every(step, last):
    """1 and every number that a step divides up to the last. With a step of 2 they are the odd numbers."""
    return [*range(1, last + 1, 2)] if step == 2 else [*sorted({1, *range(step, last + 1, step)})]


def wide_of(number):
    """How wide a number is drawn at most."""
    return 0.62 * LETTERS * len(str(number))


def _touches(scale, left, right):
    return scale.x(right) - scale.x(left) < (wide_of(left) + wide_of(right)) / 2 + 4


def numbered(layout):
    """The aisles whose numbers are shown: all, every second, every fifth and so on, of which no two touch; where none
    of these serves, one after another as there is room."""
    scale = scale_of(layout)
    for step in STEPS:
        aisles = _every(step, layout.aisles)
        if not any(_touches(scale, *pair) for pair in zip(aisles, aisles[1:])):
            return aisles
    aisles = [1]
    for aisle in range(2, layout.aisles + 1):
        aisles += [] if _touches(scale, aisles[-1], aisle) else [aisle]
    return aisles


def _ticks(layout):
    """The slots whose numbers are shown: the first, the last, and some between, as there is room."""
    room = scale_of(layout).high / (LETTERS + 2)
    step = next(step for step in STEPS if layout.slots / step <= min(12, room))
    between = range(step, layout.slots - step // 2, step) if step > 1 else range(1, layout.slots)
    return sorted({1, *between, layout.slots})


def block(layout):
    """The aisles of a layout with their numbers, which all its drawings share."""
    scale, end = scale_of(layout), layout.slots + 1
    parts = [_line('cross', scale.point((1, slot)), scale.point((layout.aisles, slot))) for slot in (0, end)]
    parts += [_line('aisle', scale.point((aisle, 0)), scale.point((aisle, end)))
              for aisle in range(1, layout.aisles + 1)]
    for aisle in numbered(layout):
        parts += [_text('num', scale.x(aisle), y, aisle) for y in (scale.y(end) - 20, scale.y(0) + 33)]
    for slot in _ticks(layout):
        parts.append(_text('slot', scale.x(1) - 13, scale.y(slot) + 5, slot))
        parts.append(_line('tick', (scale.x(1) - 10, scale.y(slot)), (scale.x(1) - 5, scale.y(slot))))
    x, y = scale.point(layout.depot_point())
    y += -14 if layout.back else 6
    parts.append('<rect class="depot" x="%.1f" y="%.1f" width="10" height="8"/>' % (x - 5, y))
    parts.append(_text('where', x + (30 if x < WIDE / 2 else -30), y + 10, 'depot'))
    return ''.join(parts)


def corners(tour):
    """The points at which a walk turns, with its first and last."""
    kept = tour[:1]
    for before, here, after in zip(tour, tour[1:], tour[2:]):
        if (here[0] - before[0], here[1] - before[1]) != (after[0] - here[0], after[1] - here[1]):
            kept.append(here)
    return kept + tour[-1:] if len(tour) > 1 else kept


def _aside(left, right):
    """A straight piece of the way, moved to the right of its direction."""
    (x0, y0), (x1, y1) = left, right
    length = max(abs(x1 - x0) + abs(y1 - y0), 0.001)
    x, y = -(y1 - y0) / length * ASIDE, (x1 - x0) / length * ASIDE
    return (x0 + x, y0 + y), (x1 + x, y1 + y)


def _head(left, right):
    """The head of an arrow in the middle of a piece of the way."""
    (x0, y0), (x1, y1) = left, right
    length = abs(x1 - x0) + abs(y1 - y0)
    if length < 16:
        return ''
    x, y, along, up = (x0 + x1) / 2, (y0 + y1) / 2, (x1 - x0) / length * 5, (y1 - y0) / length * 5
    return 'M%.1f %.1fL%.1f %.1fL%.1f %.1fZ' % (x + along, y + up, x - along + up * 0.7, y - up - along * 0.7,
                                                x - along - up * 0.7, y - up + along * 0.7)


def way(layout, tour):
    """The way of a tour, with heads of arrows that show its direction."""
    scale = scale_of(layout)
    places = [scale.point(point) for point in corners(tour)]
    pieces = [_aside(left, right) for left, right in zip(places, places[1:])]
    points = ' '.join('%.1f,%.1f' % place for piece in pieces for place in piece)
    return '<polyline class="way" points="%s"/>' % points + _path('head', [_head(*piece) for piece in pieces])


class Ground:
    """What is taken of a drawing by dots and by numbers of stops, so that none covers another."""

    def __init__(self, scale):
        self.left, self.low, self.high, self.bands = scale.x(1) - 8, TOP - 8, TOP + scale.high + 8, {}

    def is_free(self, left, top, right, low):
        """Whether a box lies in the drawing, right of the numbers of the slots, and touches nothing."""
        if left < self.left or right > WIDE - 1 or top < self.low or low > self.high:
            return False
        bands = range(int(top // HIGH_TAG), int(low // HIGH_TAG) + 1)
        return not any(left < box[2] and box[0] < right and top < box[3] and box[1] < low for band in bands
                       for box in self.bands.get(band, ()))

    def take(self, *box):
        for band in range(int(box[1] // HIGH_TAG), int(box[3] // HIGH_TAG) + 1):
            self.bands.setdefault(band, []).append(box)

    def place(self, x, y, wide, is_left):
        """Where a number of a width stands that belongs to a point: beside it where there is room, else as near as
        there is."""
        for across, down in OFFSETS:
            middle, line = x + (-across if is_left else across), y + down
            box = (middle - wide / 2, line - HIGH_TAG / 2, middle + wide / 2, line + HIGH_TAG / 2)
            if self.is_free(*box):
                self.take(*box)
                return middle, line
        return x, y


# Where a number is tried, from its point, by small steps near it and by large ones far from it: the nearest first,
# where a step up or down, or to the side without a dot, counts as two.
NEAR = [(across, down) for across in range(-60, 61, 5) for down in range(-60, 61, 4)]
FAR = [(across, down) for across in range(-960, 961, 30) for down in range(-448, 449, 16)]
OFFSETS = sorted({*NEAR, *FAR}, key=lambda it: ((it[0] if it[0] > 0 else 5 - 2 * it[0]) + 2 * abs(it[1]), it))


def _dots(scale, point, sides):
    """The dots of a stop, at each side on which it picks."""
    x, y = scale.point(point)
    return [(x + (4 if side == 'R' else -4), y) for side in sides]


def _box(x, y, wide):
    """The ground of a stop's number."""
    return 'M%.1f %.1fh%.1fv%dh-%.1fz' % (x - wide / 2, y - HIGH_TAG / 2, wide, HIGH_TAG, wide)


def tags(layout, walk):
    """Where the stops of a batch in walking order have their dots and their numbers: for each its dots, and the middle
    and the width of its number."""
    scale, found = scale_of(layout), []
    ground, dots = Ground(scale), [_dots(scale, point, sorted({pick.location[-1] for pick in picks}))
                                   for point, picks in walk]
    for x, y in (dot for some in dots for dot in some):
        ground.take(x - DOT, y - DOT, x + DOT, y + DOT)
    for number, ((point, _), some) in enumerate(zip(walk, dots), 1):
        wide = wide_of(number) + 6
        is_left = len(some) == 1 and some[0][0] < scale.x(point[0])
        found.append((some, ground.place(*scale.point(point), wide, is_left), wide))
    return found


def stops(layout, walk):
    """The stops of a batch in walking order, numbered from 1, each with a line to its number where that doesn't stand
    beside it."""
    leads, points, boxes, numbers = [], [], [], []
    for number, (dots, (x, y), wide) in enumerate(tags(layout, walk), 1):
        near = min(dots, key=lambda dot: abs(dot[0] - x))
        if abs(near[1] - y) > 1 or abs(near[0] - x) > wide / 2 + 8:
            leads.append('M%.1f %.1fL%.1f %.1f' % (*near, x, y))
        points += ['M%.1f %.1fh0' % dot for dot in dots]
        boxes.append(_box(x, y, wide))
        numbers.append(_text('n', x, y + 0.36 * LETTERS, number))
    return ''.join([_path('lead', leads), _path('stop', points), _path('tag', boxes), *numbers])


def drawing(layout, batch, shared=None, titled=''):
    """A batch's tour in its block. With `shared` the block is that of an element of this name in the same file."""
    title = '<title>%s</title>' % escape(titled) if titled else ''
    ground = '<use href="#%s"/>' % shared if shared else STYLE + block(layout)
    size = 'viewBox="0 0 %d %.0f" width="100%%"' % (WIDE, scale_of(layout).height)
    tour = way(layout, batch.tour) + stops(layout, batch.walk())
    return '<svg xmlns="http://www.w3.org/2000/svg" role="img" %s>%s%s%s</svg>' % (size, title, ground, tour)
