"""What three usual rules would walk past the picks of a batch: through every aisle, back in every aisle, and round the
largest gap (Hall, 1993).

A rule is a list of stops, and its walk goes straight from each to the next, point by point. So its length is that of
its moves.
"""

import re

from . import tours

NUMBER = '(0|[1-9][0-9]*)'
NAMES = ('s-shape', 'return', 'largest-gap')
LINE = re.compile('rules ' + ' '.join('%s %s %s' % (name, NUMBER, NUMBER) for name in NAMES))


def _steps(left, right):
    """The numbers after one up or down to another, none where they are the same."""
    step = 1 if left <= right else -1
    return range(left + step, right + step, step) if left != right else ()


def straight(left, right):
    """The points after a stop to the next one, which lies in the same aisle or at the same end."""
    (aisle, slot), (other, place) = left, right
    if aisle == other:
        return [(aisle, each) for each in _steps(slot, place)]
    if slot != place:
        raise ValueError('the stops %s and %s lie neither in one aisle nor at one end' % (left, right))
    return [(each, slot) for each in _steps(aisle, other)]


class Rules:
    """The stops of each rule for the slots of a batch. Home is the depot's end of each aisle, and far the other."""

    def __init__(self, layout, slots):
        self.layout, self.depot = layout, layout.depot_point()
        self.home, self.far = self.depot[1], layout.slots + 1 - self.depot[1]
        self.picks = {aisle: sorted(tours.bits(some), key=self.depth) for aisle, some in slots.items()}
        self.aisles = sorted(self.picks)

    def depth(self, slot):
        """How far a slot lies from home."""
        front = self.layout.depth(slot)
        return self.layout.length() - front if self.layout.back else front

    def back(self, aisle):
        """Into an aisle from home to its deepest pick, and out again."""
        return [(aisle, self.home), (aisle, self.picks[aisle][-1]), (aisle, self.home)]

    def returns(self):
        return [stop for aisle in self.aisles for stop in self.back(aisle)]

    def s_shape(self):
        stops, here, there = [], self.home, self.far
        through = self.aisles[:-1] if len(self.aisles) % 2 else self.aisles
        for aisle in through:
            stops += [(aisle, here), (aisle, there)]
            here, there = there, here
        return stops + (self.back(self.aisles[-1]) if len(self.aisles) % 2 else [])

    def parts(self, aisle):
        """The picks of an aisle before its largest gap from home, and behind it. Of equal gaps the one nearest to home
        counts."""
        slots = self.picks[aisle]
        depths = [0, *map(self.depth, slots), self.layout.length()]
        gaps = [right - left for left, right in zip(depths, depths[1:])]
        cut = gaps.index(max(gaps))
        return slots[:cut], slots[cut:]

    def largest_gap(self):
        if len(self.aisles) < 2:
            return self.returns()
        first, last = self.aisles[0], self.aisles[-1]
        stops = [(first, self.home), (first, self.far)]
        for aisle in self.aisles[1:-1]:
            if self.parts(aisle)[1]:
                stops += [(aisle, self.far), (aisle, self.parts(aisle)[1][0]), (aisle, self.far)]
        stops += [(last, self.far), (last, self.home)]
        for aisle in reversed(self.aisles[1:-1]):
            if self.parts(aisle)[0]:
                stops += [(aisle, self.home), (aisle, self.parts(aisle)[0][-1]), (aisle, self.home)]
        return stops

    def walks(self):
        """The walk of each rule, by its name."""
        return dict(zip(NAMES, map(self.walk, (self.s_shape(), self.returns(), self.largest_gap()))))

    def walk(self, stops):
        """From the depot straight to each stop, and back to it."""
        points = [self.depot]
        for stop in [*stops, self.depot]:
            points += straight(points[-1], stop)
        return points


def judge_rules(lines, layout, slots, length):
    """Judges the line of a batch's rules, where its tour past these slots has this length."""
    found = LINE.fullmatch(lines.next())
    lines.test(found, 'no line of rules')
    told = list(map(int, found.groups()))
    for (name, walk), walked, surplus in zip(Rules(layout, slots).walks().items(), told[::2], told[1::2]):
        lines.test(walked >= length, 'the walk by %s is %d long, and no tour of the batch is shorter than %d'
                   % (name, walked, length))
        lines.test(surplus == walked - length, 'the surplus of %s is %d where %d and %d are %d apart'
                   % (name, surplus, walked, length, walked - length))
        right = tours.walked(layout, walk)
        lines.test(walked == right, 'the walk by %s is %d long where %d is printed' % (name, right, walked))
