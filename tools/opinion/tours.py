"""The length of a shortest closed walk past some slots, by the classes of docs/TOURS.md, and what a walk has to be.

Slots are kept as a dict: for each aisle with picks a number whose bit s is slot s.
"""

from functools import lru_cache

UU1, E01, ZE1, EE1, EE2, Z00, Z01 = range(7)
PASS, BACK, FRONT, GAP, DOUBLE, SKIP = range(6)

# The class after a way, by the class before it. None is 'not allowed'.
AFTER_WAY = (
    (EE1, UU1, UU1, UU1, UU1, UU1),
    (UU1, E01, EE2, EE2, EE1, E01),
    (UU1, EE2, ZE1, EE2, EE1, ZE1),
    (UU1, EE1, EE1, EE1, EE1, EE1),
    (UU1, EE2, EE2, EE2, EE1, EE2),
    (UU1, E01, ZE1, EE2, EE1, Z00),
    (None, None, None, None, None, Z01),
)
COPIES = (0, 2, 2, 2, 4)  # of 00, 11, 20, 02 and 22, both cross aisles together
AFTER_CROSSING = (
    (None, UU1, None, None, None),
    (Z01, None, E01, None, EE2),
    (Z01, None, None, ZE1, EE2),
    (Z01, None, E01, ZE1, EE1),
    (None, None, None, None, EE2),
    (Z00, None, E01, ZE1, EE2),
    (Z01, None, None, None, None),
)
WHOLE = (E01, ZE1, EE1, Z01)

# From one aisle that is needed to the next, past aisles that aren't: the class before and after, and the copies of all
# crossings between.
PAST = ((UU1, UU1, 2), (E01, E01, 2), (EE1, E01, 2), (ZE1, ZE1, 2), (EE1, ZE1, 2), (EE1, EE1, 4), (EE2, EE2, 4))


def bits(slots):
    """The slots of an aisle, from the front on."""
    place = 0
    while slots >> place:
        if slots >> place & 1:
            yield place
        place += 1


@lru_cache(maxsize=1 << 16)
def ways(layout, aisle, slots):
    """The length of each of the six ways through an aisle, None where it doesn't apply."""
    length = layout.length()
    required = [layout.depth(slot) for slot in bits(slots)]
    at_front, at_back = (layout.depot == aisle and layout.back == back for back in (False, True))
    if layout.depot == aisle:
        required = sorted(required + [layout.depth(layout.depot_point()[1])])
    found = [length, None, None, None, 2 * length, None if required else 0]
    if required:
        found[BACK] = None if at_front else 2 * (length - required[0])
        found[FRONT] = None if at_back else 2 * required[-1]
    if len(required) > 1:
        found[GAP] = 2 * (length - max(right - left for left, right in zip(required, required[1:])))
    return tuple(found)


def _least(steps):
    """Of the steps to each class the shortest."""
    best = {}
    for cls, length in steps:
        if cls is not None and (cls not in best or length < best[cls]):
            best[cls] = length
    return best


def _through(best, lengths):
    return _least((AFTER_WAY[cls][way], so_far + length) for cls, so_far in best.items()
                  for way, length in enumerate(lengths) if length is not None)


def _across(best, spacing):
    return _least((AFTER_CROSSING[cls][kind], so_far + copies * spacing) for cls, so_far in best.items()
                  for kind, copies in enumerate(COPIES))


def shortest(layout, slots):
    """The length of a shortest closed walk past slots, aisle by aisle."""
    best = {Z00: 0}
    for aisle in range(1, layout.aisles + 1):
        best = _through(best, ways(layout, aisle, slots.get(aisle, 0)))
        if aisle < layout.aisles:
            best = _across(best, layout.spacings[aisle - 1])
    return min(best[cls] for cls in WHOLE if cls in best)


class Lengths:
    """Lengths of shortest closed walks by the aisles that are needed alone, for who asks for many."""

    def __init__(self, layout):
        self.layout = layout
        self.across = [0, 0]
        for spacing in layout.spacings:
            self.across.append(self.across[-1] + spacing)

    def shortest(self, slots):
        needed = sorted({*slots, self.layout.depot})
        best = _through({Z00: 0}, ways(self.layout, needed[0], slots.get(needed[0], 0)))
        for left, right in zip(needed, needed[1:]):
            apart = self.across[right] - self.across[left]
            best = _least((after, best[before] + copies * apart) for before, after, copies in PAST if before in best)
            best = _through(best, ways(self.layout, right, slots.get(right, 0)))
        return min(best[cls] for cls in (E01, ZE1, EE1) if cls in best)


def gathered(points):
    """Slots by their aisles."""
    slots = {}
    for aisle, slot in points:
        slots[aisle] = slots.get(aisle, 0) | 1 << slot
    return slots


def joined(left, right):
    """The slots of both."""
    slots = dict(left)
    for aisle, some in right.items():
        slots[aisle] = slots.get(aisle, 0) | some
    return slots


def move(layout, left, right):
    """The length of a move from a point to another, None where it is none."""
    (aisle, slot), (other, place) = left, right
    is_within = all(1 <= each <= layout.aisles for each in (aisle, other))
    if not is_within or not all(0 <= each <= layout.slots + 1 for each in (slot, place)):
        return None
    if aisle == other and abs(slot - place) == 1:
        return abs(layout.depth(slot) - layout.depth(place))
    if slot == place and slot in (0, layout.slots + 1) and abs(aisle - other) == 1:
        return layout.spacings[min(aisle, other) - 1]
    return None


def walked(layout, points):
    """The length of a walk, None where two neighbours are no move."""
    moves = [move(layout, left, right) for left, right in zip(points, points[1:])]
    return None if None in moves else sum(moves)


def apart(layout, left, right):
    """How far two points lie from each other."""
    (aisle, slot), (other, place) = left, right
    here, there = layout.depth(slot), layout.depth(place)
    if aisle == other:
        return abs(here - there)
    across = sum(layout.spacings[min(aisle, other) - 1:max(aisle, other) - 1])
    return across + min(here + there, 2 * layout.length() - here - there)


def shortest_of_all(layout, points):
    """The length of a shortest closed walk past a few points, by trying every order: a test of the others (Held and
    Karp, 1962)."""
    points = sorted(set(points))
    depot = layout.depot_point()
    best = {(1 << last, last): apart(layout, depot, point) for last, point in enumerate(points)}
    for size in range(1, len(points)):
        for (seen, last), so_far in [each for each in best.items() if bin(each[0][0]).count('1') == size]:
            for place, point in enumerate(points):
                if not seen >> place & 1:
                    key, length = (seen | 1 << place, place), so_far + apart(layout, points[last], point)
                    best[key] = min(length, best.get(key, length))
    full = (1 << len(points)) - 1
    return min((so_far + apart(layout, points[last], depot) for (seen, last), so_far in best.items() if seen == full),
               default=0)
