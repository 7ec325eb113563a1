"""Certificates of the third form over drawn waves of up to eight orders, changes of them, and what the cheapest
batching of such a wave costs, by trying all.

A wave has a drawn layout, with or without a cart. Of its certificate the prices and the cuts are drawn, and the duals
are raised until each order is in a batch that pays its length. They are judged by lengths alone, and not by the visit
of marks.
"""

import functools
import itertools
import json
import random

from . import certificates, layouts
from .certificates import PARTS, Certificate, Pairs, Prices, Visit, Wave
from .refusals import Refusal

MOST_ORDERS = 8
DRAWS = 4  # of prices, before a node's own begin with what is above it
MOST_DEPTH = 3
RUNS = 40  # so many runs have one drawn certificate


def layout_of(dice):
    """The text of a layout."""
    unit = dice.choice((1, 1, 2, 3, 5, 50))
    aisles = dice.choice((1, 2, 2, 3, 3, 4))
    shape = {"aisles": aisles, "slots": dice.choice((1, 2, 3, 4, 5)), "depot": dice.randint(1, aisles),
             "pitch": dice.randint(1, 9) * dice.choice((1, unit)), "clearance": dice.randint(1, 9) * unit}
    if dice.random() < 0.5:
        shape.update(version=1, spacing=dice.randint(1, 9) * unit)
    else:
        spacings = [dice.randint(1, 9) * unit for _ in range(aisles - 1)]
        shape.update(version=2, spacings=spacings, end=dice.choice(("front", "back")))
    return json.dumps(shape)


def wave_of(dice, layout):
    """The parts of a certificate that say its wave."""
    slots = list(itertools.product(range(1, layout.aisles + 1), range(1, layout.slots + 1)))
    orders = [sorted(dice.sample(slots, min(len(slots), dice.choice((1, 1, 1, 2, 3)))))
              for _ in range(dice.choice((1, 2, 3, 3, 4, 4, 5, 5, 6, 7, 8)))]
    capacity = dice.choice((1, 2, 2, 2, 2, 3, 3, 3, 4, 5, 8))
    found = {"capacity": capacity, "orders": [list(map(list, order)) for order in orders]}
    if dice.random() < 0.4:
        units = dice.choice((1, 3, 5, 10))
        found.update(units=units, loads=[dice.randint(0, units) for _ in orders])
    return found


def cut_of(dice, orders):
    """A cut of so many orders."""
    divisor = dice.choice((2, 2, 2, 3, 3, 4, 5, 6, 7, 8))
    members = sorted(dice.sample(range(orders), dice.randint(1, orders)))
    return {"divisor": divisor, "orders": members,
            "parts": [dice.choice((1, 1, dice.randint(1, divisor - 1))) for _ in members]}


def subsets(orders):
    """All batches of so many orders."""
    for count in range(1, orders + 1):
        yield from itertools.combinations(range(orders), count)


def least_cost(layout, found):
    """What the cheapest batching of a certificate's wave costs, by trying all."""
    wave = Wave(layout, found)
    length = {sum(1 << order for order in batch): wave.length(batch) for batch in subsets(len(wave.orders))
              if wave.fits(batch)}
    best = {0: 0}
    for some in range(1, 1 << len(wave.orders)):
        low, part, costs = some & -some, some, []
        while part:
            if part & low and part in length:
                costs.append(length[part] + best[some ^ part])
            part = (part - 1) & some
        best[some] = min(costs)
    return best[(1 << len(wave.orders)) - 1]


class Maker:
    """Makes the tree of a wave."""

    def __init__(self, dice, layout, found, cuts):
        self.dice, self.cuts, self.nodes = dice, cuts, []
        self.wave = Wave(layout, Certificate([certificates.tours.gathered(map(tuple, order))
                                              for order in found["orders"]], found["capacity"], found.get("units"),
                                             found.get("loads"), [], cuts))

    def permitted(self, pairs):
        return [batch for batch in subsets(len(self.wave.orders)) if self.wave.permits(pairs, batch)]

    def slack(self, prices, batch):
        return PARTS * self.wave.length(batch) - prices.pays(batch)

    def raise_all(self, prices, batches):
        """Raises the duals, one after the other in a drawn order, as far as the slack of some batches lets them."""
        for order in self.dice.sample(range(len(prices.duals)), len(prices.duals)):
            prices.duals[order] += min(self.slack(prices, batch) for batch in batches if order in batch)

    def drawn(self, batches):
        """Prices that no batch pays too much by, and whose duals are tight."""
        dice, least = self.dice, min(map(self.wave.length, batches))
        part = dice.choice((0, dice.random(), 1))
        of_cuts = [dice.choice((0, dice.randrange(PARTS * least + 1), PARTS * least)) for _ in self.cuts]
        prices = Prices({"duals": [int(part * dual) for dual in self.wave.shares()], "prices": of_cuts}, self.cuts)
        most = min(self.slack(prices, batch) for batch in batches)
        prices.count = dice.choice((0, most, dice.randrange(most + 1)))
        self.raise_all(prices, batches)
        return prices

    def own(self, pairs, above):
        """Prices for a node, below those that are given."""
        batches = self.permitted(pairs)
        if not pairs.are_all_decided():
            for _ in range(DRAWS):
                prices = self.drawn(batches)
                if prices.net(self.wave) >= above.net(self.wave):
                    return prices
        prices = Prices({"duals": list(above.duals), "count": above.count, "prices": list(above.of_cuts)}, self.cuts)
        self.raise_all(prices, batches)
        return prices

    def marks(self, pairs, prices):
        """Marks that pass: here and there a 1 where a 0 would do."""
        visit, told = Visit(self.wave, pairs, prices, ""), []

        def place(batch, classes, later):
            paid = prices.pays(batch) + visit.reach(batch, later)
            is_zero = visit.within(batch, paid, 0) and self.dice.random() < 0.9
            told.append("0" if is_zero else "1")
            for at in range(later, 0 if is_zero else len(visit.items)):
                cls, orders = visit.items[at]
                wider = tuple(sorted(batch + tuple(orders)))
                if self.wave.permits(pairs, wider):
                    place(wider, classes + (cls,), at + 1)

        place((), (), 0)
        return "".join(told)

    def written(self, kind, pairs, prices, **more):
        """A node with what it has of its own."""
        batches = self.permitted(pairs)
        tight = [list(self.dice.choice([batch for batch in batches if order in batch
                                        and not self.slack(prices, batch)])) for order in range(len(prices.duals))]
        return {"kind": kind, "duals": prices.duals, "count": prices.count, "prices": prices.of_cuts,
                "marks": self.marks(pairs, prices), "tight": tight, **more}

    def dead(self, pairs):
        """An order that no permitted batch has, or None."""
        batches = self.permitted(pairs)
        return next((order for order in range(len(self.wave.orders))
                     if not any(order in batch for batch in batches)), None)

    def tree(self, pairs, above, depth=0):
        """Lists the nodes of a tree, of which the first has these prices above it."""
        dead = self.dead(pairs)
        if dead is not None:
            self.nodes.append({"kind": "dead", "order": dead})
            return
        orders = range(len(self.wave.orders))
        undecided = [pair for pair in itertools.combinations(orders, 2) if not pairs.decides(*pair)]
        has_plain = above.are_plain() or undecided
        if not has_plain or self.dice.random() < 0.2:
            self.nodes.append({"kind": "kept"})
            return
        prices = self.own(pairs, above)
        if not undecided or depth == MOST_DEPTH or self.dice.random() < 0.5:
            self.nodes.append(self.written("leaf", pairs, prices))
            return
        pair = self.dice.choice(undecided)
        self.nodes.append(self.written("split", pairs, prices, first=pair[0], second=pair[1]))
        self.tree(pairs.with_together(*pair), prices, depth + 1)
        self.tree(pairs.with_apart(*pair), prices, depth + 1)


def certificate_of(dice):
    """A drawn layout, and a right certificate of the third form over it: its text and its value."""
    text = layout_of(dice)
    layout = layouts.read_layout(text.encode())
    value = wave_of(dice, layout)
    orders = len(value["orders"])
    cuts = [cut_of(dice, orders) for _ in range(dice.choice((0, 0, 1, 1, 2, 3, 6, 64)))]
    maker = Maker(dice, layout, value, cuts)
    shares = Prices({"duals": maker.wave.shares(), "prices": [0] * len(cuts)}, cuts)
    maker.tree(Pairs(orders), shares)
    value.update(cuts=cuts, nodes=maker.nodes, step=certificates.step_of(layout), version=3)
    return text, value


def parts_of(value, at=()):
    """All parts of a value, each with the keys and places that lead to it."""
    yield at, value
    if isinstance(value, (dict, list)):
        for key in value if isinstance(value, dict) else range(len(value)):
            yield from parts_of(value[key], at + (key,))


def number_near(dice, number):
    """Another number, mostly one that is near."""
    far = (0, 1, 2, 8, 9, 60, 64, 10 ** 12, 10 ** 12 + 1, 2 ** 32, 2 ** 64 - 1)
    step = dice.choice((1, 1, 1, 2, 60, 120))
    return dice.choice((number + step, number + step, max(0, number - step), max(0, number - step), number // 2,
                        dice.choice(far)))


def part_changed(dice, part, others):
    """Another part in the place of one; `others` are those beside it."""
    if isinstance(part, int):
        return number_near(dice, part)
    if isinstance(part, str):
        place = dice.randrange(len(part) + 1)
        if set(part) <= {"0", "1"}:
            return part[:place] + dice.choice(("0", "1", "", "01")) + part[place + dice.choice((0, 1, 1, 1)):]
        return dice.choice(("kept", "leaf", "split", "dead", part + "x"))
    if isinstance(part, list):
        how, place = dice.randrange(4), dice.randrange(len(part) + 1)
        if how == 0 or not part:
            return part[:place] + [dice.choice(others)] + part[place:]
        if how == 1:
            return part[:place] + part[place + 1:]
        if how == 2:
            return part[:place] + part[max(0, place - 1):]
        return dice.sample(part, len(part))
    key = dice.choice(sorted(part) or ["x"])
    if dice.random() < 0.5:
        return {each: part[each] for each in part if each != key}
    return {**part, dice.choice(("units", "step", "count", "order", "first", "x", key)): dice.choice(others)}


def name_of(at):
    """The last key on the way to a part."""
    return next((key for key in reversed(at) if isinstance(key, str)), "")


def place_of(dice, value):
    """The way to a part of a certificate that is to be changed: mostly to a number, and to those of each key alike."""
    ways, numbers = {}, dice.random() < 0.75
    for at, part in parts_of(value):
        if at and numbers == (isinstance(part, int) and name_of(at) != "kind"):
            ways.setdefault(name_of(at), []).append(at)
    return dice.choice(ways[dice.choice(sorted(ways))])


def changed_once(dice, value):
    """Changes a part of a value."""
    at = place_of(dice, value)
    within = value
    for key in at[:-1]:
        within = within[key]
    others = list(within.values()) if isinstance(within, dict) else within
    within[at[-1]] = part_changed(dice, within[at[-1]], others)


def changed(dice, value):
    """The value of a certificate, with one part or some changed."""
    found = json.loads(json.dumps(value))
    times = dice.choice((1, 1, 1, 2, 3))
    while times > 0 or found == value:
        changed_once(dice, found)
        times -= 1
    return found


@functools.lru_cache(maxsize=8)
def drawn(seed, number):
    """A drawn layout and a certificate over it."""
    return certificate_of(random.Random("%d drawn %d" % (seed, number)))


@functools.lru_cache(maxsize=64)
def cost_of(layout, told):
    """What the cheapest batching of a wave costs, and a batch whose length is no multiple of the step, or None."""
    found = Certificate(*json.loads(told))
    found = found._replace(orders=[{int(aisle): slots for aisle, slots in order.items()} for order in found.orders])
    wave, step = Wave(layout, found), certificates.step_of(layout)
    odd = next((batch for batch in subsets(len(found.orders)) if wave.length(batch) % step), None)
    return least_cost(layout, found), odd


class Priced:
    """Runs of the mode by their numbers, with a call that changes a text."""

    def __init__(self, seed, changed_text):
        self.seed, self.changed_text = seed, changed_text

    def files(self, number):
        """The files of a run: every eighth has the certificate as it was drawn."""
        layout, value = drawn(self.seed, number // RUNS)
        dice = random.Random("%d priced %d" % (self.seed, number))
        is_byte_by_byte = dice.random() < 0.1
        if number % 8 and not is_byte_by_byte:
            value = changed(dice, value)
        text = json.dumps(value, separators=(",", ":"), sort_keys=True).encode()
        if number % 8 and is_byte_by_byte:
            text = self.changed_text(dice, text)
        return {"layout.json": layout.encode(), "certificate.json": text}

    def faults(self, read, end):
        """What is wrong with a bound, and with the lengths of the wave's batches."""
        layout = layouts.read_layout(read("layout.json"))
        try:
            found = certificates.read_certificate(read("certificate.json"), layout)
        except Refusal:
            return []
        if len(found.orders) > MOST_ORDERS:
            return []
        least, odd = cost_of(layout, json.dumps(found._replace(nodes=[], cuts=[])))
        faults = [] if odd is None else ["the length of %s is no multiple of the step" % (odd,)]
        if end.status == 0 and not int(end.output.split()[1]) <= least:
            faults.append("a batching costs %d" % least)
        return faults
