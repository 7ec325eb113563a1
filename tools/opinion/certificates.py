"""Certificates: their text, the rules of their trees in the order of their tests, and the bound of a right one, as
docs/BATCHES.md has them."""

from collections import namedtuple
from math import gcd

from . import json_text, tours
from .refusals import Refusal

MOST_ORDERS, MOST_CAPACITY, MOST_DUAL, MOST_UNITS = 64, 8, 10 ** 12, 40000000
MOST_CUTS, LEAST_DIVISOR, MOST_DIVISOR = 64, 2, 8
PARTS = 60  # of a unit of length, in which duals are counted

TOP = {'version', 'capacity', 'orders', 'nodes'}
CART = {'units', 'loads'}
PRICED = {'step', 'cuts'}
OWN = {'duals', 'marks', 'tight'}
PRICES = {'count', 'prices'}
KINDS = {'kept': set(), 'leaf': OWN, 'split': {'first', 'second'}, 'dead': {'order'}}
CUT = {'divisor', 'orders', 'parts'}

# The wave of a certificate: the slots at which each order picks, the capacity, and units and loads of a cart, which may
# be None; its nodes; and its cuts, which are None in the first two forms.
Certificate = namedtuple('Certificate', 'orders capacity units loads nodes cuts', defaults=(None,))


def _refuse(why):
    raise Refusal(6, 'refused certificate %s' % why)


def _shape(right):
    if not right:
        _refuse('bad-shape')


def _is_whole(value):
    return isinstance(value, int) and not isinstance(value, bool)


def _is_list(value, is_one):
    return isinstance(value, list) and all(map(is_one, value))


def _is_pair(value):
    return _is_list(value, _is_whole) and len(value) == 2


def _is_batch(value):
    if not _is_list(value, _is_whole) or not all(each < 64 for each in value):
        return False
    return all(left < right for left, right in zip(value, value[1:]))


def _is_short(value):
    return _is_whole(value) and value < 2 ** 32


def _is_cut(value):
    """Whether a value has the form of a cut, whatever its numbers say."""
    return (isinstance(value, dict) and set(value) == CUT and _is_short(value['divisor'])
            and _is_list(value['orders'], _is_short) and _is_list(value['parts'], _is_short))


def _shape_own(node):
    _shape(_is_list(node['duals'], _is_whole))
    _shape('count' not in node or _is_whole(node['count']) and _is_list(node['prices'], _is_whole))
    _shape(isinstance(node['marks'], str) and set(node['marks']) <= {'0', '1'})
    _shape(_is_list(node['tight'], _is_batch))


def _shape_node(node, own):
    """Tests the form of a node, where these are the keys of what it has of its own."""
    _shape(isinstance(node, dict) and isinstance(node.get('kind'), str) and node['kind'] in KINDS)
    keys = KINDS[node['kind']] | {'kind'}
    if node['kind'] == 'leaf' or node['kind'] == 'split' and own & set(node):
        keys = keys | own
    _shape(set(node) == keys)
    if 'duals' in node:
        _shape_own(node)
    _shape(all(_is_short(node[key]) for key in ('first', 'second', 'order') if key in node))


def _shape_top(value):
    """Tests the form of a certificate, and tells which version such a form has."""
    _shape(isinstance(value, dict))
    has_cart, has_prices = bool(CART & set(value)), 'step' in value
    _shape(set(value) == TOP | (CART if has_cart else set()) | (PRICED if has_prices else set()))
    _shape(_is_whole(value['version']) and _is_whole(value['capacity']))
    _shape(_is_list(value['orders'], lambda order: _is_list(order, _is_pair)))
    _shape(isinstance(value['nodes'], list))
    if has_cart:
        _shape(_is_whole(value['units']) and _is_list(value['loads'], _is_whole))
    if has_prices:
        _shape(_is_whole(value['step']) and _is_list(value['cuts'], _is_cut))
    for node in value['nodes']:
        _shape_node(node, OWN | PRICES if has_prices else OWN)
    return 3 if has_prices else 2 if has_cart else 1


def _is_cart(units, loads, orders):
    return 1 <= units <= MOST_UNITS and len(loads) == orders and all(load <= units for load in loads)


def step_of(layout):
    """The step of a layout, of which the length of each closed walk is a multiple."""
    moves = [layout.clearance, *layout.spacings] + ([layout.pitch] if layout.slots > 1 else [])
    half = 0
    for move in moves:
        half = gcd(half, move)
    return 2 * half


def _sixtieths(node):
    """All duals and prices of a node."""
    return (*node.get('duals', ()), *node.get('prices', ()), node.get('count', 0))


def _is_within(value, layout, version):
    """Whether the numbers of a certificate are within their ranges."""
    orders = value['orders']
    return (value['version'] == version and 1 <= value['capacity'] <= MOST_CAPACITY
            and 1 <= len(orders) <= MOST_ORDERS
            and all(order and all(layout.has(*pair) for pair in order) for order in orders)
            and all(each <= MOST_DUAL for node in value['nodes'] for each in _sixtieths(node))
            and ('units' not in value or _is_cart(value['units'], value['loads'], len(orders)))
            and ('step' not in value or value['step'] == step_of(layout)))


def read_certificate(data, layout):
    """The certificate that bytes say, for a layout."""
    try:
        value = json_text.read(data)
    except json_text.NotJson:
        _refuse('not-json')
    version = _shape_top(value)
    if not _is_within(value, layout, version):
        _refuse('out-of-range')
    orders = [tours.gathered(map(tuple, order)) for order in value['orders']]
    return Certificate(orders, value['capacity'], value.get('units'), value.get('loads'), value['nodes'],
                       value.get('cuts'))


class Pairs:
    """What is decided above a node: the orders that go together, as classes, and the pairs that go apart."""

    def __init__(self, orders, together=(), apart=()):
        self.of = list(range(orders))
        for left, right in together:
            low, high = sorted((self.of[left], self.of[right]))
            self.of = [low if each == high else each for each in self.of]
        self.together, self.apart = tuple(together), tuple(apart)
        self.parted = {(self.of[left], self.of[right]) for left, right in apart}
        self.parted |= {(right, left) for left, right in self.parted}

    def with_together(self, left, right):
        return Pairs(len(self.of), self.together + ((left, right),), self.apart)

    def with_apart(self, left, right):
        return Pairs(len(self.of), self.together, self.apart + ((left, right),))

    def decides(self, left, right):
        return self.of[left] == self.of[right] or (self.of[left], self.of[right]) in self.parted

    def are_all_decided(self):
        return all(self.decides(left, right) for right in range(len(self.of)) for left in range(right))

    def classes(self):
        """The classes by their least orders."""
        found = {}
        for order, cls in enumerate(self.of):
            found.setdefault(cls, []).append(order)
        return found


class NodeFault(Exception):
    """The rule that a node breaks."""


class Wave:
    """The wave of a certificate: which batches are permitted in it, and how long they are."""

    def __init__(self, layout, found):
        self.orders, self.capacity, self.units, self.loads = found.orders, found.capacity, found.units, found.loads
        self.lengths, self.known = tours.Lengths(layout), {}

    def slots(self, batch):
        slots = {}
        for order in batch:
            slots = tours.joined(slots, self.orders[order])
        return slots

    def length(self, batch):
        """The length of a batch, an ascending tuple of orders."""
        if batch not in self.known:
            self.known[batch] = self.lengths.shortest(self.slots(batch))
        return self.known[batch]

    def fits(self, batch):
        """Whether a cart takes these orders."""
        return len(batch) <= self.capacity and (self.units is None
                                                or sum(self.loads[order] for order in batch) <= self.units)

    def permits(self, pairs, batch):
        """Whether a batch is permitted where such pairs are decided."""
        classes = {pairs.of[order] for order in batch}
        whole = sorted(order for order, cls in enumerate(pairs.of) if cls in classes)
        return bool(batch) and self.fits(batch) and whole == sorted(batch) and not any(
            (left, right) in pairs.parted for left in classes for right in classes)

    def shares(self):
        """The share duals."""
        return [PARTS * self.length((order,)) // self.capacity for order in range(len(self.orders))]

    def least_batches(self):
        """A number of batches that each batching has, by orders and by loads."""
        by_orders = -(-len(self.orders) // self.capacity)
        return by_orders if self.units is None else max(by_orders, -(-sum(self.loads) // self.units))


def is_cut(cut, orders):
    """Whether a cut is one of so many orders."""
    members, parts = cut['orders'], cut['parts']
    return (LEAST_DIVISOR <= cut['divisor'] <= MOST_DIVISOR and 0 < len(members) == len(parts)
            and members[-1] < orders and all(left < right for left, right in zip(members, members[1:]))
            and all(1 <= part < cut['divisor'] for part in parts))


def times_met(cut, batch):
    """How often a batch meets a cut."""
    return sum(part for order, part in zip(cut['orders'], cut['parts']) if order in batch) // cut['divisor']


class Prices:
    """What a node has of its own: a dual for each order, and a price for each batch and for each cut. In the first two
    forms there are no cuts, and a batch has the price 0."""

    def __init__(self, node, cuts):
        self.duals, self.count, self.of_cuts = node['duals'], node.get('count', 0), node.get('prices', [])
        self.cuts = cuts or []

    def are_plain(self):
        return not self.count and not any(self.of_cuts)

    def taken_off(self, batch):
        """What the cuts take off a batch."""
        return sum(price * times_met(cut, batch) for cut, price in zip(self.cuts, self.of_cuts) if price)

    def pays(self, batch):
        """What a batch pays, which may be below 0."""
        return sum(self.duals[order] for order in batch) + self.count - self.taken_off(batch)

    def net(self, wave):
        """What all batches of a batching pay together at least."""
        return sum(self.duals) + wave.least_batches() * self.count - self.taken_off(range(len(wave.orders)))


class Visit:
    """Goes through the marks of a node, and finds the first rule that they or its prices break."""

    def __init__(self, wave, pairs, prices, marks):
        self.wave, self.prices, self.marks, self.read = wave, prices, marks, 0
        self.items = sorted(pairs.classes().items())
        self.pairs = pairs

    def within(self, batch, paid, least):
        """Whether what is paid is within the length of a batch, of which it is known that it is no less than
        `least`."""
        return paid <= PARTS * least or paid <= PARTS * (self.wave.length(batch) if batch else 0)

    def reach(self, batch, later):
        """The most that further orders of later items can add."""
        duals = self.prices.duals
        rest = sorted((duals[order] for _, orders in self.items[later:] for order in orders), reverse=True)
        return sum(rest[:self.wave.capacity - len(batch)])

    def place(self, batch, classes, later, least):
        """Visits a place, whose further items begin at `later`."""
        paid = self.prices.pays(batch)
        if batch and not self.within(batch, paid, least):
            raise NodeFault('not-feasible %s' % ' '.join(map(str, batch)))
        mark = self.marks[self.read:self.read + 1]
        self.read += 1
        if not mark:
            raise NodeFault('bad-marks')
        if mark == '0' and not self.within(batch, paid + self.reach(batch, later), least):
            raise NodeFault('bad-marks')
        if mark == '1':
            self.children(batch, classes, later, self.wave.known.get(batch, least))

    def children(self, batch, classes, later, least):
        for place in range(later, len(self.items)):
            cls, orders = self.items[place]
            wider = tuple(sorted(batch + tuple(orders)))
            if self.wave.fits(wider) and not any((cls, other) in self.pairs.parted for other in (*classes, cls)):
                self.place(wider, classes + (cls,), place + 1, least)

    def all(self):
        self.place((), (), 0, 0)
        if self.read != len(self.marks):
            raise NodeFault('bad-marks')


class Check:
    """Goes through a tree in preorder."""

    def __init__(self, layout, found):
        self.wave, self.nodes, self.next, self.least = Wave(layout, found), found.nodes, 0, None
        self.cuts, self.step = found.cuts, 1 if found.cuts is None else step_of(layout)

    def test_dead(self, node, pairs):
        order, orders = node['order'], len(self.wave.orders)
        if order >= orders or self.wave.permits(pairs, tuple(each for each in range(orders)
                                                             if pairs.of[each] == pairs.of[order])):
            raise NodeFault('not-dead %d' % order)

    def test_cuts(self):
        cuts = self.cuts or []
        if len(cuts) > MOST_CUTS or not all(is_cut(cut, len(self.wave.orders)) for cut in cuts):
            raise NodeFault('bad-cuts')

    def test_own(self, node, pairs, above):
        """Tests what a node has of its own, where the net above it is given, and gives its own net."""
        prices, orders = Prices(node, self.cuts), len(self.wave.orders)
        if len(prices.duals) != orders or len(node['tight']) != orders or len(prices.of_cuts) != len(prices.cuts):
            raise NodeFault('duals-length')
        if not prices.are_plain() and pairs.are_all_decided():
            raise NodeFault('decided-prices')
        net = prices.net(self.wave)
        if net < above:
            raise NodeFault('sum-low')
        Visit(self.wave, pairs, prices, node['marks']).all()
        for order, batch in enumerate(map(tuple, node['tight'])):
            if (not all(each < orders for each in batch) or not self.wave.permits(pairs, batch) or order not in batch
                    or prices.pays(batch) != PARTS * self.wave.length(batch)):
                raise NodeFault('not-tight %d' % order)
        return net

    def test_pair(self, node, pairs):
        first, second = node['first'], node['second']
        if not first < second < len(self.wave.orders) or pairs.decides(first, second):
            raise NodeFault('bad-pair')

    def visit(self, pairs, above):
        """Tests the next node, and gives what is to be visited below it."""
        if self.next == len(self.nodes):
            raise NodeFault('cut')
        node = self.nodes[self.next]
        kind = node['kind']
        if kind == 'dead':
            self.test_dead(node, pairs)
            return []
        if kind == 'split' and 'duals' not in node:
            raise NodeFault('split-kept')
        net = self.test_own(node, pairs, above) if 'duals' in node else above
        if kind != 'split':
            bound = -(-net // (PARTS * self.step)) * self.step
            self.least = bound if self.least is None else min(self.least, bound)
            return []
        self.test_pair(node, pairs)
        pair = node['first'], node['second']
        return [(pairs.with_together(*pair), net), (pairs.with_apart(*pair), net)]

    def bound(self):
        """The bound of the tree, or None where all its leaves are dead."""
        left = [(Pairs(len(self.wave.orders)), sum(self.wave.shares()))]
        try:
            self.test_cuts()
            while left:
                left += reversed(self.visit(*left.pop()))
                self.next += 1
            if self.next < len(self.nodes):
                raise NodeFault('cut')
        except NodeFault as why:
            _refuse('node %d %s' % (self.next, why))
        return self.least


def bound_of(layout, found):
    """The bound of a certificate's tree. Fails with the first rule that it breaks."""
    return Check(layout, found).bound()
