"""The output of a plan, judged line by line against the four files that it came from."""

import re
from collections import namedtuple

from . import json_text, tours
from .budgets import budget_for, nodes_for
from .certificates import Wave as CertifiedWave, bound_of, read_certificate
from .crews import judge_crew
from .journals import read_entry
from .refusals import Refusal
from .roots import judge_root
from .rules import judge_rules
from .stock_book import Book, command_text

SMALL = 9  # so few slots that every order of them is tried
COMPACT = re.compile(rb'[ \t\r\n]')
TOO_LONG = re.compile(b'[0-9]{60}')  # longer than any number or name

# What the files of a day say, and what its words do: the units of a cart may be None, and rules, pickers and root are 0
# where nothing is told of them. `stored` has the lines of the entries with which the day begins. A budget of None isn't
# told, and nodes of None don't stand in its place.
Opening = namedtuple('Opening', 'layout stock orders scripts capacity units rules pickers root stored budget '
                     'nodes', defaults=(0, 0, 0, (), None, None))

# A wave that went out: its name, the number of the entry, its orders, and what it holds then, as (row, order, units).
Released = namedtuple('Released', 'name entry orders held')


class Fault(Exception):
    """What is wrong with an output, and in which line."""


class Lines:
    """The lines of an output, from the first on."""

    def __init__(self, data):
        self.lines = data.split(b'\n')
        self.place = 0

    def fail(self, why):
        raise Fault('line %d: %s' % (self.place, why))

    def test(self, right, why):
        if not right:
            self.fail(why)

    def next(self):
        """The next line, which has to have its end."""
        self.place += 1
        if self.place >= len(self.lines):
            self.fail('the output is cut off here')
        line = self.lines[self.place - 1]
        self.test(line.isascii(), 'a byte that is no ASCII')
        self.test(line.startswith(b'certificate ') or not TOO_LONG.search(line), 'a number with too many digits')
        return line.decode('ascii')

    def peek(self):
        return self.lines[self.place].decode('ascii', 'replace') if self.place < len(self.lines) - 1 else ''

    def is_due(self, text):
        found = self.next()
        self.test(found == text, '%r where %r is due' % (shortened(found), shortened(text)))

    def end(self):
        self.place += 1
        self.test(self.lines[self.place - 1:] == [b''], 'something follows the end')


def shortened(text):
    return text if len(text) <= 200 else text[:200] + '..'


def is_gathered(order):
    """Whether the slots of an order are pairs of numbers, in order and each once."""
    if not isinstance(order, list) or not all(isinstance(slot, list) and list(map(type, slot)) == [int, int]
                                              for slot in order):
        return False
    return order == sorted(map(list, set(map(tuple, order))))


class Judge:
    """Goes through an output."""

    def __init__(self, opening, data, stored=False):
        self.opening, self.lines, self.stored = opening, Lines(data), stored
        self.book = Book(opening.stock, opening.orders, opening.units)
        self.entries, self.released, self.refills, self.batches, self.waves = [], [], [], [], []

    # The journal

    def journal(self):
        self.lines.is_due('journal')
        while self.lines.peek() != 'end journal':
            self.entry(self.lines.next())
        self.lines.next()
        self.test_parts()

    def entry(self, line):
        found = read_entry(line.encode())
        self.lines.test(found is not None, 'no entry: %r' % shortened(line))
        self.lines.test(found.number == len(self.entries),
                        'the number of an entry is %d where %d is due' % (found.number, len(self.entries)))
        for due in self.opening.stored[found.number:found.number + 1]:
            self.lines.test(line == due, 'entry %d is %r where %r was stored' % (found.number, shortened(line), due))
        step = self.book.step(found.command)
        self.lines.test(found.reply == step.reply, 'the reply to %r is %r where %r is right'
                        % (command_text(found.command), found.reply, step.reply))
        if step.reply == 'released':
            name = found.command[1]
            self.released.append(Released(name, found.number, list(self.book.waves[name].orders), step.held))
        self.refills += [(found.number, found.command[1], order, row, units) for row, order, units in step.held
                         if step.reply.startswith('refilled')]
        self.entries.append(found)

    def test_parts(self):
        """Each desk's commands stand in the journal once and in order, and no others, behind those that were stored."""
        scripts = self.opening.scripts
        old, due = len(self.entries) - sum(map(len, scripts.values())), len(self.opening.stored)
        told = ' and the store had' if due else ''
        self.lines.test(old == due or old > 0 and self.stored,
                        'the journal has %d commands more than the desks gave%s' % (old - due, told))
        self.old = old
        for desk in range(1, 9):
            part = [entry.command for entry in self.entries[old:] if entry.desk == desk]
            self.lines.test(part == scripts.get(desk, []),
                            'the commands of desk %d are not those of its script, once and in order' % desk)

    # The sheets

    def sheets(self):
        for wave in self.released:
            if wave.entry >= self.old:
                self.sheet(wave)

    def is_cancelled(self, wave):
        return any(entry.command == ('cancel', wave.name) and entry.reply == 'cancelled'
                   for entry in self.entries[wave.entry:])

    def sheet(self, wave):
        heading = self.lines.next()
        units = '' if self.opening.units is None else ' units %d' % self.opening.units
        form = ('wave %s entry %d orders %d capacity ([1-8])%s cost (0|[1-9][0-9]*) bound (0|[1-9][0-9]*) '
                '(proven|open)%s') % (re.escape(wave.name), wave.entry, len(wave.orders), units,
                                      ' cancelled later' if self.is_cancelled(wave) else '')
        found = re.fullmatch(form, heading)
        self.lines.test(found, 'the heading %r is not of the form %r' % (shortened(heading), form))
        capacity, cost, bound, state = int(found[1]), int(found[2]), int(found[3]), found[4]
        self.lines.test(self.opening.capacity in (None, capacity),
                        'the capacity is %d where %s was asked for' % (capacity, self.opening.capacity))
        batches, lengths = self.batches_of(wave, capacity)
        self.test_numbers(wave, batches, sum(lengths), (cost, bound, state))
        certified, nodes = self.certificate(wave, batches, capacity, bound)
        self.waves.append((wave, capacity, cost, bound, state))
        budget = budget_for(self.opening.budget, self.opening.nodes, len(wave.orders), capacity)
        paid = nodes_for(budget, len(wave.orders), capacity)
        self.test_worked(wave, nodes, (budget, paid), state)
        if self.opening.root:
            duals = sum(nodes[0].get('duals', certified.shares()))
            judge_root(self.lines, wave.name, certified, cost, duals, paid)
        self.test_no_further('root')
        self.lines.is_due('end wave')

    def test_numbers(self, wave, batches, total, numbers):
        cost, bound, state = numbers
        self.lines.test(sorted(order for batch in batches for order in batch) == sorted(wave.orders),
                        'the orders of %s are not each in one batch' % wave.name)
        firsts = [wave.orders.index(batch[0]) for batch in batches]
        self.lines.test(firsts == sorted(firsts), 'the batches of %s are not in the order of their first orders'
                        % wave.name)
        self.lines.test(cost == total, 'the cost of %s is %d where its tours come to %d' % (wave.name, cost, total))
        self.lines.test(bound <= cost, 'the bound of %s is above its cost' % wave.name)
        self.lines.test((state == 'proven') == (bound == cost),
                        '%s is %s with cost %d and bound %d' % (wave.name, state, cost, bound))

    def batches_of(self, wave, capacity):
        batches, lengths = [], []
        while self.lines.peek().startswith('batch '):
            orders, length = self.batch(wave, len(batches) + 1, capacity)
            batches.append(orders)
            lengths.append(length)
            self.batches.append((wave.name, len(batches), length))
        return batches, lengths

    def batch(self, wave, number, capacity):
        line = self.lines.next()
        found = re.fullmatch(r'batch %d length (0|[1-9][0-9]*) orders (\S+(?: \S+)*)' % number, line)
        self.lines.test(found, 'no line of batch %d: %r' % (number, shortened(line)))
        length, orders = int(found[1]), found[2].split(' ')
        places = [wave.orders.index(order) if order in wave.orders else -1 for order in orders]
        self.lines.test(min(places) >= 0 and places == sorted(set(places)),
                        'the orders of batch %d are not orders of %s in its order' % (number, wave.name))
        self.lines.test(len(orders) <= capacity, 'batch %d has more orders than the capacity' % number)
        held = [each for each in wave.held if each[1] in orders]
        units = self.opening.units
        self.lines.test(units is None or sum(each[2] for each in held) <= units,
                        'batch %d has more units than the cart' % number)
        self.tour(length, {self.point(row) for row, _, _ in held})
        for row, order, quantity in held:
            place = self.book.rows[row]
            self.lines.is_due('pick %s %s %d %s' % (place.location, place.article, quantity, order))
        if self.opening.rules:
            judge_rules(self.lines, self.opening.layout, tours.gathered({self.point(row) for row, _, _ in held}),
                        length)
        self.test_no_further('rules')
        return orders, length

    def test_no_further(self, word):
        """No line that begins with this word comes next."""
        self.lines.test(not self.lines.peek().startswith(word + ' '), 'a line `%s ..` follows that is not due' % word)

    def point(self, row):
        location = self.book.rows[row].location
        return location.aisle, location.slot

    def tour(self, length, points):
        line, layout = self.lines.next(), self.opening.layout
        self.lines.test(re.fullmatch(r'tour(?: [1-9][0-9]*-(?:0|[1-9][0-9]*))+', line), 'no tour: %r' % shortened(line))
        walk = [tuple(map(int, each.split('-'))) for each in line.split(' ')[1:]]
        self.lines.test(walk[0] == walk[-1] == layout.depot_point(), 'the tour does not begin and end at the depot')
        walked = tours.walked(layout, walk)
        self.lines.test(walked is not None, 'two neighbours in the tour are no move')
        self.lines.test(walked == length, 'the tour is %s long where %d is printed' % (walked, length))
        self.lines.test(points <= set(walk), 'the tour leaves out a pick')
        least = tours.shortest(layout, tours.gathered(points))
        self.lines.test(least == length, 'the tour is %d long where the shortest is %d' % (length, least))
        if len(points) <= SMALL:
            tried = tours.shortest_of_all(layout, points)
            self.lines.test(tried == length, 'the tour is %d long where the shortest of all orders of its slots is %d'
                            % (length, tried))

    # The certificate

    def certificate(self, wave, batches, capacity, bound):
        """The wave of a sheet's certificate, and the nodes of its tree."""
        line = self.lines.next()
        self.lines.test(line.startswith('certificate '), 'no certificate: %r' % shortened(line))
        text = line[len('certificate '):].encode()
        self.lines.test(not COMPACT.search(text) and self.is_compact(text),
                        'the certificate is not written compactly, with its keys in order')
        try:
            found = read_certificate(text, self.opening.layout)
            shown = bound_of(self.opening.layout, found)
        except Refusal as why:
            self.lines.fail(why.line)
        slots = [tours.gathered({self.point(row) for row, each, _ in wave.held if each == order})
                 for order in wave.orders]
        loads = [sum(units for _, each, units in wave.held if each == order) for order in wave.orders]
        self.lines.test(found.orders == slots, 'the certificate is of other slots than %s has' % wave.name)
        self.lines.test(found.capacity == capacity, 'the certificate is of another capacity')
        self.lines.test((found.units, found.loads) == ((None, None) if self.opening.units is None
                                                       else (self.opening.units, loads)),
                        'the certificate is of another cart')
        self.lines.test(shown == bound, 'the certificate shows the bound %s where %d is printed' % (shown, bound))
        certified = CertifiedWave(self.opening.layout, found)
        self.test_joins(wave, batches, certified)
        return certified, found.nodes

    def test_worked(self, wave, nodes, effort, state):
        """As many nodes have duals of their own as the budget pays for, or the plan is proven before."""
        budget, paid = effort
        own = sum('duals' in node for node in nodes)
        told = '%d nodes of %s have duals of their own where the budget of %d pays for %d'
        right = paid is None or own <= paid and (own == paid or state == 'proven')
        self.lines.test(right, told % (own, wave.name, budget or 0, paid or 0))

    def is_compact(self, text):
        """Whether a text is JSON as it is printed: nothing between its parts, keys in order, slots of each order in
        order and once."""
        try:
            value = json_text.read(text)
        except json_text.NotJson:
            return False
        orders = value.get('orders') if isinstance(value, dict) else None
        if isinstance(orders, list) and not all(map(is_gathered, orders)):
            return False
        return json_text.compact(value) == text

    def test_joins(self, wave, batches, certified):
        """No two batches whose orders fit into one cost more than that one."""
        places = [tuple(wave.orders.index(order) for order in batch) for batch in batches]
        for number, left in enumerate(places):
            for right in places[number + 1:]:
                both = tuple(sorted(left + right))
                if certified.fits(both) and certified.length(both) < certified.length(left) + certified.length(right):
                    self.lines.fail('two batches of %s cost more than the one of their orders %s' % (wave.name, both))

    # What follows the sheets

    def refill_lines(self):
        self.lines.is_due('refills')
        for number, wave, order, row, units in self.refills:
            if number >= self.old:
                self.lines.is_due('refill %d %s %s %s %d' % (number, wave, order, self.book.rows[row].location, units))
        self.lines.is_due('end refills')

    def stock_lines(self):
        self.lines.is_due('stock')
        for row in self.book.rows:
            self.lines.is_due('%s %s %d %d %d' % (row.location, row.article, row.on_hand, row.free,
                                                  row.on_hand - row.free))
        self.lines.is_due('end stock')

    def all(self):
        self.journal()
        self.sheets()
        self.refill_lines()
        if self.opening.pickers:
            judge_crew(self.lines, self.batches, self.opening.pickers)
        self.test_no_further('crew')
        self.stock_lines()
        self.lines.is_due('end')
        self.lines.end()


def judge(opening, data, stored=False):
    """Judges an output. Gives what was seen of it, or fails with the first fault. With `stored` it may begin with
    entries that nobody tells."""
    found = Judge(opening, data, stored)
    found.all()
    return found
