"""The search for exchanges that shorten the walk of a day: each is judged by planning the day again."""

from collections import namedtuple

from endings import Trouble

from .candidates import Candidates, Carts
from .exchanges import applied, rows_of
from .pages import walked
from .planning import Progress
from .walks import day_of, planned

EACH_ROUND = 12  # so many are judged before the best of them is made

Walked = namedtuple('Walked', 'length units')


def walked_of(ended):
    """How far a planned day walks and how many units it picks, or why it is refused."""
    return ended.why() or length_of(day_of(ended))


def length_after(found, before):
    """How far a day walks after some exchanges, None where it is refused or picks other units than before."""
    return found.length if isinstance(found, Walked) and found.units == before.units else None


def length_of(day):
    waves = walked(day)
    units = sum(pick.quantity for wave in waves for batch in wave.batches for pick in batch.picks)
    return Walked(sum(wave.cost for wave in waves), units)


class Search:
    """The day with the article at each location, the moves that are made so far, each of one exchange or two, and what
    was judged. `first` is how far the day walks before these moves, and `now` after them."""

    def __init__(self, planner, day, layout, tries):
        self.planner, self.day, self.layout = planner, day, layout
        self.rows = rows_of(day, layout, 'the day itself')
        if len(self.rows) < 2:
            raise Trouble('the stock has fewer than two rows, and an exchange takes two')
        self.left, self.moves, self.tried, self.progress = tries, [], {}, Progress(tries)
        self.today = self.plan()
        self.now = self.first = length_of(self.today)
        if not self.first.length:
            raise Trouble('no wave of the day walks, so no exchange saves anything')

    def exchanges(self):
        """All exchanges that are made so far."""
        return [each for move in self.moves for each in move]

    def plan(self):
        """The day as it is planned after the exchanges so far."""
        return planned(self.planner, applied(self.day, self.exchanges()))

    def judge(self, moves):
        """What each of some moves saves after those so far, 0 where other units are picked then."""
        runs = [applied(self.day, [*self.exchanges(), *move]).run() for move in moves]
        self.left -= len(runs)
        found = self.planner.plan_all(runs, walked_of, self.progress)
        for move, each in zip(moves, found):
            after = length_after(each, self.now)
            self.tried[move] = 0 if after is None else self.now.length - after

    def worth(self, found):
        """The moves of a ranking that are to be judged: of those that were judged before the ones that saved then."""
        known = [(move, self.tried.get(move, saves)) for move, saves in found]
        return [move for move, saves in sorted(known, key=lambda it: -it[1]) if self.tried.get(move, 1) > 0]

    def step(self, kind):
        """Judges the best moves of a kind, and makes the one that saves most. Gives whether there is one."""
        carts = Carts(self.layout, self.plan())
        taken = {location for each in self.exchanges() for location in each}
        rows = {location: article for location, article in self.rows.items() if location not in taken}
        moves = self.worth(getattr(Candidates(carts, rows), kind)())[:min(EACH_ROUND, self.left)]
        self.judge(moves)
        best = max(moves, key=self.tried.get, default=None)
        if best is None or self.tried[best] <= 0:
            return False
        self.moves.append(best)
        self.now = self.now._replace(length=self.now.length - self.tried[best])
        return True

    def run(self):
        """Makes the exchanges that save most, one after the other, and then such pairs, until none is found or no try
        is left."""
        kinds = ['singles', 'pairs']
        while self.left and kinds:
            kinds = kinds if self.step(kinds[0]) else kinds[1:]
