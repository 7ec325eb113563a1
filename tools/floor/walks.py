"""What a plan of a day comes to: how far its carts walk, by their tours and by usual rules, and what is known of it."""

from collections import namedtuple

from endings import Trouble

from . import output
from .pages import walked

Walk = namedtuple('Walk', 'length longest')  # the longest load of a picker is None where there are none
# The walks by their rules, of which `tour` stands for the shortest tours, what is picked, and what else is told.
Figures = namedtuple('Figures', 'walks lines units carts proven waves bound seconds refused')


def day_of(ended):
    """The day of a run that is done."""
    return output.day_of(ended.output.encode(), 'what the program printed')


def planned(planner, day):
    """The output of a day. Fails where it is refused."""
    ended, = planner.plan_all([day.run()])
    if ended.why():
        raise Trouble('the day itself is refused: %s; `tools/wave explain` with the words of its plan says more'
                      % ended.why())
    return day_of(ended)


def figures_of(ended):
    """What a run comes to that is done. Waves that were cancelled later don't count."""
    day = day_of(ended)
    waves = walked(day)
    carts = [batch for wave in waves for batch in wave.batches]
    rules = {rule.name for batch in carts for rule in batch.rules}
    return Figures({'tour': walk_of(day, None), **{name: walk_of(day, name) for name in sorted(rules)}},
                   sum(len(batch.picks) for batch in carts),
                   sum(pick.quantity for batch in carts for pick in batch.picks), len(carts),
                   sum(wave.state == 'proven' for wave in waves), len(waves), sum(wave.bound for wave in waves),
                   ended.seconds, [refusal_of(entry) for entry in day.refused()])


def refusal_of(entry):
    """A refused command in short: its word and what it is about, and why."""
    return '%s %s: %s' % (entry.command[0], entry.command[1], ' '.join(entry.reply[1:]))


def long_by(batch, name):
    """How long a batch's walk is by a rule, or that of its tour."""
    return next((rule.length for rule in batch.rules if rule.name == name), batch.length)


def walk_of(day, name):
    """The walk of a day by a rule, or by its tours. The carts stay with the pickers to whom they are dealt."""
    long = {output.name_of(wave, batch): long_by(batch, name) for wave in day.waves for batch in wave.batches}
    length = sum(long_by(batch, name) for wave in walked(day) for batch in wave.batches)
    loads = [sum(long[cart] for cart in each.batches) for each in day.crew.pickers] if day.crew else []
    return Walk(length, max(loads) if loads else None)
