"""What runs over instances came to: of each its cost, bound, gap, nodes and seconds, and of some together their mean
and spread."""

import statistics
from collections import namedtuple

from . import output
from .to_json import certificate_of

# What a run over an instance came to, all its waves together.
Result = namedtuple('Result', 'cost bound proven nodes seconds')
# The least, the mean and the greatest of some numbers, and their standard deviation, None of one number alone.
Spread = namedtuple('Spread', 'least mean greatest deviation')

MEASURES = {
    'cost': lambda result: result.cost, 'bound': lambda result: result.bound,
    'gap': lambda result: gap(result), 'nodes': lambda result: result.nodes,
    'seconds': lambda result: result.seconds,
}


def gap(result):
    """How far the bound is below the cost, in percent of the cost."""
    return 100 * (result.cost - result.bound) / result.cost if result.cost else 0.0


def nodes_of(wave):
    """How many nodes of a wave's certificate have duals of their own."""
    return sum('duals' in node for node in (certificate_of(wave) or {'nodes': []})['nodes'])


def result_of(ended):
    """What a run that has ended came to, or the line that says why it came to nothing."""
    why = ended.why()
    if why:
        return why
    day = output.day_of(ended.output.encode(), 'what the program printed')
    refused = [' '.join([*entry.command[:2], '->', *entry.reply]) for entry in day.refused()]
    if refused or not day.waves:
        return refused[0] if refused else 'no wave went out'
    cost, bound = (sum(getattr(wave, name) for wave in day.waves) for name in ('cost', 'bound'))
    return Result(cost, bound, all(wave.state == 'proven' for wave in day.waves), sum(map(nodes_of, day.waves)),
                  ended.seconds)


def spread(values):
    """The spread of some numbers, of which there is one at least."""
    deviation = statistics.stdev(values) if len(values) > 1 else None
    return Spread(min(values), statistics.mean(values), max(values), deviation)


def spread_of(results, name):
    """The spread of a measure over some results."""
    return spread([MEASURES[name](result) for result in results])
