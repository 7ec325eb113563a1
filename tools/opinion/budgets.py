"""What a budget buys, as docs/BATCHES.md tells it."""

from math import comb

from .words import MOST_BUDGET


def price(orders, capacity):
    """What the duals of a node's own cost."""
    return (4 * orders + 4) * sum(comb(orders, some) for some in range(capacity + 1))


def budget_for(budget, nodes, orders, capacity):
    """What may be spent on a wave: so many nodes at its own price, where they are told in the place of a budget, but no
    more than the greatest budget. None where neither is told."""
    return budget if nodes is None else min(nodes * price(orders, capacity), MOST_BUDGET)


def nodes_for(budget, orders, capacity):
    """For how many nodes a budget pays, and so for how many rounds of a bracket: None where the budget isn't told."""
    return None if budget is None else budget // price(orders, capacity)
