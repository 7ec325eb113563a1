"""The instances of a benchmark, the ways in which each is planned, and the rows that come of the runs."""

import itertools
import os
import shlex
from collections import Counter

from endings import Trouble, Unwritten

from . import instance_classes, planning, whole_files
from .benchmark_rows import Group, Row, Way
from .instance_days import cart_words, files_of
from .instances import test_cart
from .measures import result_of
from .plain_instances import read_instance, text_of


def seeds_of(asked):
    """The seeds, one after the other."""
    seeds, most = range(asked.seed, asked.seed + asked.seeds), instance_classes.SEEDS[1]
    if seeds[-1] > most:
        raise Trouble('the seeds go from %d to %d, and none is above %d' % (seeds[0], seeds[-1], most))
    return seeds


def demands_of(asked, kind):
    """How articles are asked for in the instances of a class."""
    for demand in asked.demand or ():
        if demand not in kind.demands:
            raise Trouble('class %s has no demand %s, but %s' % (kind.name, demand, ' and '.join(kind.demands)))
    return asked.demand or kind.demands


def drawn_groups(asked, kind):
    """The groups of instances of a class, each with an instance of each seed."""
    sizes = itertools.product(demands_of(asked, kind), asked.orders or kind.orders, asked.units or kind.units)
    for demand, count, units in sizes:
        for capacity in asked.capacity or instance_classes.capacities_of(kind, units):
            title = kind.name + (' ' + demand if len(kind.demands) > 1 else '')
            made = [instance_classes.drawn(kind, demand, count, (capacity, units), seed) for seed in seeds_of(asked)]
            yield Group(title, count, capacity, units, made)


def read_groups(asked, path):
    """The groups of the instance of a plain file: one for each cart."""
    found = read_instance(path)
    for capacity, units in itertools.product(asked.capacity or [found.capacity], asked.units or [found.units]):
        instance = found._replace(capacity=capacity, units=units)
        test_cart(instance)
        yield Group(found.name, len(found.orders), capacity, units, [instance])


def groups_of(asked):
    """All instances that words ask for, those that make one row together."""
    kinds = [instance_classes.CLASSES[name] for name in asked.classes]
    return [*(group for kind in kinds for group in drawn_groups(asked, kind)),
            *(group for path in asked.read for group in read_groups(asked, path))]


def ways_of(asked):
    """Each way to plan an instance."""
    efforts = [*((budget, None) for budget in asked.budget), *((None, nodes) for nodes in asked.nodes)]
    sharp = [False, True] if asked.sharp else [False]
    return [Way(budget, each, nodes) for (budget, nodes), each in itertools.product(efforts, sharp)]


def run_of(files, instance, way):
    """The run of an instance in one way."""
    sharp = ['--sharp', '1'] if way.sharp else []
    effort = ['--budget', str(way.budget)] if way.nodes is None else ['--nodes', str(way.nodes)]
    return planning.Run(['plan', *cart_words(instance), *effort, *sharp], files)


def bytes_of(instance):
    """The files of an instance by the names of their options."""
    return {name.partition('.')[0]: text.encode() for name, text in files_of(instance).items()}


def rows_of(groups, ways, planner):
    """Runs each instance in each way, and gives the rows."""
    keys, made = [], []
    for group in groups:
        files = [bytes_of(instance) for instance in group.instances]
        for way in ways:
            keys.append((group, way))
            made += [run_of(*each, way) for each in zip(files, group.instances)]
    ends = iter(planner.plan_all(made, result_of))
    return [Row(group, way, [next(ends) for _ in group.instances]) for group, way in keys]


def write_instance(folder, instance):
    """Writes an instance as a plain file and as a folder with the files of this program, and gives the command that
    plans it."""
    at, texts = os.path.join(folder, instance.name), files_of(instance)
    try:
        os.makedirs(at, exist_ok=True)
    except (OSError, ValueError) as why:
        raise Unwritten('%s cannot be written: %s' % (at, getattr(why, 'strerror', None) or why)) from None
    whole_files.write(at + '.txt', text_of(instance))
    for name, text in texts.items():
        whole_files.write(os.path.join(at, name), text)
    options = [word for name in texts for word in ('--' + name.partition('.')[0], os.path.join(at, name))]
    return shlex.join(['./waveplan', 'plan', *options, *cart_words(instance)])


def write_all(folder, groups):
    """Writes all instances, and gives the commands that plan them. Fails where two of them have one name."""
    if not folder:
        raise Trouble('--write names a folder, and not nothing')
    found = [instance for group in groups for instance in group.instances]
    for name, count in Counter(instance.name for instance in found).items():
        if count > 1:
            raise Trouble('%d instances are called %s: write them into folders of their own' % (count, name))
    return [write_instance(folder, instance) for instance in found]
