"""All figures of a report, a line for each day, their sum and their mean, and what stands behind them; and these as
other programs read them."""

from fractions import Fraction

from . import day_figures
from .day_figures import RULES
from .wave_times import hours_of

FORMAT = 'waveplan report 1'
NAMED = 10  # so many days are named in a note

# The columns of the tables that other programs read, in their order.
OF_DAYS = ('waves', 'waves_cancelled', 'waves_not_given', 'waves_proven', 'proven_percent', 'gap_percent', 'orders',
           'carts', 'orders_percent', 'units_percent', 'lines', 'units', 'walk', 'walk_a_line', 'metres',
           'metres_a_line', *(key + end for key in RULES.values() for end in ('', '_percent')), 'refused', 'short',
           'refilled', 'lost', 'pickers', 'longest_load', 'shortest_load', 'least_load')
OF_TABLES = {
    'days': ('row', 'day', *OF_DAYS), 'refused': ('day', 'reason', 'article', 'commands', 'first_cause'),
    'short': ('day', 'wave', 'article', 'wanted', 'free', 'lacking', 'became'),
    'missing': ('day', 'location', 'article', 'times', 'refilled', 'lost'),
    'loads': ('day', 'run', 'picker', 'load', 'walked', 'carts'),
    'hours': ('day', 'hour', 'waves', 'carts', 'lines', 'walk'),
}


class Report:
    """All that a report tells: the lines of the days, their sum and mean, the tables behind them, and notes. `counts`
    is what all days come to, and `crews` has those of all runs."""

    def __init__(self, days, per_metre, notes):
        counts = [day_figures.counts_of(day.output) for day in days]
        self.per_metre, self.counts = per_metre, day_figures.added(counts)
        self.crews = [(day, run, crew) for day in days for run, crew in day.crews]
        lines = [{**day_figures.figures_of(each, per_metre),
                  **day_figures.figures_of_crews([crew for _, crew in day.crews])} for day, each in zip(days, counts)]
        self.days = [{'day': day.name, **line} for day, line in zip(days, lines)]
        self.sum, self.mean = day_figures.figures_of(self.counts, per_metre), day_figures.mean_of(lines)
        self.behind = {'refused': rows_of(days, day_figures.refused_of),
                       'short': rows_of(days, day_figures.short_rows_of),
                       'missing': rows_of(days, day_figures.missing_of), 'loads': self.loads(),
                       'hours': hour_rows(days)}
        self.notes = [*notes, *notes_of(days, counts)]
        if not self.behind['hours']:
            self.notes.append('No wave has a time in its name: the walk by hour is missing.')

    def loads(self):
        """The load of each picker of each run."""
        return [{'day': day.name, 'run': run, **row} for day, run, crew in self.crews
                for row in day_figures.loads_of(day.output, crew)]


def rows_of(days, told):
    """The rows that are told of each day, with its name."""
    return [{'day': day.name, **row} for day in days for row in told(day.output)]


def hour_rows(days):
    """What went out by hour, nothing where no wave has a time in its name."""
    hours = hours_of(sorted({wave.name for day in days for wave in day_figures.walked(day.output)}))
    return rows_of(days, lambda day: day_figures.hours_of_waves(day, hours)) if hours else []


def notes_of(days, counts):
    """What is to be known of the figures of single days."""
    for told, is_so in (
            ('no wave went out that was not cancelled later',
             lambda each: not each['waves'] and not each['waves_not_given']),
            ('waves went out in earlier runs over its store whose outputs are not given, so their carts do not count',
             lambda each: each['waves_not_given']),
            ('carts were printed without --rules 1, so what usual rules walk past their picks is missing',
             lacks_rules)):
        found = [day.name for day, each in zip(days, counts) if is_so(each)]
        if found:
            yield '%s: %s.' % (listed(found), told)


def listed(names):
    """Names one after the other, the first of them where they are many."""
    more = len(names) - NAMED
    return ', '.join(names[:NAMED]) + (' and %d more' % more if more > 0 else '')


def lacks_rules(counts):
    """Whether a day has carts of which no rules are told."""
    return any(counts[key + '_tours'] != counts['walk'] for key in RULES.values())


def plain_value(value):
    """A value as other programs read it: what is no whole number with two decimals."""
    return float(round(value, 2)) if isinstance(value, Fraction) else value


def object_of(report):
    """The report as an object of JSON. What can't be told is left out."""
    def told(row):
        return {key: plain_value(value) for key, value in row.items() if value not in (None, '')}
    head = {'format': FORMAT}
    if report.per_metre:
        head['per_metre'] = float(report.per_metre)
    lines = [{'day': row['day'], **told({key: row[key] for key in OF_DAYS})} for row in report.days]
    return {**head, 'days': lines, 'sum': told(in_order(report.sum)), 'mean': told(in_order(report.mean)),
            **{name: [told(row) for row in rows] for name, rows in report.behind.items()}, 'notes': report.notes}


def in_order(row):
    return {key: row.get(key) for key in OF_DAYS}


def records_of(report):
    """The tables of a report by their names, each a list of records with a heading. What can't be told is empty."""
    lines = [{'row': 'day', **row} for row in report.days]
    lines += [{'row': name, 'day': '', **row} for name, row in (('sum', report.sum), ('mean', report.mean))]
    tables = {'days': lines, **report.behind}
    return {name: [columns, *([cell_of(row.get(column)) for column in columns] for row in tables[name])]
            for name, columns in OF_TABLES.items()}


def cell_of(value):
    return '' if value is None else plain_value(value)
