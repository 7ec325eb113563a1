"""The days of a report: read one after the other, held to one layout, and put together where several outputs are of one
day."""

import hashlib
import os
import sys
from collections import Counter
from pathlib import Path

from .names import restored
from .output import day_of, join_earlier
from .same_layout import Given, Told
from .trouble import read_bytes


class Day:
    """A day of a report: its name, what a plan printed of it, its digest, and the crews of its runs by their names."""

    def __init__(self, name, output, digest):
        self.name, self.output, self.digest = name, output, digest
        self.crews = [(name, output.crew)] if output.crew else []

    def goes_on_from(self, other):
        """Whether the journal of another day is the beginning of this one's."""
        theirs, ours = other.output.entries, self.output.entries
        return bool(theirs) and theirs == ours[:len(theirs)]


def names_of(paths):
    """The names of days: those of their files without their ending, and the whole path where two are the same."""
    shown = [''.join(sign if sign.isprintable() else '?' for sign in os.fsencode(path).decode('utf-8', 'replace'))
             for path in paths]
    names = ['standard input' if path == '-' else Path(path).stem or path for path in shown]
    count = Counter(names)
    return [name if count[name] == 1 else path for name, path in zip(names, shown)]


def read_days(paths, layout, names):
    """The days of some outputs. Fails where one is none, or where two are of different layouts."""
    tester, found = Given(layout) if layout else Told(), []
    for place, (path, name) in enumerate(zip(paths, names_of(paths))):
        tell_progress(place, len(paths))
        data = read_bytes(path)
        day = day_of(data, path)
        tester.test(name, day)
        found.append(Day(name, restored(without_tours(day), names), hashlib.sha256(data).digest()))
    tell_progress(len(paths), len(paths))
    return found


def without_tours(day):
    """A day without what takes most of the memory, and is needed no more."""
    for wave in day.waves:
        wave.certificate = None
        for batch in wave.batches:
            batch.tour = []
    return day


def tell_progress(done, count):
    """Tells on a terminal how many of the days are read, and takes that away where all are."""
    if count == 1 or os.environ.get('WAVEPLAN_QUIET') or sys.stderr is None or not sys.stderr.isatty():
        return
    line = '%d of %d days' % (done, count)
    try:
        sys.stderr.write((line if done < count else ' ' * len(line)) + '\r')
        sys.stderr.flush()
    except (OSError, ValueError):
        pass


def put_together(days):
    """The days without outputs that are of a day that is there, and a note of each of these."""
    days, notes = without_copies(days)
    later = {day: max((each for each in days if is_later(each, day)), key=place_of, default=None) for day in days}
    for day in sorted(days, key=place_of, reverse=True):
        last = later[day]
        while last and later[last]:
            last = later[last]
        if last:
            notes.append(join(last, day))
    found = [day for day in days if not later[day]]
    return found, notes + same_journals(found)


def without_copies(days):
    """The days each once, and a note of each further copy."""
    first, notes = {}, []
    for day in days:
        known = first.setdefault(day.digest, day)
        if known is not day:
            notes.append('%s is the same output as %s: it counts once.' % (day.name, known.name))
    return list(first.values()), notes


def place_of(day):
    """What is greater of a later output of a day: it has more entries, or prints none of the sheets of before."""
    return len(day.output.entries), len(day.output.earlier())


def is_later(day, other):
    """Whether an output is a later one of the day of another: its journal goes on, or it lacks the other's sheets."""
    if day is other or not day.goes_on_from(other) or place_of(day) <= place_of(other):
        return False
    earlier = day.output.earlier()
    goes_on = len(day.output.entries) > len(other.output.entries)
    return goes_on or all(wave.name in earlier for wave in other.output.waves)


def join(later, day):
    """Gives a day the sheets of an earlier output that it lacks, and a note of that."""
    cancelled = later.output.earlier()
    day.output.waves = [wave for wave in day.output.waves if wave.name in cancelled]
    if not day.output.waves:
        return '%s is an earlier output of the day of %s: that one counts.' % (day.name, later.name)
    join_earlier(later.output, day.output, cancelled)
    later.crews = day.crews + later.crews
    return '%s goes on from %s: both are one day.' % (later.name, day.name)


def same_journals(days):
    """A note of each day whose journal an earlier one has too."""
    notes = []
    for place, day in enumerate(days):
        same = next((each for each in days[:place] if each.goes_on_from(day) and day.goes_on_from(each)), None)
        if same:
            notes.append('%s has the journal of %s and other sheets: both count in the sum.' % (day.name, same.name))
    return notes
