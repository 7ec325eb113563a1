"""The day that a subcommand plans again: its words stand behind those of the subcommand, as they are given to the
program."""

import os
from collections import namedtuple

from endings import Trouble, shortened
from opinion.refusals import Refusal
from opinion.words import GIVEN, INSTEAD, NUMBERS, read_words

from .planning import Run
from .trouble import read_bytes


class Day(namedtuple('Day', 'files numbers')):
    """A day to plan: the bytes of its files by their options, and the numbers of its plan."""

    def run(self):
        """The run that plans it. A number that the program takes by itself isn't told, so that one day is one run."""
        told = [name for name in NUMBERS['plan'] if self.numbers[name] != GIVEN.get(name)]
        return Run(['plan', *(word for name in told for word in ('--' + name, str(self.numbers[name])))], self.files)

    def with_numbers(self, **numbers):
        """The same day with other numbers. A budget stands in the place of nodes, and nodes in that of a budget."""
        unless = {name: None for name, other in INSTEAD.items() if other in numbers}
        unless.update({other: GIVEN[other] for name, other in INSTEAD.items() if numbers.get(name) is not None})
        return self._replace(numbers={**self.numbers, **unless, **numbers})

    def with_files(self, **files):
        return self._replace(files={**self.files, **files})


def parted(words):
    """The words of a subcommand, and behind them those of a plan, from the word `plan` on: none where it isn't there.
    """
    place = words.index('plan') if 'plan' in words else len(words)
    return words[:place], words[place:]


def add_launcher(known):
    """Takes the launcher before the words of a plan, as it stands in the command that is copied."""
    known.add_argument('launcher', nargs='?')


def test_launcher(asked):
    """Fails where another word stands before those of a plan."""
    if asked.launcher is not None and os.path.basename(asked.launcher) != 'waveplan':
        raise Trouble('%s is no option; --help says which words there are' % shortened(asked.launcher))


def read_day(words):
    """The day that the words of a plan say."""
    if not words:
        raise Trouble('the day is missing: behind the options comes `plan` with the words of its plan; --help says how')
    try:
        job = read_words(words)
    except Refusal as why:
        raise Trouble('the words of the plan are not right: %s' % _cause(why)) from None
    if job.numbers['store']:
        raise Trouble('a day with a store is planned from its beginning: `tools/wave continue` writes its commands, '
                      'and --store is left out')
    return Day({name: read_bytes(path) for name, path in job.files.items()}, job.numbers)


def _cause(why):
    """What is wrong with the words of a plan."""
    if why.field in INSTEAD and why.text == INSTEAD[why.field]:
        return '--%s stands in the place of --%s: give one of them' % (why.field, why.text)
    if why.field in NUMBERS['plan'] and why.text is not None:
        return number_fault(why.field, why.text)
    if why.field:
        return '--%s is left out, stands twice or has no value' % why.field
    return '%s is no option of a plan' % shortened(str(why.text))


def number_fault(name, text):
    """What is wrong with a number that is out of its range."""
    return '--%s is a whole number from %d to %d, not %s' % (name, *NUMBERS['plan'][name], shortened(str(text)))
