"""The one entry of the scripts for planners.

usage: tools/wave SUBCOMMAND ..
       tools/wave SUBCOMMAND --help

Options may stand before and after the files. The names of the subcommands are commands too: `tools/sheets` is
`tools/wave sheets`.

"""

import importlib
import sys
from pathlib import Path

import endings

SUBCOMMANDS = {'import': 'import_table', 'split': 'split', 'waves': 'sent_waves', 'explain': 'explain',
               'sheets': 'sheets', 'continue': 'continue_day', 'confirm': 'confirm',
               'closing-stock': 'closing_stock', 'to-csv': 'to_csv', 'to-json': 'to_json', 'from-json': 'from_json',
               'compare': 'compare', 'report': 'report', 'what-if': 'what_if', 'slotting': 'slotting',
               'benchmark': 'benchmark', 'second-opinion': 'second_opinion'}


def module_of(name):
    """The module of a subcommand. Its text of help has the name by which it was called."""
    found = importlib.import_module('floor.' + SUBCOMMANDS[name])
    names = ['tools/%s ' % name, 'tools/wave %s ' % name]
    if Path(sys.argv[0]).name == 'wave':
        names.reverse()
    found.__doc__ = found.__doc__.replace(names[1], names[0])
    return found


def help_text():
    """What the entry says of itself, with a line of each subcommand."""
    told = (module_of(name).__doc__.split('\n\n')[0] for name in SUBCOMMANDS)
    return __doc__ + ''.join('  %-15s %s\n' % (name, ' '.join(text.split())) for name, text in zip(SUBCOMMANDS, told))


def subcommand_of(words):
    """What words ask for that name no subcommand."""
    known = endings.Words('wave')
    known.add_argument('subcommand', nargs='?', choices=[*SUBCOMMANDS])
    return known.read(words)


def tell_subcommands(words):
    """Tells which subcommands there are, where the words name none."""
    return endings.tell_usage(help_text(), subcommand_of(words))


def main(words):
    """Runs the subcommand that the words name, with the words behind it."""
    if words and words[0] in SUBCOMMANDS:
        run(words[0], words[1:])
    endings.run(lambda: tell_subcommands(words[:1]), 'wave')


def run(name, words):
    """Runs a subcommand, and ends the process with its status."""
    endings.run(lambda: module_of(name).main(words), name)
