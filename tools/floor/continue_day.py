"""Writes the commands of a day as the desk file of one desk, which replays to the same answers.

usage: tools/wave continue DAY [--desk N] > desks.csv

DAY is the output of `waveplan plan`, or - for standard input. The file has every command of its journal in the
journal's order, of desk 1, or of desk N. A plan with this file, with the stock and the orders of that day and with its
--units, gives each command the same reply; commands that are written behind them go on from there. docs/DAY.md says
how. Nothing here is proved; the output that it reads is.

A day that is planned with --store 1 goes on by itself: the next desk file has the new commands alone, and this script
isn't needed for it. Of such a day it writes the commands of all runs: a plan with them and without the store, over the
files of the first run, prints all sheets and refills again.

Status: 0, or 2 where DAY is no output of a plan, with the reason on standard error.
"""

from endings import RIGHT, Words, tell_usage

from .output import read_output


def main(words):
    known = Words('continue')
    known.add_argument('--desk', type=int, choices=range(1, 9), default=1)
    known.add_argument('day', nargs='?')
    asked = known.read(words)
    if asked.help or not asked.day:
        return tell_usage(__doc__, asked)
    print('desk,command,arguments')
    for entry in read_output(asked.day).entries:
        print(','.join([str(asked.desk), *entry.command]))
    return RIGHT
