"""Writes the stock at the end of a day as a stock file for the next one.

usage: tools/wave closing-stock DAY --on-hand > stock.csv
       tools/wave closing-stock DAY --free > stock.csv

DAY is the output of `waveplan plan`, or - for standard input. With --on-hand each row has what lies there: units that
waves still held are free again in the next day. With --free each row has what nobody held: held units count as picked.
docs/DAY.md says which of the two is meant when. Nothing here is proved; the output that it reads is.

Status: 0, or 2 where DAY is no output of a plan, with the reason on standard error.
"""

from endings import RIGHT, Words, tell_usage

from .output import read_output


def main(words):
    known = Words('closing-stock')
    which = known.add_mutually_exclusive_group()
    which.add_argument('--on-hand', action='store_true')
    which.add_argument('--free', action='store_true')
    known.add_argument('day', nargs='?')
    asked = known.read(words)
    if asked.help or not asked.day or not (asked.on_hand or asked.free):
        return tell_usage(__doc__, asked)
    print('location,article,on_hand')
    for row in read_output(asked.day).rows:
        print('%s,%s,%d' % (row.location, row.article, row.on_hand if asked.on_hand else row.free))
    return RIGHT
