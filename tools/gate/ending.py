"""How the scripts of the gate end: by the table of statuses that all scripts have, with one line and no traceback."""
import os
import sys

sys.path.append(os.path.dirname(os.path.dirname(os.path.realpath(__file__))))
import endings
import kit


def status_of(main, words, usage):
    """The status that a script gives for its words; --help tells how it is used. Why nothing can be judged is a trouble,
    but what `rt ci` has told before it within a gate is left out."""
    if '--help' in words:
        print(usage, end='')
        return endings.RIGHT
    try:
        return main(words)
    except kit.Missing as why:
        if isinstance(why, kit.NotProved) and os.environ.get(kit.SHARED):
            return left_out(why)
        raise endings.Trouble(str(why)) from None


def left_out(why):
    print(f'left out: {why}\n0 passed, 0 failed')
    return endings.RIGHT


def run(main, name, usage):
    """Runs a script, and ends the process with its status."""
    endings.run(lambda: status_of(main, sys.argv[1:], usage), name)
