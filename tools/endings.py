"""How scripts end: their statuses, and one line on standard error in place of a traceback."""

import argparse
import errno
import os
import subprocess
import sys

RIGHT = 0  # done; where something was asked, it is so
WRONG = 1  # done; something is wrong, differs or can't be read as it stands, and the output says what
REFUSED = 2  # the words aren't right, or a file can't be read or is of another form
UNWRITTEN = 4  # the output can't be written
NO_MEMORY = 5  # memory ran out
FAULTY = 70  # the script is at fault
INTERRUPTED = 130  # somebody interrupted it

SHOWN = 200  # so many signs of a text are shown
BROKEN = (errno.EPIPE, errno.ECONNRESET)


class Trouble(Exception):
    """Why a script can't go on, in a sentence that says what to do."""


class Unwritten(Exception):
    """Why an output can't be written."""


class Words(argparse.ArgumentParser):
    """The words of a script. Options may stand before and after files; where the words aren't right, one line says so.
    """

    def __init__(self, name):
        super().__init__(name, add_help=False)
        self.add_argument('--help', action='store_true')

    def read(self, words):
        return self.parse_intermixed_args(words)

    def error(self, message):
        raise Trouble('%s; --help says which words there are' % shortened(message))


def tell_usage(text, asked):
    """Tells how a script is used: on standard output where that was asked for. Gives the status."""
    print(text, end='', file=sys.stdout if asked.help else sys.stderr)
    return RIGHT if asked.help else REFUSED


def shortened(text):
    return text if len(text) <= SHOWN else text[:SHOWN] + '..'


def _of_system(why):
    """What an error of the system stops: the reading of a file, which it names, or else the writing of the output."""
    told = why.strerror or str(why)
    if why.filename is not None:
        return REFUSED, '%s: %s' % (why.filename, told)
    return UNWRITTEN, 'the output cannot be written: %s' % ('its reader has ended' if why.errno in BROKEN else told)


def ending_of(why):
    """The status of what stopped a script, and the line that tells it."""
    if isinstance(why, OSError):
        return _of_system(why)
    if isinstance(why, subprocess.CalledProcessError):
        return REFUSED, '%s ended with status %s' % (os.path.basename(str(why.cmd[0])), why.returncode)
    for kind, status, told in ((Trouble, REFUSED, str(why)), (Unwritten, UNWRITTEN, str(why)),
                               (KeyboardInterrupt, INTERRUPTED, 'interrupted'),
                               (MemoryError, NO_MEMORY, 'memory ran out'),
                               (RecursionError, REFUSED, 'lists or objects stand too deep in each other')):
        if isinstance(why, kind):
            return status, told
    return FAULTY, 'this script is at fault: %s: %s' % (type(why).__name__, shortened(str(why)))


def status_of(main, name):
    """The status of a script: what `main` gives, or that of what stopped it, which is told in one line."""
    try:
        if sys.stdout is None:
            raise Unwritten('the output cannot be written: standard output is closed')
        status = main()
        sys.stdout.flush()
        return status
    except (Exception, KeyboardInterrupt) as why:
        status, told = ending_of(why)
    tell('%s: %s' % (name, told.replace('\n', ' ')))
    return status


def tell(line):
    """Writes a line to standard error, if there is one that takes it."""
    try:
        if sys.stderr is not None:
            sys.stderr.write(line + '\n')
            sys.stderr.flush()
    except (OSError, ValueError):
        pass


def run(main, name):
    """Runs a script, and ends the process with its status."""
    if sys.stdout is not None:
        sys.stdout.reconfigure(errors='backslashreplace')
    status = status_of(main, name)
    if status == UNWRITTEN:
        os.dup2(os.open(os.devnull, os.O_WRONLY), 1)  # what still waits to be written goes nowhere
    sys.exit(status)
