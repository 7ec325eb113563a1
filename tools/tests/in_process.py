"""Runs of scripts within this process, with standard streams of their own."""

import io
import os
import sys
from contextlib import contextmanager

import endings
from floor import entry


@contextmanager
def streams(name, given, out, folder):
    """Standard input, output and error of a script that runs in this process, in a folder, under a name."""
    kept, here = (sys.stdin, sys.stdout, sys.stderr, sys.argv), os.getcwd()
    reader = io.BytesIO(given) if isinstance(given, bytes) else given
    sys.stdin, sys.stderr, sys.argv = io.TextIOWrapper(io.BufferedReader(reader)), io.StringIO(), [name]
    sys.stdout = None if out is None else io.TextIOWrapper(io.BufferedWriter(out), errors='backslashreplace')
    os.chdir(folder or here)
    try:
        yield sys.stderr
    finally:
        sys.stdin, sys.stdout, sys.stderr, sys.argv = kept
        os.chdir(here)


def ended(main, name, given=b'', out=None, folder=None):
    """The status of a script, and what it told on standard error. `out` is what its output goes to."""
    with streams(name, given, out, folder) as errors:
        return endings.status_of(main, name), errors.getvalue()


def floor(name, words, given, folder):
    """The status of a script for planners, its output, and what it told."""
    taken = io.BytesIO()
    taken.close = lambda: None
    status, told = ended(lambda: entry.module_of(name).main(words), name, given, taken, folder)
    return status, taken.getvalue(), told
