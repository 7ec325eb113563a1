"""How the scripts for the floor read a file, and say why they can't go on."""

import sys

from endings import Trouble


def read_bytes(path):
    """The bytes of a file, or of standard input for a dash."""
    try:
        if path != '-':
            with open(path, 'rb') as it:
                return it.read()
        if sys.stdin is None:
            raise Trouble('standard input is closed')
        return sys.stdin.buffer.read()
    except OSError as why:
        raise Trouble('%s cannot be read: %s' % (path, why.strerror)) from None
