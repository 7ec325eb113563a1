"""Files that are written whole or not at all."""

import os
import tempfile

from endings import Unwritten


def write(path, text):
    """Writes a text, or bytes, into a plain file: what was in it before stays until all is there."""
    path = os.path.realpath(path)
    if os.path.exists(path) and not os.path.isfile(path):
        raise Unwritten('%s cannot be written: it is no plain file' % path)
    data = text.encode() if isinstance(text, str) else text
    try:
        folder = os.path.dirname(path)
        with tempfile.NamedTemporaryFile('wb', dir=folder, delete=False) as it:
            _fill(it, data, path)
    except OSError as why:
        raise Unwritten('%s cannot be written: %s' % (path, why.strerror)) from None


def _fill(it, data, path):
    """Fills a temporary file and gives it its place; where that fails it is removed."""
    try:
        it.write(data)
        it.flush()
        os.chmod(it.name, os.stat(path).st_mode & 0o777 if os.path.exists(path) else 0o666 & ~_mask())
        os.replace(it.name, path)
    except OSError:
        os.remove(it.name)
        raise


def _mask():
    mask = os.umask(0)
    os.umask(mask)
    return mask
