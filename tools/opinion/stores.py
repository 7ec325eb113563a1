"""The store of a day: the records of its file, what they are refused for, and what a run leaves, as docs/STORE.md and
docs/FORMATS.md tell it."""

from .journals import MOST_ENTRIES, read_entry
from .refusals import Refusal
from .stock_book import command_text

NAME = 'waveplan.store'
OPEN, CLOSED = b'\x01', b'\x00'
MOST_BODY, MOST_RECORDS = 8192, 10000
MOST_BYTES = MOST_RECORDS * (5 + MOST_BODY) + 1
FAULT = b'store fault\n'


def records(data):
    """The bodies of the records that bytes begin with."""
    bodies, place = [], 0
    while len(bodies) < MOST_RECORDS and data[place:place + 1] == OPEN and place + 5 <= len(data):
        size = int.from_bytes(data[place + 1:place + 5], 'big')
        if not 1 <= size <= MOST_BODY or place + 5 + size > len(data):
            break
        bodies.append(data[place + 5:place + 5 + size])
        place += 5 + size
    return bodies


def file_of(bodies):
    """The bytes of a store at rest: its records and a closed byte."""
    return b''.join(OPEN + len(body).to_bytes(4, 'big') + body for body in bodies) + CLOSED


def is_changed(behind):
    """Whether what stands behind the records of a store is more than a crash leaves there: a closed byte, with one
    record behind it at most, which may be torn, or else a single byte. Only a disk that tears a byte leaves more."""
    return len(behind) > 1 and behind[:1] != CLOSED or len(records(OPEN + behind[1:])) > 1


def _entry_of(body, number, knows_over_cart):
    """The entry that a record is the line of, None where it isn't that of this number."""
    entry = read_entry(body[:-1], knows_over_cart) if body.endswith(b'\n') else None
    return entry if entry and entry.number == number else None


def entries(data, book, commands, knows_over_cart=True):
    """The lines of the entries that a store has, each with the reply that the book gives. Fails with the first thing
    that is refused."""
    if data is None:
        raise Refusal(7, 'store fault')
    if len(data) > MOST_BYTES:
        raise Refusal(6, 'refused store too-long')
    bodies = records(data)
    for number, body in enumerate(bodies):
        entry = _entry_of(body, number, knows_over_cart)
        if entry is None:
            raise Refusal(6, 'refused store record %d' % number, None, body)
        right = book.step(entry.command).reply
        if right != entry.reply:
            raise Refusal(6, 'refused store entry %d printed %s right %s' % (number, entry.reply, right), None,
                          command_text(entry.command))
    if len(bodies) + commands > MOST_ENTRIES:
        raise Refusal(6, 'refused store entries %d' % (len(bodies) + commands))
    return [body[:-1].decode('ascii') for body in bodies]


def _lines_of(output):
    """The entries' lines of an output, each with its line feed."""
    return output.split(b'end journal\n')[0].splitlines(True)[1:]


def fault_after(before, after, status, output):
    """What is wrong with the bytes that a run with the store has left, None where nothing is. None stands for a file
    that isn't there."""
    old = before or b''
    if status == 0:
        due = file_of(_lines_of(output))
    elif status == 6 and len(old) <= MOST_BYTES:
        due = file_of(records(old))
    else:
        due = before
    return None if after == due else 'the store has %r afterwards where %r is due' % (shortened(after), shortened(due))


def shortened(data):
    return data if data is None or len(data) <= 200 else data[:100] + b'..' + data[-100:]


def is_beginning(before, after, journal):
    """Whether bytes have the records from before, and behind them a beginning of the new lines of a journal."""
    old, now = records(before or b''), records(after or b'')
    return len(old) <= len(now) and now == journal[:len(now)] and now[:len(old)] == old
