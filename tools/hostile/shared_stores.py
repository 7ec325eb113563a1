"""Two runs over one store, for `failing-devices`: one of them has it, and the other ends with 7 and leaves it alone.

A run has its store from its opening to its own end, however it ends. One without the store is never kept away.
"""

import errno
import fcntl
import os
import select
import shutil
import signal
import subprocess
from pathlib import Path

from failing_stores import HEADING, WORDS, begun, bytes_at, days, goes_on, library_of, output_of, with_calls
from opinion import stores
from trial import LIMIT, End, layout_text, put, run

WITHOUT = [*WORDS[:-1], "0"]
PIPE = 4096  # the least that a pipe holds
TRIES = 6  # how often two runs are made at once
ENDING = (signal.SIGTERM, signal.SIGINT, signal.SIGHUP)  # those that a caller may have told a run to ignore

# A day with two receipts, whose stock is longer than a pipe.
ROWS = ["%d-%d-L,A%d,1\n" % (1 + count // 20, 1 + count % 20, count) for count in range(400)]
RECEIPTS = ["receive,1-1-L,A0,1\n", "receive,1-2-L,A1,2\n"]
DAY = {"layout.json": layout_text(20, 20), "stock.csv": "location,article,on_hand\n" + "".join(ROWS),
       "orders.csv": "order,article,quantity\nO0,A0,1\n",
       "desks.csv": HEADING + "".join("1,%s" % line for line in RECEIPTS)}


def try_locked_stores(program, folder, tally):
    """A store that another program has locked: a run doesn't touch it, and one without the store isn't kept."""
    place = Path(folder, "store")
    for day, right, journal in days(program, place, tally):
        alone = run(program, WITHOUT, begun(place, day))
        for what, way in (("locked", fcntl.LOCK_EX), ("locked with others", fcntl.LOCK_SH)):
            begun(place, day)
            with open(place / stores.NAME, "ab") as other:
                before = bytes_at(place)
                fcntl.flock(other, way)
                end, beside = run(program, WORDS, place), run(program, WITHOUT, place)
                fine = (end.status, end.output) == (7, stores.FAULT) and bytes_at(place) == before
                tally.add(fine, "%s whose store is %s" % (day.what, what), end)
                tally.add(beside == alone and bytes_at(place) == before, "%s without the store, which is %s"
                          % (day.what, what), beside)
            end = run(program, WORDS, place)
            tally.add(end == right and bytes_at(place) == stores.file_of(journal), "%s after the lock" % day.what, end)


def try_unlockable_stores(program, folder, tally):
    """A store on a file system that has no locks, as a library pretends: it is never used without one."""
    library, place = library_of(folder), Path(folder, "store")
    for day, _, _ in days(program, place, tally):
        for error in (errno.ENOLCK, errno.EOPNOTSUPP, errno.ENOSYS):
            known = {**with_calls(library, "never", 0), "STORE_LOCK": str(error)}
            what = "%s where locks fail with %s" % (day.what, errno.errorcode[error])
            end = run(program, WORDS, begun(place, day), env=known)
            fine = (end.status, end.output) == (7, stores.FAULT) and bytes_at(place) == (day.before or b"")
            tally.add(fine, what, end)
            end = run(program, WITHOUT, begun(place, day), env=known)
            tally.add(end.status == 0 and bytes_at(place) == day.before, what + ", without the store", end)


def take_signals_back():
    """Lets signals end a program that a caller, as `nohup` or a shell in the background, has told to ignore them."""
    for number in ENDING:
        signal.signal(number, signal.SIG_DFL)


def held_run(program, place):
    """A run that has its store and waits for somebody to read its output, and the pipe into which it writes."""
    reading, writing = os.pipe()
    fcntl.fcntl(writing, fcntl.F_SETPIPE_SZ, PIPE)
    running = subprocess.Popen([program, *WORDS], cwd=place, stdin=subprocess.DEVNULL, stdout=writing,
                               preexec_fn=take_signals_back)
    os.close(writing)
    select.select([reading], [], [], LIMIT)
    return running, reading


def received(count):
    """The first lines of a journal of so many receipts."""
    return [b"%d 1 %s -> received\n" % (at, RECEIPTS[at % 2].strip().replace(",", " ").encode()) for at in range(count)]


def try_held_stores(program, folder, tally):
    """A run that has its store until it ends, read to its end or stopped by a signal; one beside it gets none of it."""
    place = Path(folder, "store")
    for number in (None, *ENDING, signal.SIGKILL):
        shutil.rmtree(place, ignore_errors=True)
        running, reading = held_run(program, put(place, DAY))
        end = run(program, WORDS, place)
        fine = (end.status, end.output) == (7, stores.FAULT) and bytes_at(place) == stores.file_of(received(2))
        tally.add(fine, "a run beside one that has the store", end)
        end = run(program, WITHOUT, place)
        tally.add(end.status == 0 and end.output.startswith(output_of(received(2))),
                  "a run without the store beside one that has it", end)
        if number is not None:
            running.send_signal(number)
        with open(reading, "rb") as it:
            output = it.read()
        end = End(running.wait(LIMIT), output, b"")
        fine = end.status == (0 if number is None else -number) and goes_on(program, place, received(2))
        tally.add(fine, "a run that has the store and ends by %s" % number, end)


def ended_at_once(program, place):
    """How two runs at once end, one with 0 first."""
    how = {"cwd": place, "stdin": subprocess.DEVNULL, "stdout": subprocess.PIPE}
    both = [subprocess.Popen([program, *WORDS], **how) for _ in range(2)]
    outputs = [it.communicate(timeout=LIMIT)[0] for it in both]
    return sorted(End(it.returncode, output, b"") for it, output in zip(both, outputs))


def try_runs_at_once(program, folder, tally):
    """Two runs at once over one store: what ended with 0 is there, and nothing else."""
    place = Path(folder, "store")
    for _ in range(TRIES):
        shutil.rmtree(place, ignore_errors=True)
        ends = ended_at_once(program, put(place, DAY))
        done = sum(end.status == 0 for end in ends)
        others = [(end.status, end.output) for end in ends[done:]]
        fine = done > 0 and others == [(7, stores.FAULT)] * (2 - done) and goes_on(program, place, received(2 * done))
        tally.add(fine, "two runs at once, of which %d ended with 0" % done, ends[-1])


TRIALS = (try_locked_stores, try_unlockable_stores, try_held_stores, try_runs_at_once)
