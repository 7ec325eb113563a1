"""Runs of plans with a store over folders, files and disks that fail, stop or are full, for `failing-devices`.

After each run the store has the records from before and a beginning of the new entries: all of them where any output
was taken. And the next run over a sound disk, without commands, prints the journal of just these records.
"""

import errno
import itertools
import os
import random
import resource
import shutil
import signal
import socket
import subprocess
from collections import namedtuple
from pathlib import Path

from opinion import stores
from trial import End, plan_words, put, run, shim, wave_day

# It tells of the calls on the store alone, which are numbered from its opening on, together with those on its folder.
# One of them fails, or stops the program before it or in the midst of it; or each moves only so many bytes; or no file
# can be locked.
STOPPING = r"""
#define _GNU_SOURCE
#include <errno.h>
#include <fcntl.h>
#include <signal.h>
#include <stdlib.h>
#include <string.h>
#include <sys/file.h>
#include <sys/syscall.h>
#include <unistd.h>

static const char *how = "never";
static long number, error, made, most = 1L << 40;
static int store = -1, above = -1, told = -1;
static off_t place;

__attribute__((constructor)) static void begin(void) {
    how = getenv("STORE_HOW");
    number = atol(getenv("STORE_NUMBER"));
    error = atol(getenv("STORE_ERROR"));
    if (getenv("STORE_MOST")) most = atol(getenv("STORE_MOST"));
    if (getenv("STORE_TOLD"))
        told = (int)syscall(SYS_openat, AT_FDCWD, getenv("STORE_TOLD"), O_WRONLY | O_CREAT | O_APPEND, 0600);
}

static void tell(const char *call, long where, const void *bytes, size_t count) {
    char line[20000];
    size_t length = 0;
    if (told < 0) return;
    length += (size_t)strlen(strcpy(line, call));
    line[length++] = ' ';
    for (long unit = 1000000000; unit > 0; unit /= 10) line[length++] = (char)('0' + where / unit % 10);
    line[length++] = ' ';
    for (size_t at = 0; at < count; at++) {
        line[length++] = "0123456789abcdef"[((const unsigned char *)bytes)[at] >> 4];
        line[length++] = "0123456789abcdef"[((const unsigned char *)bytes)[at] & 15];
    }
    line[length++] = '\n';
    if (syscall(SYS_write, told, line, length) != (long)length) abort();
}

static size_t least(size_t count) { return count < (size_t)most ? count : (size_t)most; }

/* Whether this call on the store fails, which is told on standard error; the program doesn't use that. */
static int fails(void) {
    if (++made != number) return 0;
    if (strcmp(how, "stop") == 0) raise(SIGKILL);
    if (strcmp(how, "fail") != 0) return 0;
    if (syscall(SYS_write, 2, "f", 1) != 1) abort();
    errno = (int)error;
    return 1;
}

int open(const char *name, int flags, ...) {
    int is_store = strcmp(name, "waveplan.store") == 0, is_above = strcmp(name, ".") == 0, file;
    if ((is_store || is_above) && fails()) return -1;
    file = (int)syscall(SYS_openat, AT_FDCWD, name, flags, 0666);
    if (is_store) store = file;
    if (is_above) above = file;
    return file;
}

int flock(int file, int way) {
    if (file == store && getenv("STORE_LOCK")) {
        errno = atoi(getenv("STORE_LOCK"));
        return -1;
    }
    return file == store && fails() ? -1 : (int)syscall(SYS_flock, file, way);
}

ssize_t read(int file, void *bytes, size_t count) {
    if (file != store) return syscall(SYS_read, file, bytes, count);
    return fails() ? -1 : syscall(SYS_read, file, bytes, least(count));
}

off_t lseek(int file, off_t where, int from) {
    off_t now;
    if (file == store && fails()) return -1;
    now = syscall(SYS_lseek, file, where, from);
    if (file == store) place = now;
    return now;
}

ssize_t write(int file, const void *bytes, size_t count) {
    ssize_t moved;
    if (file != store) return syscall(SYS_write, file, bytes, count);
    if (fails()) return -1;
    if (made == number && strcmp(how, "half") == 0) {
        if (syscall(SYS_write, file, bytes, (count + 1) / 2) < 0) abort();
        raise(SIGKILL);
    }
    tell("write", place, bytes, count);
    moved = syscall(SYS_write, file, bytes, least(count));
    if (moved > 0) place += moved;
    return moved;
}

ssize_t __write(int file, const void *bytes, size_t count) { return write(file, bytes, count); }

int ftruncate(int file, off_t length) {
    if (file == store && fails()) return -1;
    if (file == store) tell("cut", length, "", 0);
    return (int)syscall(SYS_ftruncate, file, length);
}

int fsync(int file) {
    if ((file == store || file == above) && fails()) return -1;
    if (file == store) tell("sync", 0, "", 0);
    if (file == above) tell("folder", 0, "", 0);
    return (int)syscall(SYS_fsync, file);
}
"""

ERRORS = "EIO ENOSPC EROFS EINTR ENOMEM"
HEADING = "desk,command,arguments\n"
WORDS = plan_words(2, "--store", "1")
JOURNAL = [b"0 1 submit W1 O0 O1 -> submitted\n", b"1 1 release W1 -> released\n",
           b"2 1 pick W1 O0 1-1-L 1 -> picked\n", b"3 1 receive 1-1-L A1-1 5 -> received\n"]
# Ways in which standard output takes nothing, as a shell has them.
OUTPUTS = (("closed", ">&-"), ("full", ">/dev/full"), ("for reading", "1</dev/null"), ("and input closed", "<&- >&-"),
           ("and errors closed", ">&- 2>&-"), ("and all streams closed", "<&- >&- 2>&-"))
STRANGER = 65534  # a user who owns none of the files
DRAWS = 6  # images that are drawn after each call
LARGE = 120  # seconds that a run over the largest store may take
LEAST_CALLS = 10  # calls that each run with a store makes on it, and more

# A day with a store: what it is, its files, and the bytes of its store before, None where there is no such file.
Day = namedtuple("Day", "what files before")

# A call on a store that was told: its kind, where, and the bytes.
Call = namedtuple("Call", "kind where bytes")


def bytes_at(place):
    """The bytes of a store, None where there is no file."""
    path = Path(place, stores.NAME)
    return path.read_bytes() if path.is_file() else None


def begun(folder, day):
    """A folder with the files of a day and its store, and nothing else."""
    shutil.rmtree(folder, ignore_errors=True)
    put(folder, day.files)
    if day.before is not None:
        Path(folder, stores.NAME).write_bytes(day.before)
    return Path(folder)


def days(program, folder, tally):
    """A day that begins its store, and one that goes on from it; each with how it ends and with the lines of its
    journal."""
    first = Day("a first run", wave_day(["1-1", "1-1"]), None)
    more = {**first.files, "desks.csv": HEADING + "1,pick,W1,O0,1-1-L,1\n1,receive,1-1-L,A1-1,5\n"}
    for day, journal in ((first, JOURNAL[:2]), (Day("a second run", more, stores.file_of(JOURNAL[:2])), JOURNAL)):
        right = run(program, WORDS, begun(folder, day))
        is_planned = right.status == 0 and right.output.startswith(output_of(journal))
        is_stored = bytes_at(folder) == stores.file_of(journal)
        tally.add(is_planned and is_stored, "%s where nothing fails" % day.what, right)
        yield day, right, journal


def output_of(journal):
    """What an output with these entries begins with."""
    return b"journal\n%send journal\n" % b"".join(journal)


def is_sound(program, place, day, end, journal):
    """Whether a store has what it may have after a run, and the next run without commands prints just that."""
    after = bytes_at(place)
    kept = stores.records(after or b"")
    if not stores.is_beginning(day.before, after, journal) or end.output not in (b"", stores.FAULT) and kept != journal:
        return False
    return goes_on(program, place, kept)


def goes_on(program, place, kept):
    """Whether a run without commands prints a journal of these records, and leaves them."""
    put(place, {"desks.csv": HEADING})
    end = run(program, WORDS, place)
    return end.status == 0 and end.output.startswith(output_of(kept)) and bytes_at(place) == stores.file_of(kept)


def library_of(folder):
    """The library that tells of the calls on a store, which is compiled once."""
    path = Path(folder, "stopping.so")
    return str(path) if path.exists() else shim(folder, "stopping", STOPPING)


def with_calls(library, how, number, error=0, told=None):
    """The environment in which this call on the store fails or stops the program."""
    known = {"STORE_HOW": how, "STORE_NUMBER": str(number), "STORE_ERROR": str(error)}
    return {**os.environ, "LD_PRELOAD": library, **known, **({"STORE_TOLD": str(told)} if told else {})}


def is_named(end, right, error):
    """Whether a run in which a call on the store failed ended as it should. A call that a signal interrupts is made
    again."""
    if error == "EINTR":
        return (end.status, end.output) == (right.status, right.output)
    return (end.status, end.output) == (7, stores.FAULT) or error == "ENOMEM" and (end.status, end.output) == (5, b"")


def try_store_calls(program, folder, tally):
    """Each call on a store, failing in turn with each error."""
    library, place = library_of(folder), Path(folder, "store")
    for day, right, journal in days(program, place, tally):
        for error in ERRORS.split():
            for number in itertools.count(1):
                end = run(program, WORDS, begun(place, day),
                          env=with_calls(library, "fail", number, getattr(errno, error)))
                what = "%s where call %d on the store fails with %s" % (day.what, number, error)
                if not end.errors:
                    tally.add(end == right and bytes_at(place) == stores.file_of(journal), what, end)
                    tally.add(number > LEAST_CALLS, "%s where only %d calls on the store are seen" % (day.what, number),
                              end)
                    break
                tally.add(is_named(end, right, error) and is_sound(program, place, day, end, journal), what, end)


def try_short_store_calls(program, folder, tally):
    """Calls on a store that move at most so many bytes."""
    library, place = library_of(folder), Path(folder, "store")
    for day, right, journal in days(program, place, tally):
        for most in (1, 3, 50):
            short = {**with_calls(library, "never", 0), "STORE_MOST": str(most)}
            end = run(program, WORDS, begun(place, day), env=short)
            tally.add(end == right and bytes_at(place) == stores.file_of(journal),
                      "%s whose calls on the store move at most %d bytes" % (day.what, most), end)


def try_stops(program, folder, tally):
    """A program that is stopped before each call on a store, and in the midst of each write to it."""
    library, place = library_of(folder), Path(folder, "store")
    for day, right, journal in days(program, place, tally):
        for number in itertools.count(1):
            ends = []
            for how in ("stop", "half"):
                end = run(program, WORDS, begun(place, day), env=with_calls(library, how, number))
                stopped = end.status == -signal.SIGKILL and end.output == b""
                fine = (stopped or end == right) and is_sound(program, place, day, end, journal)
                tally.add(fine, "%s that is stopped at call %d on the store, %s" % (day.what, number, how), end)
                ends.append(stopped)
            if not any(ends):
                break


def told_calls(path):
    """The calls on a store that a library has told."""
    for line in path.read_text().splitlines():
        kind, where, text = line.split(" ")
        yield Call(kind, int(where), bytes.fromhex(text))


def run_told(program, folder, day):
    """How a day ends, the calls that it made on its store, and those on its folder before the first of them."""
    told, place = Path(folder, "told"), begun(Path(folder, "store"), day)
    told.unlink(missing_ok=True)
    end = run(program, WORDS, place, env=with_calls(library_of(folder), "never", 0, 0, told))
    calls = list(told_calls(told))
    first = next((at for at, call in enumerate(calls) if call.kind != "folder"), len(calls))
    return end, [call for call in calls if call.kind != "folder"], calls[:first]


def try_new_stores(program, folder, tally):
    """A store that is made: its folder is synced before it is first written, lest it is gone where power fails."""
    for day, right, _ in days(program, Path(folder, "store"), tally):
        end, _, before = run_told(program, folder, day)
        fine = end == right and (before or day.before is not None)
        tally.add(fine, "%s with %d syncs of its folder" % (day.what, len(before)), end)


def image(dice, synced, calls):
    """One content that a disk may have where power fails after these calls, of which none was followed by a sync that
    succeeded."""
    now, least, most, torn = bytearray(synced), len(synced), len(synced), set()
    for call in calls:
        if call.kind == "cut":
            least = min(least, call.where)
            del now[call.where:]
        elif call.kind == "write":
            end = call.where + len(call.bytes)
            now[call.where:end] = call.bytes
            torn.update(range(call.where, end))
        most = max(most, len(now))
    found = (now + synced[len(now):] + bytes(most))[:dice.choice((least, most, dice.randint(least, most)))]
    for at in range(len(found)):
        if at in torn or at >= len(synced):
            old = synced[at] if at < len(synced) else 0
            found[at] = dice.choice((found[at], found[at], old, 0, 1, dice.randrange(256)))
    return bytes(found)


def applied(data, call):
    """What a file reads as after a call."""
    if call.kind == "cut":
        return data[:call.where]
    return data[:call.where] + call.bytes + data[call.where + len(call.bytes):] if call.kind == "write" else data


def acknowledged(calls):
    """How many entries were acknowledged in these calls: two syncs each, behind the three with which a store is opened.
    """
    return max(0, sum(call.kind == "sync" for call in calls) - 3) // 2


def try_torn_stores(program, folder, tally):
    """What a disk may hold where power fails after each call on a store, with what wasn't synced torn in ways that are
    drawn."""
    dice, place = random.Random(1), Path(folder, "store")
    for day, right, journal in days(program, place, tally):
        end, calls, _ = run_told(program, folder, day)
        old = len(stores.records(day.before or b""))
        tally.add(end == right and acknowledged(calls) == len(journal) - old,
                  "%s whose calls on the store are told" % day.what, end)
        synced, reads, since = day.before or b"", day.before or b"", 0
        for number, call in enumerate(calls):
            reads = applied(reads, call)
            if call.kind == "sync":
                synced, since = reads, number + 1
            for draw in range(DRAWS if call.kind != "sync" else 1):
                left = image(dice, synced, calls[since:number + 1])
                kept = stores.records(left)
                begun(place, day._replace(before=left))
                fine = kept == journal[:len(kept)] and len(kept) >= old + acknowledged(calls[:number + 1])
                tally.add(fine and goes_on(program, place, kept),
                          "%s where power fails after call %d, draw %d: %r" % (day.what, number, draw, left),
                          End(None, left, b""))


def bad_stores():
    """Ways in which there can be no store, each with what makes it so of its path."""
    return {
        "a folder": lambda path: path.mkdir(),
        "a link to itself": lambda path: path.symlink_to(path.name),
        "a link below a file": lambda path: path.symlink_to("stock.csv/x"),
        "a link into no folder": lambda path: path.symlink_to("nowhere/x"),
        "a link to a folder": lambda path: path.symlink_to("."),
        "a pipe": os.mkfifo,
        "a socket": socket_at,
        **{device: lambda path, device=device: path.symlink_to(device)
           for device in ("/dev/null", "/dev/zero", "/dev/full", "/proc/self/mem")},
    }


def socket_at(path):
    """Makes a socket in the folder of a path, whose name may be longer than one of a socket."""
    here = os.open(".", os.O_RDONLY)
    os.chdir(path.parent)
    try:
        with socket.socket(socket.AF_UNIX) as it:
            it.bind(path.name)
    finally:
        os.fchdir(here)
        os.close(here)


def try_bad_stores(program, folder, tally):
    """A store that is no file."""
    place = Path(folder, "store")
    day, _, _ = next(days(program, place, tally))
    for what, spoil in bad_stores().items():
        spoil(begun(place, day) / stores.NAME)
        before = sorted(path.name for path in place.iterdir())
        end = run(program, WORDS, place)
        untouched = before == sorted(path.name for path in place.iterdir())
        tally.add((end.status, end.output) == (7, stores.FAULT) and untouched, "a store that is %s" % what, end)


def linked(place, day, file, link):
    """Puts the store of a day elsewhere and links to it; a first run has none there, unless the link wants one."""
    begun(place, day._replace(before=None))
    file.unlink(missing_ok=True)
    if day.before is not None or link is os.link:
        file.write_bytes(day.before or b"")
    link(file, place / stores.NAME)


def try_linked_stores(program, folder, tally):
    """A store that is a second name of a file, or a link to one that is there or not."""
    place, file = Path(folder, "store"), Path(folder, "elsewhere")
    for day, right, journal in days(program, place, tally):
        for what, link in (("a link", os.symlink), ("a second name", os.link)):
            linked(place, day, file, link)
            end = run(program, WORDS, place)
            is_kept = (place / stores.NAME).is_symlink() == (link is os.symlink)
            fine = end == right and is_kept and file.read_bytes() == stores.file_of(journal)
            tally.add(fine and goes_on(program, place, journal), "%s whose store is %s" % (day.what, what), end)


def try_large_stores(program, folder, tally):
    """A store of the greatest size, and one that has a byte more."""
    place = Path(folder, "store")
    day, right, _ = next(days(program, place, tally))
    for more, status, line in ((0, 0, right.output), (1, 6, b"refused store too-long\n")):
        os.truncate(put_file(begun(place, day) / stores.NAME), stores.MOST_BYTES + more)
        end = run(program, WORDS, place, timeout=LARGE)
        left = (place / stores.NAME).stat().st_size
        fine = left == stores.MOST_BYTES + more if more else left < 200
        tally.add((end.status, end.output) == (status, line) and fine,
                  "a store of %d bytes" % (stores.MOST_BYTES + more), end)


def put_file(path):
    """Makes an empty file, and gives its path."""
    path.write_bytes(b"")
    return path


def try_permissions(program, folder, tally):
    """A folder that can't be written, and a store that may not be read or written."""
    if os.getuid() != 0:
        print("left out: folders and stores without permission, which root has to run")
        return
    place = Path(folder, "store")
    for day, right, journal in days(program, place, tally):
        for mode, status in ((0o666, 0 if day.before is not None else 7), (0o600, 7), (0o444, 7), (0o222, 7)):
            begun(place, day).chmod(0o755)
            if day.before is not None:
                (place / stores.NAME).chmod(mode)
            end = run(program, WORDS, place, user=STRANGER)
            is_fault = (end.status, end.output) == (7, stores.FAULT) and bytes_at(place) == day.before
            fine = end == right if status == 0 else is_fault
            tally.add(fine, "%s in a folder that can't be written, with a store of the mode %o" % (day.what, mode), end)


def try_unread_folders(program, folder, tally):
    """A folder that can be written and not read: a store can't be begun there, since its folder can't be synced."""
    if os.getuid() != 0:
        print("left out: folders that can't be read, which root has to run")
        return
    place = Path(folder, "store")
    for day, right, _ in days(program, place, tally):
        begun(place, day).chmod(0o733)
        if day.before is not None:
            (place / stores.NAME).chmod(0o666)
        end = run(program, WORDS, place, user=STRANGER)
        is_begun = (end.status, end.output) == (7, stores.FAULT) and bytes_at(place) == b""
        tally.add(is_begun if day.before is None else end == right, "%s in a folder that can't be read" % day.what, end)


def try_outputs(program, folder, tally):
    """Standard output that is closed or full, behind a store, also where the other streams are closed."""
    place = Path(folder, "store")
    for day, right, journal in days(program, place, tally):
        for what, to in OUTPUTS:
            end = run("/bin/sh", ["-c", 'exec "$@" ' + to, "sh", program, *WORDS], begun(place, day))
            fine = (end.status, end.output) == (4, b"") and bytes_at(place) == stores.file_of(journal)
            tally.add(fine and goes_on(program, place, journal), "%s with standard output %s" % (day.what, what), end)


def try_limited_stores(program, folder, tally):
    """A store that may have so many bytes, one limit after another."""
    place = Path(folder, "store")

    def limited():
        signal.signal(signal.SIGXFSZ, signal.SIG_IGN)
        resource.setrlimit(resource.RLIMIT_FSIZE, (most, most))

    for day, right, journal in days(program, place, tally):
        for most in range(0, len(stores.file_of(journal)) + 2, 3):
            end = run(program, WORDS, begun(place, day), preexec_fn=limited, restore_signals=False)
            whole = end == right and bytes_at(place) == stores.file_of(journal)
            fine = whole if most >= len(stores.file_of(journal)) else (end.status, end.output) == (7, stores.FAULT)
            tally.add(fine and is_sound(program, place, day, end, journal),
                      "%s with a store of at most %d bytes" % (day.what, most), end)


def mounted(place, size, *more):
    """Whether a disk in memory of so many KB could be put there."""
    place.mkdir(exist_ok=True)
    words = ["mount", "-t", "tmpfs", "-o", ",".join(("size=%dk" % size, *more)), "tmpfs", str(place)]
    try:
        return subprocess.run(words, stderr=subprocess.DEVNULL).returncode == 0
    except OSError:
        return False


def try_full_disk(program, folder, tally):
    """A disk that is full from the start, or in the midst of a day, and has room again afterwards."""
    place, files = Path(folder, "disk"), put(Path(folder, "files"), wave_day(["1-1"]))
    if os.getuid() != 0 or not mounted(place, 16):
        print("left out: a full disk, which root has to mount")
        return
    commands = ["%d,receive,1-1-L,A1-1,1\n" % (1 + count % 8) for count in range(400)]
    try:
        full_from_the_start(program, files, place, tally)
        full_in_the_midst(program, files, place, commands, tally)
    finally:
        subprocess.run(["umount", str(place)])


def planned_from(program, files, place, commands):
    """A plan of these commands, whose files lie elsewhere than its store."""
    put(files, {"desks.csv": HEADING + "".join(commands)})
    words = [str(files / word) if "." in word else word for word in WORDS]
    return run(program, words, place)


def full_from_the_start(program, files, place, tally):
    try:
        (place / "filler").write_bytes(bytes(1 << 20))
    except OSError:
        pass
    end = planned_from(program, files, place, ["1,receive,1-1-L,A1-1,1\n"])
    tally.add((end.status, end.output) == (7, stores.FAULT) and bytes_at(place) == b"", "a disk that is full", end)
    (place / "filler").unlink()


def full_in_the_midst(program, files, place, commands, tally):
    """The day stops at what has no room. The next run tells what there is, and the commands that are missing are given
    then."""
    end = planned_from(program, files, place, commands)
    kept = stores.records(bytes_at(place))
    tally.add((end.status, end.output) == (7, stores.FAULT) and 0 < len(kept) < len(commands),
              "a disk that is full after %d entries" % len(kept), end)
    mounted(place, 64, "remount")
    end = planned_from(program, files, place, [])
    tally.add(end.status == 0 and end.output.startswith(output_of(kept)), "the same disk with room", end)
    by_desk = {desk: [line for line in commands if line.startswith("%d," % desk)] for desk in range(1, 9)}
    for line in kept:
        by_desk[int(line.split(b" ")[1])].pop(0)
    end = planned_from(program, files, place, [line for lines in by_desk.values() for line in lines])
    whole = end.status == 0 and len(stores.records(bytes_at(place))) == len(commands)
    tally.add(whole and b"\n1-1-L A1-1 409 409 0\n" in end.output, "the commands that are missing", end)


TRIALS = (try_store_calls, try_short_store_calls, try_stops, try_torn_stores, try_new_stores, try_bad_stores,
          try_linked_stores, try_large_stores, try_permissions, try_unread_folders, try_outputs, try_limited_stores,
          try_full_disk)
# Those that the gate makes too: they take seconds, and need no more than a C compiler.
OF_THE_GATE = (try_store_calls, try_short_store_calls, try_stops, try_torn_stores, try_new_stores, try_bad_stores,
               try_linked_stores, try_outputs)
