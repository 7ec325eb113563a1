"""Tests of the trials of a store's disk: each fault that is planted between the program and its file is found."""

import contextlib
import io
import sys
import unittest
from pathlib import Path
from unittest import mock

import runs

sys.path[:0] = [str(runs.TOOLS / 'hostile'), str(runs.TOOLS / 'gate')]
import failing_stores
import shared_stores
import trial
from test_gate import script

# It stands between the program and the library that tells of the calls on a store, or lets them fail. PLANTED says
# which fault of the program it shows.
PLANTED = r"""
#define _GNU_SOURCE
#include <dlfcn.h>
#include <fcntl.h>
#include <stdlib.h>
#include <string.h>
#include <sys/types.h>
#include <unistd.h>

static int store = -1, above = -1, is_closed;

__attribute__((constructor)) static void begin(void) { is_closed = fcntl(1, F_GETFD) < 0; }

static int is(const char *fault) { return strcmp(getenv("PLANTED"), fault) == 0; }

int open(const char *name, int flags, ...) {
    int (*next)(const char *, int, ...) = dlsym(RTLD_NEXT, "open");
    if (strcmp(name, ".") == 0) return above = next(name, flags, 0666);
    if (strcmp(name, "waveplan.store") != 0) return next(name, flags, 0666);
    if (is("emptied when it is opened")) flags |= O_TRUNC;
    store = next(is("another file") ? "waveplan.stored" : name, flags, 0666);
    if (is_closed && is("opened in the place of standard output")) {
        store = fcntl(store, F_DUPFD, 10);
        dup2(store, 1);
    }
    return store;
}

ssize_t read(int file, void *bytes, size_t count) {
    ssize_t (*next)(int, void *, size_t) = dlsym(RTLD_NEXT, "read");
    static int reads;
    if (file == store && reads++ > 0 && is("reading stops after a piece")) return 0;
    ssize_t moved = next(file, bytes, count);
    return file == store && moved < 0 && is("a failed read is an empty file") ? 0 : moved;
}

off_t lseek(int file, off_t where, int from) {
    off_t (*next)(int, off_t, int) = dlsym(RTLD_NEXT, "lseek");
    if (file == store && where > 0 && is("written at the start")) where = 0;
    off_t place = next(file, where, from);
    return file == store && place < 0 && is("a failed seek is one") ? where : place;
}

ssize_t write(int file, const void *bytes, size_t count) {
    ssize_t (*next)(int, const void *, size_t) = dlsym(RTLD_NEXT, "write");
    if (file == store && is("nothing is written")) return (ssize_t)count;
    ssize_t moved = next(file, bytes, count);
    if (file == store && moved >= 0 && is("a short write is a whole one")) return (ssize_t)count;
    return file == store && moved < 0 && is("a failed write is acknowledged") ? (ssize_t)count : moved;
}

ssize_t __write(int file, const void *bytes, size_t count) { return write(file, bytes, count); }

int ftruncate(int file, off_t length) {
    int (*next)(int, off_t) = dlsym(RTLD_NEXT, "ftruncate");
    if (file == store && is("nothing is cut")) return 0;
    int done = next(file, length);
    return file == store && is("a failed cut is acknowledged") ? 0 : done;
}

int flock(int file, int way) {
    int (*next)(int, int) = dlsym(RTLD_NEXT, "flock");
    return file == store && is("nothing is locked") ? 0 : next(file, way);
}

int fsync(int file) {
    int (*next)(int) = dlsym(RTLD_NEXT, "fsync");
    static int syncs;
    if (file == store && is("nothing is synced")) return 0;
    if (file == above && is("the folder is not synced")) return 0;
    if (file == store && ++syncs > 3 && syncs % 2 == 1 && is("acknowledged before the sync")) return 0;
    int done = next(file);
    return file == store && is("a failed sync is acknowledged") ? 0 : done;
}
"""

# Each fault with the trial that finds it.
FAULTS = {
    'nothing is synced': failing_stores.try_torn_stores,
    'acknowledged before the sync': failing_stores.try_torn_stores,
    'the folder is not synced': failing_stores.try_new_stores,
    'nothing is cut': failing_stores.try_torn_stores,
    'a failed read is an empty file': failing_stores.try_store_calls,
    'a failed seek is one': failing_stores.try_store_calls,
    'a failed write is acknowledged': failing_stores.try_store_calls,
    'a failed cut is acknowledged': failing_stores.try_store_calls,
    'a failed sync is acknowledged': failing_stores.try_store_calls,
    'reading stops after a piece': failing_stores.try_short_store_calls,
    'a short write is a whole one': failing_stores.try_short_store_calls,
    'written at the start': failing_stores.try_short_store_calls,
    'nothing is written': failing_stores.try_short_store_calls,
    'emptied when it is opened': failing_stores.try_short_store_calls,
    'another file': failing_stores.try_short_store_calls,
    'nothing is locked': shared_stores.try_locked_stores,
    'opened in the place of standard output': failing_stores.try_outputs,
}


class Found(Exception):
    """The first run that is wrong."""


class ToFirst(trial.Tally):
    """A tally that ends with the first run that is wrong."""

    def tell(self, what, how):
        raise Found(what)


def planted(fault):
    """The program with a fault between it and its file."""
    shelf = Path(runs.shelf().name)
    library = shelf / 'planted.so'
    if not library.exists():
        trial.shim(shelf, 'planted', PLANTED)
    program = shelf / ('with-%s' % fault.replace(' ', '-'))
    program.write_text('#!/bin/sh\nLD_PRELOAD=%s${LD_PRELOAD:+:$LD_PRELOAD} PLANTED="%s" exec %s "$@"\n'
                       % (library, fault, runs.PROGRAM))
    program.chmod(0o755)
    return str(program)


def found_of(fault, in_trial):
    """The first run of a trial that is wrong where a fault is planted, None where all are right."""
    folder = Path(runs.shelf().name, 'of-' + fault.replace(' ', '-'))
    folder.mkdir()
    try:
        in_trial(planted(fault), str(folder), ToFirst())
    except Found as what:
        return str(what)
    return None


@unittest.skipIf(trial.compiler() is None, 'there is no C compiler')
class Disks(unittest.TestCase):
    def test_without_a_fault_nothing_is_found(self):
        for in_trial in (failing_stores.try_short_store_calls, failing_stores.try_torn_stores):
            self.assertIsNone(found_of('none of %s' % in_trial.__name__, in_trial))


class WithoutCompiler(unittest.TestCase):
    def test_the_trials_are_left_out_and_that_is_said(self):
        out = io.StringIO()
        with mock.patch.object(trial, 'compiler', lambda: None), contextlib.redirect_stdout(out):
            self.assertEqual(0, script('stores').main([runs.PROGRAM]))
        self.assertRegex(out.getvalue(), '(?s)^left out: .*there is no C compiler.*\n0 passed, 0 failed\n$')


def test_that_it_is_found(fault, in_trial):
    """A test that this fault, planted behind the program, is found."""
    def test(self):
        self.assertIsNotNone(found_of(fault, in_trial))
    return test


# A test for each fault, so that they run beside each other.
for known, where in FAULTS.items():
    setattr(Disks, 'test_it_finds_that_%s' % known.replace(' ', '_'), test_that_it_is_found(known, where))
del test_that_it_is_found


if __name__ == '__main__':
    unittest.main()
