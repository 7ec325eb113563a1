"""Keeps beside a store what a planner needs of the run before. The launcher calls it; nothing here is proved.

usage: tools/keep-store before FOLDER|- WORD ..
       tools/keep-store after STATUS WORD ..

The words are those of a run. Before it, FOLDER is the number under which the launcher has the working directory open,
or - where it can't be opened. It is locked, so that one run at a time uses the store, for as long as the launcher and
its program have it open. Where another run has it, or another program has locked the store, this one waits for at most
ten seconds. Then the store is copied to waveplan.store.before, and the digest of the desk file is kept in
waveplan.store.desks. After a run that was refused, and so added nothing, both are put back. Where a run will cut off
bytes of the store that no crash has left there, this says so.

Status: 0 where the run is to go on, 7 where another run has the store, or 4 where the line that tells it can't be
written, and 130 where it was asked on a terminal whether to go on, and the answer was no; 2 where the words aren't
right.
"""

import contextlib
import fcntl
import hashlib
import os
import shutil
import signal
import sys
import time

import endings
from opinion import stores
from opinion.refusals import Refusal
from opinion.words import read_words

BEFORE, NEW, OLD = (stores.NAME + ending for ending in ('.before', '.before.new', '.before.old'))
DESKS = stores.NAME + '.desks'
MOST_WAITED, MOST_READ = 10, 16777216
STORE_FAULT, DECLINED = 7, 130
REFUSED = (1, 2, 3)  # the statuses of runs that leave the store as it was
TWICE = ('this desk file was given to the last run over this store: its commands are answered a second time, so that '
         'what was received counts twice')


def say(text):
    endings.tell('waveplan: ' + text)


def job_of(words):
    """What the words of a run ask for, None where they are no plan with a store."""
    try:
        job = read_words(words)
    except Refusal:
        return None
    return job if job.numbers.get('store') else None


def is_locked(file, how):
    """Whether another has locked a file against this way to lock it. Where a system has no such locks nobody has."""
    if file is None:
        return False
    try:
        fcntl.flock(file, how | fcntl.LOCK_NB)
    except BlockingIOError:
        return True
    except OSError:
        pass
    return False


def is_store_locked():
    """Whether another program has locked the store."""
    if not os.path.isfile(stores.NAME):
        return False
    with contextlib.suppress(OSError), open(stores.NAME, 'rb') as it:
        return is_locked(it, fcntl.LOCK_SH)
    return False


def is_free_in_time(folder):
    """Whether the store is free within ten seconds. The folder is this run's then."""
    until, has_told = time.monotonic() + MOST_WAITED, False
    while is_locked(folder, fcntl.LOCK_EX) or is_store_locked():
        if time.monotonic() > until:
            return False
        if not has_told:
            say('another run uses %s: waiting for it, for at most ten seconds' % stores.NAME)
            has_told = True
        time.sleep(0.1)
    return True


def content():
    """The bytes of the store; none where there is no such file."""
    if not os.path.isfile(stores.NAME):
        return b''
    with open(stores.NAME, 'rb') as it:
        return it.read(stores.MOST_BYTES + 1)


def digest_of(path):
    """The digest of a desk file, None where it has no commands or isn't a plain file."""
    if not os.path.isfile(path):
        return None
    with open(path, 'rb') as it:
        data = it.read(MOST_READ + 1)
    return hashlib.sha256(data).hexdigest() if sum(bool(line.strip()) for line in data.splitlines()) > 1 else None


def kept_digests():
    """The digest of the last desk file with commands, and that of the one before."""
    with contextlib.suppress(OSError), open(DESKS, encoding='ascii', errors='replace') as it:
        return (it.read().split() + ['', ''])[:2]
    return ['', '']


def keep_digests(last, earlier):
    with open(DESKS + '.new', 'w', encoding='ascii') as it:
        it.write('%s\n%s\n' % (last, earlier))
    os.replace(DESKS + '.new', DESKS)


def may_go_on():
    """Tells that a desk file is given twice. On a terminal it asks whether to go on."""
    if not all(it is not None and it.isatty() for it in (sys.stdin, sys.stderr)):
        say(TWICE)
        return True
    print('waveplan: %s. Go on? [y/N] ' % TWICE, end='', file=sys.stderr, flush=True)
    return sys.stdin.readline().strip().lower() in ('y', 'yes')


def copy_store():
    """Writes the copy of the store as it is now, whole or not at all: an empty one where there is no store yet."""
    try:
        with open(NEW, 'wb') as to:
            if os.path.isfile(stores.NAME):
                with open(stores.NAME, 'rb') as it:
                    shutil.copyfileobj(it, to)
            to.flush()
            os.fsync(to.fileno())
        if os.path.lexists(BEFORE):
            os.replace(BEFORE, OLD)
        os.replace(NEW, BEFORE)
    except OSError as why:
        say('no copy of the store is kept: %s cannot be written: %s' % (BEFORE, why.strerror))
        for name in (NEW, BEFORE):
            with contextlib.suppress(OSError):
                os.remove(name)


def tell_what_is_cut(data):
    """Tells what a run will cut off the store's bytes, where no crash has left it behind the records."""
    kept = stores.records(data)
    behind = data[len(stores.file_of(kept)) - 1:]
    if len(data) > stores.MOST_BYTES:
        return
    if not kept and data not in (b'', stores.CLOSED):
        say('the first bytes of %s are no record of a store: this run empties it. Its bytes are kept in %s'
            % (stores.NAME, BEFORE))
    elif stores.is_changed(behind):
        say('no record begins behind entry %d of %s, where %d bytes stand: something else has changed the file, or its '
            'disk has. This run cuts them off; until the next run they are kept in %s'
            % (len(kept) - 1, stores.NAME, len(behind), BEFORE))


def status_of_fault():
    """Prints the line of a run that can't have its store, and gives the status."""
    try:
        print(stores.FAULT.decode(), end='', flush=True)
    except OSError:
        return endings.UNWRITTEN
    return STORE_FAULT


def before(folder, job):
    """What is done before a run."""
    if not is_free_in_time(folder):
        say('another run has used %s for ten seconds: this one has done nothing, and ends. Run it again later'
            % stores.NAME)
        return status_of_fault()
    data = content()
    has_records = bool(stores.records(data))
    tell_what_is_cut(data)
    digest, (last, _) = digest_of(job.files['desks']), kept_digests()
    if has_records and digest and digest == last and not may_go_on():
        say('nothing was run')
        return DECLINED
    copy_store()
    if digest:
        keep_digests(digest, last)
    return 0


def after(status, job):
    """What is done after a run."""
    is_taken = status == STORE_FAULT and is_store_locked()
    if is_taken:
        say('another run has taken %s meanwhile: this one has done nothing. Run it again once that one has ended'
            % stores.NAME)
    if status in REFUSED or is_taken:
        if os.path.lexists(OLD):
            os.replace(OLD, BEFORE)
        last, earlier = kept_digests()
        if last and last == digest_of(job.files['desks']):
            keep_digests(earlier, '')
    elif os.path.lexists(OLD):
        os.remove(OLD)
    return 0


def main(words):
    signal.signal(signal.SIGINT, signal.SIG_DFL)
    if words == ['--help']:
        print(__doc__, end='')
        return endings.RIGHT
    if len(words) < 3 or words[0] not in ('before', 'after'):
        raise endings.Trouble('the first word is before or after; --help says which words there are')
    job = job_of(words[2:])
    if job is None:
        return 0
    if words[1] == '-':
        say('this folder cannot be read, and so not locked: another run over the store is not kept away')
    number = None if words[1] == '-' else int(words[1])
    try:
        return before(number, job) if words[0] == 'before' else after(number, job)
    except OSError as why:
        say('%s: %s, so what is kept beside the store is not whole' % (why.filename, why.strerror))
        return 0


def run(words):
    """Runs the script, and ends the process with its status. A closed standard output is the program's to tell."""
    sys.stdout = sys.stdout or open(os.devnull, 'w', encoding='utf-8')
    endings.run(lambda: main(words), 'keep-store')
