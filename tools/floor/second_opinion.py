"""Judges an answer of waveplan by a program of its own, which shares no line with it.

usage: tools/wave second-opinion [plan] --layout FILE --stock FILE --orders FILE --desks FILE [--capacity C] [--units N]
                            [--budget N | --nodes N] [--workers K] [--rules 0-1] [--pickers K] [--root 0-1] [--store 0-1]
                            [--store-before FILE [--store-after FILE] | --stored] DAY
       tools/wave second-opinion [check] --layout FILE --certificate FILE ANSWER
       tools/wave second-opinion [audit] --layout FILE --stock FILE --orders FILE --journal FILE [--units N] ANSWER
       tools/wave second-opinion [waves] --layout FILE --stock FILE --orders FILE --wave N --capacity C [--units N]
                            [--open FILE] [--journal FILE] [--most N] [--desk D] [--effort N] ANSWER

DAY is what a plan printed, ANSWER what a check, an audit or waves printed, and - stands for standard input. The words
before it are those of the run. The files are read, each command is answered and each sheet is measured again, as
docs/FORMATS.md, docs/RULES.md, docs/TOURS.md and docs/BATCHES.md say it: each desk's commands once and in order, each
reply, what is held, each wave's orders in one batch within the capacity, each pick, each tour a closed walk of the
printed length and a shortest one, cost, bound and state, each certificate, refills and stock. With --rules 1 also what
the three usual rules walk past each batch's picks, with --pickers, as docs/CREWS.md says it, the crew: each batch with
one picker, loads and numbers, and that it is settled; and with --root 1 the bracket of each wave's linear bound: it
holds the bound, which is found again for waves with at most 1,000 permitted batches, it is narrow where it says so, and
an open one is that of the share duals and a first batching. None may stand there where it isn't asked for. Where a file
is refused, the line that tells it is judged.

With `plan` before the words, or with one of --budget, --nodes, --workers and --store, the words are all those of the
plan. Then each wave is worked as far as its budget pays, which is 2000000 where neither --budget nor --nodes is given,
and so is each open bracket.

A day that was planned with --store 1 is judged with the store as it was before the run. In the folder of the last run
this finds the copy that the launcher keeps, waveplan.store.before, by itself, or where --store 1 says so; else
--store-before names a copy, or /dev/null where there was none. Its records are read and answered again, or the first
that is refused is told; the journal has their entries and then those of the desks, and sheets, refills and crew are
those of the desks' entries alone. With --store-after that file is judged too, as it is after the run. With --stored, or
with --store 1 and no copy, the journal may begin with any entries that are answered right.

Of waves it finds by itself who is served, and why the others are left. The waves of the output have to be right ones of
just these: as many as are due, of one group, within --wave, by rank, in order, under the names that are due. Each
command is answered in its turn after the journal, and each start lies where a batching may cost it.

This is a plain program, written from the documents; nothing that it says is proved, and no promise of waveplan rests on
it. With --units the carts hold so many units.

Status: 0 where all is right, 1 where something is wrong, which is told, 2 where nothing can be judged.
"""

import os
import sys

from endings import RIGHT, WRONG, Trouble, Words, shortened, tell_usage
from opinion import answers, days, stores, waves
from opinion.refusals import MOST_BYTES, Refusal
from opinion.words import FILES, GIVEN, NUMBERS, OPTIONAL, Job, number

from . import store_keeping

KINDS = {'wave': 'waves', 'desks': 'plan', 'certificate': 'check', 'journal': 'audit'}
OF_A_MODE = {name for names in FILES.values() for name in names}
NUMBERS_OF_MODES = {**NUMBERS['plan'], **NUMBERS['waves']}


def bytes_of(name, most=MOST_BYTES + 1):
    """The bytes of a file up to the first that is too many, None where it can't be read."""
    try:
        with open(name, 'rb') as it:
            return it.read(most)
    except OSError:
        return None


def asked_words(words):
    known = Words('second-opinion')
    for name in (*sorted(OF_A_MODE), *NUMBERS_OF_MODES, 'store-before', 'store-after'):
        known.add_argument('--' + name)
    known.add_argument('--stored', action='store_true')
    known.add_argument('answer', nargs='*')
    asked = known.read(words)
    if os.path.basename((asked.answer or [''])[0]) == 'waveplan':
        asked.answer.pop(0)
    asked.mode = asked.answer.pop(0) if asked.answer[1:] and asked.answer[0] in KINDS.values() else None
    return asked


def numbers_of(asked):
    """The numbers of the words: those of a plan where they are left out, but for the capacity, which may be any then,
    and for the budget, which isn't told where the words may not be all those of the plan."""
    given = {name: getattr(asked, name) for name in NUMBERS_OF_MODES}
    try:
        found = {name: number(name, text, NUMBERS_OF_MODES[name]) for name, text in given.items() if text is not None}
    except Refusal as why:
        low, high = NUMBERS_OF_MODES[why.field]
        raise Trouble('--%s is a whole number from %d to %d, not %s'
                      % (why.field, low, high, shortened(why.text))) from None
    if 'budget' in found and 'nodes' in found:
        raise Trouble('--nodes stands in the place of --budget: give one of them')
    is_whole = asked.mode or any(name in found for name in ('budget', 'nodes', 'workers', 'store'))
    return {'capacity': None, **GIVEN, **({} if is_whole else {'budget': None}), **found}


def modes_of(asked):
    """The modes that the words may be of. Those of waves may name a journal, as those of an audit do."""
    modes = [mode for name, mode in KINDS.items() if getattr(asked, name)]
    return [mode for mode in modes if mode != 'audit'] if 'waves' in modes else modes


def is_lacking(mode, numbers):
    """Whether a number is missing that is never left out."""
    return mode == 'waves' and None in (numbers.get('wave'), numbers['capacity'])


def job_of(asked):
    """The job that was asked for, or None where the words don't say one."""
    modes = modes_of(asked)
    if len(modes) != 1 or len(asked.answer) != 1 or asked.mode not in (None, *modes):
        return None
    names, numbers = [name for name in FILES[modes[0]] if getattr(asked, name)], numbers_of(asked)
    if {*FILES[modes[0]]} - {*names} - {*OPTIONAL.get(modes[0], ())} or is_lacking(modes[0], numbers):
        return None
    if modes[0] == 'plan' and numbers['store'] and not asked.stored and asked.store_before is None:
        asked.store_before = store_keeping.BEFORE if os.path.lexists(store_keeping.BEFORE) else None
    has_store = asked.store_before is not None
    if has_store and (modes[0] != 'plan' or asked.stored or asked.store and not numbers['store']):
        return None
    if asked.store_after is not None and not has_store:
        return None
    asked.stored = asked.stored or numbers['store'] == 1 and not has_store
    return Job(modes[0], {name: getattr(asked, name) for name in names}, {**numbers, 'store': int(has_store)})


def right_line(files, mode):
    """The line that is due, which is None for a plan or waves whose files are read."""
    try:
        if mode in ('plan', 'waves'):
            answers.OF_MODES[mode](files)
            return None
        return (answers.check_of if mode == 'check' else answers.audit_of)(files)
    except Refusal as why:
        return why.line.encode() + b'\n'


def store_fault(asked, status, answer):
    """What is wrong with the store after a run, None where nothing is or it isn't asked for."""
    if asked.store_after is None:
        return None
    before, after = (bytes_of(name, stores.MOST_BYTES + 1) for name in (asked.store_before, asked.store_after))
    return stores.fault_after(before, after, status, answer)


def judged(asked, job, answer):
    """What is wrong with an answer, or None, and what was judged."""
    before = bytes_of(asked.store_before, stores.MOST_BYTES + 1) if asked.store_before is not None else b''
    files = answers.Files(job, bytes_of, answers.FULL, before)
    due = right_line(files, job.mode)
    if due is not None:
        wrong = None if answer == due else 'it says %r where %r is right' % (answer[:200], due)
        status = 6 if due.startswith(b'refused store ') else 2
        return wrong or store_fault(asked, status, answer), 'the line %s' % due.decode().strip()
    if job.mode == 'waves':
        return judged_waves(answers.waves_day_of(files), answer)
    opening = answers.opening_of(files)
    try:
        seen = days.judge(opening, answer, asked.stored)
    except days.Fault as why:
        return str(why), None
    shown = job.numbers
    told = (len(seen.entries), ', %d of them stored before' % seen.old if job.numbers['store'] else '', len(seen.waves),
            ' and their brackets' if shown['root'] else '', len(seen.batches),
            ', and what three rules walk' if shown['rules'] else '',
            sum(refill[0] >= seen.old for refill in seen.refills),
            ', a crew of %d' % shown['pickers'] if shown['pickers'] else '')
    form = '%d entries%s, %d sheets%s with %d batches and their tours%s, %d refills%s, and the stock'
    return store_fault(asked, 0, answer), form % told


def judged_waves(day, answer):
    """What is wrong with an output of waves, or None, and what was judged."""
    try:
        seen = waves.judge(day, answer)
    except days.Fault as why:
        return str(why), None
    orders = sum(len(wave) for _, wave in seen.waves)
    return None, '%d waves with %d orders and their starts, and %d orders that are left' % (len(seen.waves), orders,
                                                                                             seen.left)


def answer_of(asked):
    """The answer that is to be judged. Fails where there is none, or where nobody can judge it."""
    name, stored = asked.answer[0], (asked.store_before, asked.store_after)
    if name == '-' and sys.stdin is None:
        raise Trouble('standard input is closed')
    answer = sys.stdin.buffer.read() if name == '-' else bytes_of(name, -1)
    unread = [each for each in stored if each is not None and bytes_of(each, 1) is None]
    if answer is None or unread:
        raise Trouble('%s cannot be read' % (unread or [name])[0])
    if answer == stores.FAULT:
        raise Trouble('the run says that the disk of its store failed, and nothing tells whether it did')
    if asked.store and asked.stored and answer.startswith(b'refused store '):
        raise Trouble('the run refuses its store: name a copy of it from before the run with --store-before')
    return answer


def is_stored(asked, job, answer):
    """Whether nothing is said of a store, and the answer's journal begins with the records of the launcher's copy."""
    if job.mode != 'plan' or asked.stored or asked.store is not None or asked.store_before is not None:
        return False
    bodies = stores.records(bytes_of(store_keeping.BEFORE, stores.MOST_BYTES + 1) or b'')
    return bool(bodies) and answer.startswith(b'journal\n' + b''.join(bodies))


def main(words):
    asked = asked_words(words)
    job = None if asked.help else job_of(asked)
    if job is None:
        return tell_usage(__doc__, asked)
    answer = answer_of(asked)
    wrong, told = judged(asked, job, answer)
    if wrong and is_stored(asked, job, answer):
        asked.store_before = store_keeping.BEFORE
        wrong, told = judged(asked, job_of(asked), answer)
    print('wrong: %s' % wrong if wrong else 'right: %s' % told)
    return WRONG if wrong else RIGHT
