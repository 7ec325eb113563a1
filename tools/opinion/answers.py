"""What a run is to answer to its words and files, and whether what it did answer is right."""

import re

from . import certificates, days, journals, layouts, making, stores, tables, waves
from .refusals import Refusal, whole
from .stock_book import Book
from .words import SHOWN_NUMBERS, read_words

# What a program knows: the versions of layouts, and whether orders may be too much for a cart.
FULL = {'versions': (1, 2), 'over_cart': True}


class Files:
    """The files of a run, by the names that the words give: `read` gives the bytes of a name, None where it can't be
    read. `before` has the bytes of the store before the run, none where there was no such file, and is None where it
    can't be read or written."""

    def __init__(self, job, read, knows, before=b''):
        self.job, self.reader, self.knows, self.before = job, read, knows, before

    def bytes(self, name):
        return whole(name, lambda: self.reader(self.job.files[name]))

    def layout(self):
        return layouts.read_layout(self.bytes('layout'), self.knows['versions'])

    def opening(self):
        """The layout, the stock and the orders, in the order in which they are tested."""
        layout = self.layout()
        stock = tables.read_stock(self.bytes('stock'), layout)
        return layout, stock, tables.read_orders(self.bytes('orders'), stock)

    def stored(self, stock, orders, scripts):
        """The lines of the entries with which a day begins. The store is tested after the four files."""
        if not self.job.numbers.get('store'):
            return ()
        book = Book(stock, orders, self.job.numbers.get('units'))
        return stores.entries(self.before, book, sum(map(len, scripts.values())), self.knows['over_cart'])


def opening_of(files):
    """What the four files of a plan and its store say. Fails with the first that is refused."""
    layout, stock, orders = files.opening()
    scripts = tables.read_desks(files.bytes('desks'))
    numbers = files.job.numbers
    shown = {name: numbers.get(name, 0) for name in SHOWN_NUMBERS}
    stored = files.stored(stock, orders, scripts)
    return days.Opening(layout, stock, orders, scripts, numbers['capacity'], numbers.get('units'), **shown,
                        stored=stored,
                        budget=numbers['budget'], nodes=numbers.get('nodes'))


def check_of(files):
    """The line that a check is to print."""
    layout = files.layout()
    found = certificates.read_certificate(files.bytes('certificate'), layout)
    return b'bound %d\n' % certificates.bound_of(layout, found)


def audit_of(files):
    """The line that an audit is to print."""
    _, stock, orders = files.opening()
    book = Book(stock, orders, files.job.numbers.get('units'))
    return b'audit %d entries\n' % journals.audit(files.bytes('journal'), book, files.knows['over_cart'])


def waves_day_of(files):
    """What the files of `waves` say. Fails with the first that is refused, or where the journal isn't right."""
    layout, stock, orders = files.opening()
    book, named, entries = Book(stock, orders, files.job.numbers.get('units')), files.job.files, 0
    listed = [waves.Open(*each) for each in tables.read_open(files.bytes('open'), orders)] if 'open' in named else None
    if 'journal' in named:
        entries = journals.audit(files.bytes('journal'), book, files.knows['over_cart'])
    listed = waves.open_without(book) if listed is None else listed
    return waves.Day(layout, book, entries, listed, files.job.numbers)


def refusal_of(words, read, knows=None, before=b''):
    """The first thing that is wrong with the words and files of a run, and with its store before it, None where nothing
    is."""
    try:
        job = read_words(words)
        files = Files(job, read, knows or FULL, before)
        OF_MODES[job.mode](files)
    except Refusal as why:
        return why
    return None


def faults(words, read, status, output, knows=None, before=b''):
    """What is wrong with the status and the output of a run, one text for each fault: none where it is right."""
    knows = knows or FULL
    try:
        job = read_words(words)
        files = Files(job, read, knows, before)
        if job.mode == 'plan':
            return _faults_of_plan(files, status, output)
        if job.mode == 'make':
            return _faults_of_make(job, status, output)
        if job.mode == 'waves':
            return _faults_of_waves(files, status, output)
        right = (check_of if job.mode == 'check' else audit_of)(files)
    except Refusal as why:
        return _differs((why.status, why.line.encode() + b'\n'), (status, output))
    return _differs((0, right), (status, output))


def _differs(right, found):
    return [] if right == found else ['status %s and %r where status %s and %r is right'
                                      % (found[0], found[1][:200], right[0], right[1][:200])]


def _faults_of_plan(files, status, output):
    opening = opening_of(files)
    if status != 0:
        return ['status %s and %r where a plan is due' % (status, output[:200])]
    try:
        days.judge(opening, output)
    except days.Fault as why:
        return [str(why)]
    return []


def _faults_of_waves(files, status, output):
    day = waves_day_of(files)
    if status != 0:
        return ['status %s and %r where waves are due' % (status, output[:200])]
    try:
        waves.judge(day, output)
    except days.Fault as why:
        return [str(why)]
    return []


def _faults_of_make(job, status, output):
    if status != 0:
        return ['status %s and %r where a summary is due' % (status, output[:200])]
    found = re.fullmatch(rb'(made [^\n]*)\n(commands [^\n]*)\ncost (\d{1,40}) bound (\d{1,40}) proven (\d{1,40})\n',
                         output)
    if not found:
        return ['no summary: %r' % output[:200]]
    return list(making.faults(job.numbers, [each.decode() for each in found.groups()[:2]],
                              [int(each) for each in found.groups()[2:]]))


# What goes through the words and files of each mode.
OF_MODES = {'plan': opening_of, 'check': check_of, 'audit': audit_of, 'make': lambda files: None,
            'waves': waves_day_of}
