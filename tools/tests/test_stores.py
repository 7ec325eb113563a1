"""Tests of what the scripts make of a store: its records, days that go on from it, and faults that are planted in what
a run prints and leaves."""

import unittest
from pathlib import Path

import runs
from floor import output
from floor.trouble import Trouble
from opinion import days, layouts, stores, tables
from opinion.refusals import Refusal
from opinion.stock_book import Book

LAYOUT = '{"version":1,"aisles":3,"slots":4,"pitch":2,"clearance":1,"spacing":5,"depot":1}'
HEADING = 'desk,command,arguments\n'
SMALLEST = {'layout.json': LAYOUT, 'stock.csv': 'location,article,on_hand\n1-1-L,A,5\n',
            'orders.csv': 'order,article,quantity\nO1,A,2\n',
            'desks.csv': HEADING + '1,submit,W1,O1\n1,release,W1\n'}
SUBMIT, RELEASE = b'0 1 submit W1 O1 -> submitted\n', b'1 1 release W1 -> released\n'
ALLOT, CANCEL = b'1 1 allot W1 -> allotted\n', b'2 1 cancel W1 -> cancelled\n'
SHEET = '''wave W1 entry %d orders 1 capacity 2 cost 2 bound 2 proven
batch 1 length 2 orders O1
tour 1-0 1-1 1-0
pick 1-1-L A 2 O1
certificate {"capacity":2,"nodes":[{"duals":[120],"kind":"leaf","marks":"10","tight":[[0]]}],"orders":[[[1,1]]],\
"version":1}
end wave
'''
REST = 'refills\nend refills\nstock\n1-1-L A %s\nend stock\nend\n'
FIRST = 'journal\n0 1 submit W1 O1 -> submitted\n1 1 release W1 -> released\nend journal\n' + SHEET % 1 + REST % '5 3 2'
CANCELLED = ('journal\n0 1 submit W1 O1 -> submitted\n1 1 release W1 -> released\n2 1 cancel W1 -> cancelled\n'
             'end journal\n' + REST % '5 5 0')
RELEASED = ('journal\n0 1 submit W1 O1 -> submitted\n1 1 allot W1 -> allotted\n2 1 release W1 -> released\n'
            'end journal\n' + SHEET % 2 + REST % '5 3 2')
AGAIN = 'journal\n0 1 submit W1 O1 -> submitted\n1 1 release W1 -> released\nend journal\n' + REST % '5 3 2'
STOCK = tables.Stock([tables.StockRow(tables.Location(1, 1, 'L'), 'A', 5)], ['A'])
ORDERS = {'O1': [('A', 2)]}


def text_of(bodies):
    return [body[:-1].decode() for body in bodies]


class Records(unittest.TestCase):
    def test_the_smallest_day_has_68_bytes(self):
        data = stores.file_of([SUBMIT, RELEASE])
        self.assertEqual((68, [30, 27]), (len(data), [len(body) for body in stores.records(data)]))
        self.assertEqual(b'\x01\x00\x00\x00\x1e0 1 submit', data[:15])
        self.assertEqual((35, 67), (data.index(b'\x01\x00\x00\x00\x1b'), data.rindex(b'\x00')))

    def test_the_list_ends_where_no_record_stands(self):
        one, record = stores.file_of([SUBMIT])[:-1], stores.file_of([RELEASE])[:-1]
        for end in (b'', b'\0', b'\0' + record, b'\2' + record, b'\1', b'\1\0\0\0', b'\1\0\0\0\0a', b'\1\0\0\0\5ab',
                    b'\1\0\0\x20\1' + bytes(9000), b'\1\1\0\0\1a', record[:-1]):
            self.assertEqual([SUBMIT], stores.records(one + end), end[:20])
        self.assertEqual([SUBMIT, RELEASE], stores.records(one + record))
        self.assertEqual([SUBMIT, bytes(8192)], stores.records(one + b'\1\0\0\x20\0' + bytes(8192)))
        self.assertEqual([], stores.records(b''))

    def test_there_are_10_000_at_most(self):
        self.assertEqual(10000, len(stores.records(stores.file_of([b'a'] * 10001))))
        self.assertEqual(81970001, stores.MOST_BYTES)

    def refused(self, bodies, commands=0, units=None, data=None):
        try:
            stores.entries(stores.file_of(bodies) if data is None else data, Book(STOCK, ORDERS, units), commands)
        except Refusal as why:
            return why.status, why.line
        return None

    def test_what_is_refused_of_it(self):
        for bodies, due in (([SUBMIT[:-1]], 'record 0'), ([SUBMIT + b'\n'], 'record 0'), ([RELEASE], 'record 0'),
                            ([SUBMIT.replace(b'0 1', b'0 9')], 'record 0'), ([b'\xff'], 'record 0'),
                            ([SUBMIT, SUBMIT], 'record 1'),
                            ([SUBMIT, RELEASE.replace(b'released', b'allotted')],
                             'entry 1 printed allotted right released'),
                            ([SUBMIT.replace(b'submitted', b'released'), CANCEL],
                             'entry 0 printed released right submitted'),
                            ([CANCEL, RELEASE.replace(b'released', b'allotted')], 'record 0')):
            self.assertEqual((6, 'refused store ' + due), self.refused(bodies), bodies)
        self.assertIsNone(self.refused([SUBMIT, RELEASE, CANCEL]))
        self.assertEqual((6, 'refused store entry 0 printed submitted right refused over-cart O1 2'),
                         self.refused([SUBMIT], units=1))
        self.assertEqual((6, 'refused store too-long'), self.refused([], data=bytes(stores.MOST_BYTES + 1)))
        self.assertIsNone(self.refused([], data=bytes(stores.MOST_BYTES)))

    def test_entries_and_commands_are_10_000_at_most(self):
        full = [b'%d 1 cancel W1 -> refused unknown-wave\n' % number for number in range(10000)]
        for bodies, commands, due in ((full, 0, None), (full, 1, 10001), (full[:9998], 2, None),
                                      (full[:9998], 3, 10001), ([], 10000, None), (full, 10000, 20000)):
            self.assertEqual(due and (6, 'refused store entries %d' % due), self.refused(bodies, commands),
                             (len(bodies), commands))

    def test_what_a_run_leaves(self):
        before, after = stores.file_of([SUBMIT]), stores.file_of([SUBMIT, RELEASE])
        journal = b'journal\n' + SUBMIT + RELEASE + b'end journal\nrefills\n'
        for left, status, right in ((after, 0, True), (before, 0, False), (after + b'\0', 0, False),
                                    (after[:-1], 0, False), (None, 0, False),
                                    (before, 6, True), (after, 6, False), (before, 2, True), (after, 2, False)):
            self.assertEqual(right, stores.fault_after(before, left, status,
                                                       journal if status == 0 else b'refused') is None, (left, status))
        self.assertIsNone(stores.fault_after(before + b'noise', before, 6, b''))
        self.assertIsNotNone(stores.fault_after(before + b'noise', before, 2, b''))
        self.assertIsNone(stores.fault_after(None, None, 2, b''))
        self.assertIsNotNone(stores.fault_after(None, b'\0', 2, b''))


class StoredDays(unittest.TestCase):
    """Days that go on from a store, worked out by hand, and what may be wrong with them."""

    OPENING = days.Opening(layouts.read_layout(LAYOUT.encode()), STOCK, ORDERS, {}, 2, None)

    def fault(self, text, stored, *commands):
        try:
            days.judge(self.OPENING._replace(scripts={1: list(commands)} if commands else {}, stored=text_of(stored)),
                       text.encode())
        except days.Fault as why:
            return str(why)
        return None

    def test_they_are_right(self):
        self.assertIsNone(self.fault(FIRST, [], ('submit', 'W1', 'O1'), ('release', 'W1')))
        self.assertIsNone(self.fault(CANCELLED, [SUBMIT, RELEASE], ('cancel', 'W1')))
        self.assertIsNone(self.fault(RELEASED, [SUBMIT, ALLOT], ('release', 'W1')))
        self.assertIsNone(self.fault(AGAIN, [SUBMIT, RELEASE]))

    def test_the_sheet_of_a_stored_release_is_wrong(self):
        text = CANCELLED.replace('refills\nend', SHEET.replace('proven', 'proven cancelled later') % 1 + 'refills\nend')
        self.assertRegex(self.fault(text, [SUBMIT, RELEASE], ('cancel', 'W1')) or 'nothing found', "'refills' is due")
        self.assertRegex(self.fault(FIRST, [SUBMIT, RELEASE]) or 'nothing found', "'refills' is due")
        self.assertRegex(self.fault(RELEASED.replace(SHEET % 2, ''), [SUBMIT, ALLOT], ('release', 'W1'))
                         or 'nothing found', 'heading')

    def test_a_journal_without_what_was_stored_is_wrong(self):
        alone = 'journal\n0 1 cancel W1 -> refused unknown-wave\nend journal\n' + REST % '5 5 0'
        self.assertRegex(self.fault(alone, [SUBMIT, RELEASE], ('cancel', 'W1')), 'where .* was stored')
        self.assertRegex(self.fault(alone.replace('0 1', '2 1'), [SUBMIT, RELEASE], ('cancel', 'W1')), 'number')
        self.assertRegex(self.fault('journal\nend journal\n' + REST % '5 5 0', [SUBMIT, RELEASE]), '-2 commands more')
        self.assertRegex(self.fault(CANCELLED, [SUBMIT, RELEASE]),
                         '1 commands more than the desks gave and the store had')
        self.assertRegex(self.fault(CANCELLED, [], ('cancel', 'W1')), '2 commands more than the desks gave$')

    def test_another_stored_entry_or_another_stock_is_wrong(self):
        self.assertRegex(self.fault(CANCELLED.replace('1 1 release', '1 2 release'), [SUBMIT, RELEASE],
                                    ('cancel', 'W1')), "entry 1 is '1 2 release")
        self.assertRegex(self.fault(CANCELLED, [SUBMIT, ALLOT], ('cancel', 'W1')),
                         "where '1 1 allot W1 -> allotted' was stored")
        self.assertRegex(self.fault(CANCELLED.replace('5 5 0', '5 3 2'), [SUBMIT, RELEASE], ('cancel', 'W1')),
                         "'1-1-L A 5 5 0' is due")
        self.assertRegex(self.fault(AGAIN.replace('5 3 2', '5 5 0'), [SUBMIT, RELEASE]), "'1-1-L A 5 3 2' is due")


class Scripts(unittest.TestCase):
    """The scripts over files that were written by hand."""

    def setUp(self):
        self.folder = runs.put(Path(runs.shelf().name) / 'stores', {
            **SMALLEST, 'before': stores.file_of([SUBMIT, RELEASE]), 'after': stores.file_of([SUBMIT, RELEASE, CANCEL]),
            'cancel.csv': HEADING + '1,cancel,W1\n',
            'first.txt': FIRST, 'second.txt': CANCELLED, 'again.txt': AGAIN})

    def judged(self, answer, desks='cancel.csv', before='before', *more):
        names = {**dict(zip(('layout', 'stock', 'orders'), runs.FILES)), 'desks': desks}
        words = [word for name, file in names.items() for word in ('--' + name, self.folder / file)]
        return runs.script('second-opinion', *words, '--capacity', '2', '--store-before',
                           before if before == '/dev/null' else self.folder / before, *more, '-', given=answer.encode())

    def test_a_second_opinion_on_a_stored_day(self):
        for words, status, told in (((CANCELLED,), 0, 'right: 3 entries, 2 of them stored before, 0 sheets'),
                                    ((FIRST, 'desks.csv', '/dev/null'), 0, '0 of them stored before, 1 sheets'),
                                    ((CANCELLED, 'cancel.csv', '/dev/null'), 1, '2 commands more'),
                                    ((FIRST, 'desks.csv', 'before'), 1, 'wrong: '),
                                    (('store fault\n',), 2, ''), (('refused store record 0\n',), 1, 'wrong: ')):
            done = self.judged(*words)
            self.assertEqual(status, done.status, (words, done.output, done.errors))
            self.assertIn(told, done.output)

    def test_a_second_opinion_finds_the_copy_of_the_launcher(self):
        files = {**dict(zip(('layout', 'stock', 'orders'), runs.FILES)), 'desks': 'cancel.csv'}
        words = [word for name, file in files.items() for word in ('--' + name, self.folder / file)]
        here = runs.put(self.folder / 'here', {stores.NAME + '.before': stores.file_of([SUBMIT, RELEASE])})
        elsewhere = runs.put(self.folder / 'elsewhere', {})
        for folder, more, status, finds in ((here, '', 0, True), (here, '--store 1', 0, True),
                                            (here, '--store 0', 1, False), (here, '--stored', 0, False),
                                            (elsewhere, '', 1, False), (elsewhere, '--store 1', 0, False)):
            more = ['--capacity', '2', *more.split(), '-']
            done = runs.script('second-opinion', *words, *more, given=CANCELLED.encode(), folder=folder)
            self.assertEqual(status, done.status, (folder, more, done.output, done.errors))
            self.assertEqual(finds, '2 of them stored before' in done.output)

    def test_a_second_opinion_on_what_is_left(self):
        for after, status in (('after', 0), ('before', 1)):
            done = self.judged(CANCELLED, 'cancel.csv', 'before', '--store-after', self.folder / after)
            self.assertEqual(status, done.status, done.output)
        self.assertEqual(2, self.judged(CANCELLED, 'cancel.csv', 'before', '--store-after',
                                        self.folder / 'nothing').status)
        self.assertEqual(2, self.judged(CANCELLED, 'cancel.csv', 'before', '--stored').status)

    def test_a_second_opinion_on_a_store_that_is_refused(self):
        runs.put(self.folder, {'bad': stores.file_of([SUBMIT, RELEASE, b'no\n']),
                               'wrong': stores.file_of([SUBMIT, RELEASE.replace(b'released', b'allotted')])})
        for before, line in (('bad', 'record 2'), ('wrong', 'entry 1 printed allotted right released')):
            self.assertEqual(0, self.judged('refused store %s\n' % line, 'cancel.csv', before).status)
            self.assertEqual(1, self.judged(CANCELLED, 'cancel.csv', before).status)
            self.assertEqual(1, self.judged('refused store record 1\n', 'cancel.csv', before).status)

    def test_waves_of_earlier_runs_are_told(self):
        page = runs.script('sheets', '--layout', self.folder / 'layout.json', self.folder / 'second.txt')
        self.assertEqual((0, ''), (page.status, page.errors))
        self.assertIn('No wave went out in this run.', page.output)
        self.assertIn('have printed their sheets: W1 (<b>cancelled later</b>).', page.output)
        self.assertIn('have printed their sheets: W1.', runs.script('sheets', '--layout', self.folder / 'layout.json',
                                                                    self.folder / 'again.txt').output)
        self.assertNotIn('earlier runs', runs.script('sheets', '--layout', self.folder / 'layout.json',
                                                     self.folder / 'first.txt').output)
        done = runs.script('compare', self.folder / 'first.txt', self.folder / 'again.txt')
        self.assertIn('W1: has its sheet only in the first\n', done.output)
        self.assertIn('W1: has its sheet only in the second\n',
                      runs.script('compare', self.folder / 'again.txt', self.folder / 'first.txt').output)

    def test_a_wave_of_an_earlier_run_is_confirmed(self):
        done = runs.script('confirm', self.folder / 'again.txt', 'W1')
        self.assertEqual(2, done.status)
        self.assertIn('went out in an earlier run', done.errors)
        done = runs.script('confirm', self.folder / 'again.txt', 'W1', '--earlier', self.folder / 'first.txt')
        self.assertEqual((0, '1,pick,W1,O1,1-1-L,2\n'), (done.status, done.output), done.errors)
        done = runs.script('confirm', self.folder / 'second.txt', 'W1', '--earlier', self.folder / 'first.txt')
        self.assertIn('was cancelled later', done.errors)
        with self.assertRaisesRegex(Trouble, 'of no earlier run'):
            output.with_earlier(output.read_output(str(self.folder / 'first.txt')), [str(self.folder / 'second.txt')])

    def test_refills_of_earlier_runs_are_confirmed(self):
        missing = (FIRST.split('end journal')[0] + '2 1 missing W1 O1 1-1-L 2 -> refilled 2\n'
                   '3 1 pick W1 O1 2-1-L 1 -> picked\nend journal\nrefills\nend refills\nstock\nend stock\nend\n')
        second = missing.replace('3 1 pick W1 O1 2-1-L 1 -> picked\n', '').replace('refills\nend', 'refills\nrefill 2 '
                                                                                   'W1 O1 2-1-L 2\nend')
        runs.put(self.folder, {'missing.txt': missing, 'refilled.txt': second})
        done = runs.script('confirm', self.folder / 'missing.txt', 'W1', '--earlier', self.folder / 'first.txt',
                           '--earlier', self.folder / 'refilled.txt')
        self.assertEqual((0, '1,pick,W1,O1,2-1-L,1\n'), (done.status, done.output), done.errors)

    def test_the_commands_of_all_runs_are_written(self):
        self.assertEqual(HEADING + '1,submit,W1,O1\n1,release,W1\n1,cancel,W1\n',
                         runs.script('continue', self.folder / 'second.txt').output)
        self.assertIn('1-1-L,A,5\n', runs.script('closing-stock', self.folder / 'second.txt', '--free').output)


class Program(unittest.TestCase):
    """The program over a real store."""

    WORDS = [*(word for name in runs.FILES for word in ('--' + name.split('.')[0], name)), '--capacity', '2']

    def setUp(self):
        self.folder = runs.put(Path(runs.shelf().name) / 'program', SMALLEST)
        self.store = self.folder / stores.NAME
        self.store.unlink(missing_ok=True)

    def planned(self, *more):
        return runs.waveplan('plan', *self.WORDS, *more, folder=self.folder)

    def judged(self, before, answer):
        runs.put(self.folder, {'before': before})
        more = ('--store-before', 'before', '--store-after', stores.NAME, '-')
        return runs.script('second-opinion', *self.WORDS, *more, given=answer, folder=self.folder)

    def test_days_by_hand(self):
        for before, desks, due, after in (([], SMALLEST['desks.csv'], FIRST, [SUBMIT, RELEASE]),
                                          ([SUBMIT, RELEASE], HEADING + '1,cancel,W1\n', CANCELLED,
                                           [SUBMIT, RELEASE, CANCEL]),
                                          ([SUBMIT, ALLOT], HEADING + '1,release,W1\n', RELEASED,
                                           [SUBMIT, ALLOT, b'2 1 release W1 -> released\n']),
                                          ([SUBMIT, RELEASE], HEADING, AGAIN, [SUBMIT, RELEASE])):
            runs.put(self.folder, {'desks.csv': desks, stores.NAME: stores.file_of(before)})
            done = self.planned('--store', '1')
            self.assertEqual((0, due), (done.status, done.output))
            self.assertEqual(stores.file_of(after), self.store.read_bytes())
            judged = self.judged(stores.file_of(before), done.bytes)
            self.assertEqual(0, judged.status, judged.output)

    def test_without_the_option_there_is_no_store(self):
        for more in ((), ('--store', '0')):
            self.assertEqual(FIRST, self.planned(*more).output)
            self.assertFalse(self.store.exists())
        self.store.write_bytes(b'something')
        self.assertEqual(FIRST, self.planned().output)
        self.assertEqual(b'something', self.store.read_bytes())

    def test_what_is_refused_is_explained(self):
        full = [b'%d 1 cancel W1 -> refused unknown-wave\n' % number for number in range(10000)]
        for data, line, told in ((stores.file_of([SUBMIT, b'no\n']), 'refused store record 1',
                                  'not the line of the entry of this number'),
                                 (stores.file_of([SUBMIT[:-1]]), 'refused store record 0', 'no line feed at its end'),
                                 (stores.file_of([SUBMIT, RELEASE.replace(b'released', b'refused short A 2 1')]),
                                  'refused store entry 1 printed refused short A 2 1 right released',
                                  'not those with which the store was begun'),
                                 (stores.file_of([SUBMIT.replace(b'submitted', b'refused over-cart O1 2')]),
                                  'refused store entry 0 printed refused over-cart O1 2 right submitted',
                                  'these words say none'),
                                 (stores.file_of(full), 'refused store entries 10002', 'the store has 10000 entries'),
                                 (bytes(stores.MOST_BYTES + 1), 'refused store too-long', '81,970,001 bytes')):
            self.store.write_bytes(data)
            explained = runs.script('explain', 'plan', *self.WORDS, '--store', '1', folder=self.folder)
            self.assertEqual(data, self.store.read_bytes())
            done = self.planned('--store', '1')
            self.assertEqual((6, line + '\n'), (done.status, done.output))
            self.assertEqual((1, line), (explained.status, explained.output.splitlines()[0]), explained.errors)
            self.assertIn(told, explained.output)
            self.assertRegex(explained.output, r'cure     \S')
        self.store.unlink()
        done = runs.script('explain', 'plan', *self.WORDS, '--store', '1', folder=self.folder)
        self.assertEqual(0, done.status)
        self.assertIn('where the run said `store fault`', done.output)
        self.assertFalse(self.store.exists())

    def test_a_store_that_is_a_folder_is_explained(self):
        self.store.mkdir()
        done, explained = self.planned('--store', '1'), runs.script('explain', 'plan', *self.WORDS, '--store', '1',
                                                                    folder=self.folder)
        self.store.rmdir()
        self.assertEqual((7, 'store fault\n'), (done.status, done.output))
        self.assertEqual((1, 'store fault'), (explained.status, explained.output.splitlines()[0]), explained.errors)
        self.assertIn('it is a folder', explained.output)

    def test_a_stored_day_is_played_again(self):
        first, more = runs.EXAMPLES / 'one-wave', HEADING + '1,cancel,THU\n'
        runs.put(self.folder, {name: (first / name).read_bytes() for name in runs.FILES})
        one = self.planned('--store', '1')
        runs.put(self.folder, {'desks.csv': more})
        two = self.planned('--store', '1')
        self.assertEqual((0, 0), (one.status, two.status))
        again = runs.script('continue', '-', given=two.bytes).output
        runs.put(self.folder, {'two.txt': two.output, 'desks.csv': again})
        again = self.planned()
        self.assertEqual(two.output.split('end journal')[0], again.output.split('end journal')[0])
        self.assertEqual(two.output.split('\nstock\n')[1], again.output.split('\nstock\n')[1])
        self.assertEqual(one.output.count('\nwave '), again.output.count('\nwave '))


if __name__ == '__main__':
    unittest.main()
