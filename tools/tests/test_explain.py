"""Tests of what is explained of refused words and files. The first line is held against the program's own."""

import unittest

import runs

LAYOUT = '{"version":1,"aisles":3,"slots":4,"pitch":2,"clearance":1,"spacing":5,"depot":1}'
STOCK = 'location,article,on_hand\n1-1-L,A,5\n'
ORDERS = 'order,article,quantity\nO1,A,2\n'
DESKS = 'desk,command,arguments\n1,submit,W1,O1\n1,release,W1\n'
RIGHT = {'layout.json': LAYOUT, 'stock.csv': STOCK, 'orders.csv': ORDERS, 'desks.csv': DESKS}

# A file with a mistake, the line that refuses it, and words of what is explained.
FILES = [
    ('layout.json', LAYOUT + ',', 'layout not-json', 'comma too many'),
    ('layout.json', '[]', 'layout not-object', 'put the keys into'),
    ('layout.json', LAYOUT.replace('"depot"', '"depo"'), 'layout missing-key depot', 'key      depot'),
    ('layout.json', LAYOUT.replace('}', ',"name":1}'), 'layout unknown-key', 'key      name'),
    ('layout.json', LAYOUT.replace('"pitch":2', '"pitch":2.5'), 'layout not-whole pitch', 'pitch: 2.5'),
    ('layout.json', LAYOUT.replace('"aisles":3', '"aisles":99'), 'layout out-of-range aisles', 'aisles: 99'),
    ('stock.csv', '', 'stock row 1 columns', 'it is empty'),
    ('stock.csv', STOCK.replace(',', ';'), 'stock row 1 columns', 'semicolons stand between'),
    ('stock.csv', STOCK.replace(',', '\t'), 'stock row 1 columns', 'tabs stand between'),
    ('stock.csv', STOCK.replace('location', 'Location'), 'stock row 1 columns', 'letter by letter'),
    ('stock.csv', STOCK.replace('location,', 'location, '), 'stock row 1 columns', 'blanks'),
    ('stock.csv', 'My stock\n' + STOCK, 'stock row 1 columns', 'a title stands above'),
    ('stock.csv', 'sep=,\n' + STOCK, 'stock row 1 columns', 'a note to a spreadsheet'),
    ('stock.csv', STOCK.replace('on_hand', 'on_hand,name'), 'stock row 1 columns', 'a column too many'),
    ('stock.csv', 'article,location,on_hand\nA,1-1-L,5\n', 'stock row 1 columns', 'in another order'),
    ('stock.csv', ORDERS, 'stock row 1 columns', 'it is a file of orders'),
    ('stock.csv', STOCK.encode('utf-16'), 'stock row 1 columns', 'UTF-16'),
    ('stock.csv', b'PK\x03\x04' + bytes(40), 'stock row 1 columns', 'a workbook'),
    ('stock.csv', b'\xef\xbb\xbf\xef\xbb\xbf' + STOCK.encode(), 'stock row 1 columns', 'two byte order marks'),
    ('stock.csv', STOCK + '1-2-L;B;5\n', 'stock row 3 columns', 'semicolons stand between'),
    ('stock.csv', STOCK + '1-2-L,B,1,200\n', 'stock row 3 columns', 'a comma sets thousands apart'),
    ('stock.csv', STOCK + '1-2-L,"B,5\n', 'stock row 3 columns', 'a quote is opened'),
    ('stock.csv', STOCK + '1-2-L,B\n', 'stock row 3 columns', 'it has 2 fields'),
    ('stock.csv', STOCK.encode() + b'1-2-L,\xff,5\n', 'stock row 3 not-utf8', 'no UTF-8'),
    ('stock.csv', STOCK + '1-2-l,B,5\n', 'stock row 3 bad-name', 'its side is a small letter'),
    ('stock.csv', STOCK + ' 1-2-L,B,5\n', 'stock row 3 bad-name', 'a blank stands before'),
    ('stock.csv', STOCK + '2001-02-03,B,5\n', 'stock row 3 bad-name', 'made a date of it'),
    ('stock.csv', STOCK + 'Total,,5\n', 'stock row 3 bad-name', 'a row of totals'),
    ('stock.csv', STOCK + '1-2-L,B C,5\n', 'stock row 3 bad-name', 'field    2, article: "B C"'),
    ('stock.csv', STOCK + '1-2-L,%s,5\n' % ('B' * 41), 'stock row 3 bad-name', '41 characters'),
    ('stock.csv', STOCK + '1-2-L,,5\n', 'stock row 3 bad-name', 'it is empty'),
    ('stock.csv', STOCK + '9-2-L,B,5\n', 'stock row 3 unknown-location', 'aisles 1 to 3 with slots 1 to 4'),
    ('stock.csv', STOCK + '01-01-L,B,5\n', 'stock row 3 location-twice', 'record 2 has it too'),
    ('stock.csv', STOCK + '1-2-L,B,5.0\n', 'stock row 3 bad-number', 'a decimal point'),
    ('stock.csv', STOCK + '1-2-L,B,"1.200"\n', 'stock row 3 bad-number', 'thousands are set apart'),
    ('stock.csv', STOCK + '1-2-L,B,-5\n', 'stock row 3 bad-number', 'below 0'),
    ('stock.csv', STOCK + '1-2-L,B,#REF!\n', 'stock row 3 bad-number', 'an error of the spreadsheet'),
    ('stock.csv', STOCK + '1-2-L,B,1000001\n', 'stock row 3 out-of-range', '0 to 1,000,000'),
    ('stock.csv', '\n\n' + STOCK + '\n1-2-L,B,x\n', 'stock row 3 bad-number', 'line 6 of the file'),
    ('orders.csv', ORDERS + 'O1,a,2\n', 'orders row 3 unknown-article', 'perhaps A is meant'),
    ('orders.csv', ORDERS + 'O1,A,0\n', 'orders row 3 out-of-range', '1 to 100,000'),
    ('orders.csv', ORDERS + 'O1,A,1\n' * 50, 'orders row 52 too-many-lines', 'divide the order'),
    ('desks.csv', DESKS + '9,release,W1\n', 'desks row 4 desk-number', 'eight desks at most'),
    ('desks.csv', DESKS + '1,Release,W1\n', 'desks row 4 unknown-command', 'perhaps release'),
    ('desks.csv', DESKS + '1,pick,W1,O1,1-1-L\n', 'desks row 4 columns', 'DESK,pick,WAVE,ORDER,LOCATION,QUANTITY'),
    ('desks.csv', DESKS + '1,pick,W1,O1,1-1,2\n', 'desks row 4 bad-name', 'field    5, location: "1-1"'),
    ('desks.csv', DESKS + '1,submit,W 2,O1\n', 'desks row 4 bad-name', 'a blank'),
]

WORDS = [
    ('', 'words no-mode', None),
    ('plann', 'words unknown-mode', 'begin with one of them'),
    ('plan --layout layout.json --stock stock.csv --orders orders.csv --desks desks.csv', 'words bad-words',
     'option   --capacity'),
    ('plan --layout layout.json --stock stock.csv --orders orders.csv --desks desks.csv --capacity 9',
     'words bad-words', 'from 1 to 8'),
    ('plan --layout layout.json --stock stock.csv --orders orders.csv --desks desks.csv --capacity 2 --units 0',
     'words bad-words', 'from 1 to 40000000'),
    ('plan --layout layout.json --stock stock.csv --orders orders.csv --desks desks.csv --capacity 2 --unit 5',
     'words bad-words', 'perhaps --units'),
    ('audit --layout layout.json --stock stock.csv --orders orders.csv --journal stock.csv --units 1.5',
     'words bad-words', 'option   --units 1.5'),
    ('check --layout layout.json --certificate stock.csv --units 5', 'words bad-words', 'no option of check'),
    ('make --number 1 --aisles 2 --orders 5 --desks 1 --wave 1 --capacity 1 --units 5', 'words bad-words',
     'no option of make'),
    ('plan --layout layout.json --stock stock.csv --orders orders.csv --desks desks.csv --capacity 2 --rules 2',
     'words bad-words', 'from 0 to 1'),
    ('plan --layout layout.json --stock stock.csv --orders orders.csv --desks desks.csv --capacity 2 --rules yes',
     'words bad-words', 'option   --rules yes'),
    ('plan --layout layout.json --stock stock.csv --orders orders.csv --desks desks.csv --capacity 2 --rules 1 '
     '--rules=1', 'words bad-words', 'it stands twice'),
    ('plan --layout layout.json --stock stock.csv --orders orders.csv --desks desks.csv --capacity 2 --pickers 101',
     'words bad-words', 'from 0 to 100'),
    ('plan --layout layout.json --stock stock.csv --orders orders.csv --desks desks.csv --capacity 2 --pickers',
     'words bad-words', 'it is left out, or has no value'),
    ('plan --layout layout.json --stock stock.csv --orders orders.csv --desks desks.csv --capacity 2 --picker 4',
     'words bad-words', 'perhaps --pickers'),
    ('plan --layout layout.json --stock stock.csv --orders orders.csv --desks desks.csv --capacity 2 --root 2',
     'words bad-words', 'from 0 to 1'),
    ('plan --layout layout.json --stock stock.csv --orders orders.csv --desks desks.csv --capacity 2 --root',
     'words bad-words', 'it is left out, or has no value'),
    ('plan --layout layout.json --stock stock.csv --orders orders.csv --desks desks.csv --capacity 2 --root 1 --root=0',
     'words bad-words', 'it stands twice'),
    ('plan --layout layout.json --stock stock.csv --orders orders.csv --desks desks.csv --capacity 2 --roots 1',
     'words bad-words', 'perhaps --root'),
    ('plan --layout layout.json --stock stock.csv --orders orders.csv --desks desks.csv --capacity 2 --store 2',
     'words bad-words', 'from 0 to 1'),
    ('plan --layout layout.json --stock stock.csv --orders orders.csv --desks desks.csv --capacity 2 --store 1 '
     '--store 1', 'words bad-words', 'it stands twice'),
    ('plan --layout layout.json --stock stock.csv --orders orders.csv --desks desks.csv --capacity 2 --stores 1',
     'words bad-words', 'perhaps --stor'),
    ('audit --layout layout.json --stock stock.csv --orders orders.csv --journal stock.csv --store 1',
     'words bad-words', 'no option of audit'),
    ('make --number 1 --aisles 2 --orders 5 --desks 1 --wave 1 --capacity 1 --store 1', 'words bad-words',
     'no option of make'),
    ('check --layout layout.json --certificate stock.csv --rules 1', 'words bad-words', 'no option of check'),
    ('check --layout layout.json --certificate stock.csv --root 1', 'words bad-words', 'no option of check'),
    ('audit --layout layout.json --stock stock.csv --orders orders.csv --journal stock.csv --root 0', 'words bad-words',
     'no option of audit'),
    ('make --number 1 --aisles 2 --orders 5 --desks 1 --wave 1 --capacity 1 --root 1', 'words bad-words',
     'no option of make'),
    ('audit --layout layout.json --stock stock.csv --orders orders.csv --journal stock.csv --pickers 4',
     'words bad-words', 'no option of audit'),
    ('make --number 1 --aisles 2 --orders 5 --desks 1 --wave 1 --capacity 1 --pickers 0', 'words bad-words',
     'no option of make'),
    ('plan --layout layout.json --stok stock.csv --orders orders.csv --desks desks.csv --capacity 2', 'words bad-words',
     'perhaps --stock'),
    ('plan --layout layout.json --stock my stock.csv --orders orders.csv --desks desks.csv --capacity 2',
     'words bad-words', 'a name with spaces into quotes'),
    ('plan --layout layout.json --stock stok.csv --orders orders.csv --desks desks.csv --capacity 2',
     'read fault stock', 'perhaps stock.csv'),
    ('plan --layout . --stock stock.csv --orders orders.csv --desks desks.csv --capacity 2', 'read fault layout',
     'it is a folder'),
    ('check --layout layout.json --certificate stock.csv', 'certificate not-json', 'not JSON'),
    ('check --layout layout.json --certificate layout.json', 'certificate bad-shape', 'form of a certificate'),
    ('audit --layout layout.json --stock stock.csv --orders orders.csv --journal stock.csv', 'journal line 1',
     'it is a file of stock'),
    ('make --number 1 --aisles 2 --orders 501 --desks 1 --wave 1 --capacity 1', 'words too-many-waves 501',
     'fewer orders'),
]
OPEN = 'order,group,rank\nO1,W,0\n'
# An open file with a mistake, the line that refuses it, and words of what is explained.
OPEN_FILES = [
    (STOCK, 'open row 1 columns', 'it is a file of stock'),
    (OPEN + 'O1,W\n', 'open row 3 columns', 'it should have 3: order,group,rank'),
    (OPEN + 'O11,W,0\n', 'open row 3 unknown-order', 'perhaps O1 is meant'),
    (OPEN + 'O1,W,0\n', 'open row 3 order-twice', 'record 2 names it too'),
    (OPEN.replace('W', 'g' * 33), 'open row 2 bad-name', 'the name of a group has at most 32'),
    (OPEN.replace('W', 'g' * 41), 'open row 2 bad-name', 'it has 41 characters'),
    (OPEN.replace('W', ''), 'open row 2 bad-name', 'field    2, group: ""'),
    (OPEN.replace(',0', ',-1'), 'open row 2 bad-number', 'below 0'),
    (OPEN.replace(',0', ',1000000001'), 'open row 2 out-of-range', 'ranks 0 to 1,000,000,000'),
]
WAVES = 'waves --layout layout.json --stock stock.csv --orders orders.csv --wave 2 --capacity 2'.split()
WAVES_WORDS = [
    ('--most 501', 'words bad-words', 'from 1 to 500'),
    ('--ope open.csv', 'words bad-words', 'perhaps --open'),
    ('--wave 3', 'words bad-words', 'it stands twice'),
    ('--open opn.csv', 'read fault open', 'perhaps open.csv'),
    ('--open .', 'read fault open', 'it is a folder'),
    ('--journal stock.csv', 'journal line 1', 'it is a file of stock'),
    ('--journal orders.csv --open stock.csv', 'open row 1 columns', 'it is a file of stock'),
]
PLAN = 'plan --layout layout.json --stock stock.csv --orders orders.csv --desks desks.csv --capacity 2'.split()


def line_of(told):
    return told if told.startswith('read fault') else 'refused ' + told


class Explaining(unittest.TestCase):
    def explained(self, files, words):
        folder = runs.put(runs.Path(runs.shelf().name) / 'explained', {**RIGHT, **files})
        return runs.script('explain', *words, folder=folder), runs.waveplan(*words, folder=folder)

    def test_files_that_are_refused(self):
        for name, text, line, told in FILES:
            with self.subTest(line, told=told):
                done, run = self.explained({name: text}, PLAN)
                self.assertEqual((1, ''), (done.status, done.errors))
                self.assertEqual(run.output, line_of(line) + '\n')
                self.assertEqual(line_of(line), done.output.splitlines()[0])
                self.assertIn(told, done.output)
                self.assertRegex(done.output, r'cure     \S')

    def test_words_that_are_refused(self):
        for text, line, told in WORDS:
            with self.subTest(line, told=told):
                done, run = self.explained({}, text.split())
                self.assertEqual(run.output, line_of(line) + '\n')
                if told:
                    self.assertEqual(line_of(line), done.output.splitlines()[0])
                    self.assertIn(told, done.output)

    @unittest.skipUnless(runs.WAVES, 'the program waves is not named')
    def test_words_and_open_files_of_waves(self):
        rows = [(text, '--open open.csv', line, told) for text, line, told in OPEN_FILES]
        rows += [(OPEN, *row) for row in WAVES_WORDS]
        for text, more, line, told in rows:
            with self.subTest(line, told=told):
                words = [*WAVES, *more.split()]
                folder = runs.put(runs.Path(runs.shelf().name) / 'explained-waves', {**RIGHT, 'open.csv': text})
                done, run = runs.script('explain', *words, folder=folder), runs.waves(*words[1:], folder=folder)
                self.assertEqual(run.output, line_of(line) + '\n')
                self.assertEqual((1, line_of(line)), (done.status, done.output.splitlines()[0]))
                self.assertIn(told, done.output)
                self.assertRegex(done.output, r'cure     \S')
        done = runs.script('explain', *WAVES, '--open', 'open.csv', folder=runs.put(folder, {'open.csv': OPEN}))
        self.assertEqual((0, 'nothing in these words and files is refused\n'), (done.status, done.output))

    def test_a_certificate_and_a_journal(self):
        certificate = (runs.EXAMPLES / 'one-certificate' / 'certificate.json').read_text()
        done, run = self.explained({'c.json': certificate.replace('1020', '1021', 1)},
                                   'check --layout layout.json --certificate c.json'.split())
        self.assertEqual(run.output, done.output.splitlines()[0] + '\n')
        self.assertIn('a 0 stands where a 1 is due', done.output)
        done, run = self.explained({'j.txt': 'journal\n0 1 submit W1 O1 -> allotted\nend journal\n'},
                                   'audit --layout layout.json --stock stock.csv --orders orders.csv '
                                   '--journal j.txt'.split())
        self.assertEqual(run.output, done.output.splitlines()[0] + '\n')
        self.assertIn('command  submit W1 O1', done.output)

    def test_a_journal_of_other_carts(self):
        journal = ('journal\n0 1 submit W1 O1 -> refused over-cart O1 2\n1 1 release W1 -> refused unknown-wave\n'
                   'end journal\n')
        words = 'audit --layout layout.json --stock stock.csv --orders orders.csv --journal j.txt'.split()
        for units, told in (((), 'these words say none'), (('--units', '2'), 'these words say 2')):
            done, run = self.explained({'j.txt': journal}, [*words, *units])
            self.assertEqual(run.output, done.output.splitlines()[0] + '\n')
            for text in (told, 'the same --units as the plan'):
                self.assertIn(text, done.output)
        done, run = self.explained({'j.txt': journal}, [*words, '--units', '1'])
        self.assertEqual((0, 'audit 2 entries\n'), (done.status, run.output))

    def test_what_is_right_is_told(self):
        for more in ((), ('--rules', '1', '--pickers', '100', '--root', '1'),
                     ('--rules', '0', '--pickers', '0', '--root', '0')):
            done, _ = self.explained({}, [*PLAN, *more])
            self.assertEqual((0, 'nothing in these words and files is refused\n'), (done.status, done.output))


if __name__ == '__main__':
    unittest.main()
