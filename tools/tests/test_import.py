"""Tests of what is made of files as people have them: each usual form is read, and each usual mistake is told with what
to do."""

import os
import shlex
import subprocess
import sys
import unittest

import runs

LAYOUT = '{"version":1,"aisles":3,"slots":4,"pitch":2,"clearance":1,"spacing":5,"depot":1}'
HEAD = 'location,article,on_hand\n'
STOCK = HEAD + '1-1-L,A,5\n2-3-R,B,1200\n'
ORDERS = 'order,article,quantity\nO1,A,2\nO2,B,1\n'
DESKS = 'desk,command,arguments\n1,submit,W1,O1,O2\n1,release,W1\n2,pick,W1,O1,1-1-L,2\n2,receive,1-1-L,A,4\n'

# Forms that are read: their name, the kind, the bytes, the options, and what comes of them.
FORMS = [
    ('as it is due', 'stock', STOCK, '', STOCK),
    ('semicolons', 'stock', STOCK.replace(',', ';'), '', STOCK),
    ('tabs', 'stock', STOCK.replace(',', '\t'), '', STOCK),
    ('a mark of UTF-8', 'stock', b'\xef\xbb\xbf' + STOCK.encode(), '', STOCK),
    ('UTF-16 little endian', 'stock', b'\xff\xfe' + STOCK.encode('utf-16-le'), '', STOCK),
    ('UTF-16 big endian', 'stock', b'\xfe\xff' + STOCK.encode('utf-16-be'), '', STOCK),
    ('UTF-16 without a mark', 'stock', STOCK.encode('utf-16-le'), '--encoding utf-16', STOCK),
    ('line ends of Windows', 'stock', STOCK.replace('\n', '\r\n'), '', STOCK),
    ('line ends of an old Mac', 'stock', STOCK.replace('\n', '\r'), '', STOCK),
    ('no last line end', 'stock', STOCK[:-1], '', STOCK),
    ('capitals in the heading', 'stock', STOCK.replace('location', 'Location').replace('on_hand', 'ON_HAND'), '',
     STOCK),
    ('columns in another order', 'stock', 'on_hand,location,article\n5,1-1-L,A\n1200,2-3-R,B\n', '', STOCK),
    ('a column more', 'stock', 'id,location,article,name,on_hand\n7,1-1-L,A,Pen,5\n8,2-3-R,B,Ink,1200\n', '', STOCK),
    ('other words in the heading', 'stock', 'Platz,Artikel,Bestand\n1-1-L,A,5\n2-3-R,B,1200\n',
     '--columns location=Platz,article=Artikel,on_hand=Bestand', STOCK),
    ('words with umlauts of an old Windows', 'stock',
     'Platz;Artikel;Verf\u00fcgbar\n1-1-L;A;5\n2-3-R;B;1200\n'.encode('latin-1'),
     '--encoding latin-1 --columns location=Platz,article=Artikel,on_hand=Verf\u00fcgbar', STOCK),
    ('a title above', 'stock', 'Stock of Monday\n\n' + STOCK, '--skip 1', STOCK),
    ('a note to the spreadsheet', 'stock', 'sep=;\n' + STOCK.replace(',', ';'), '--skip 1', STOCK),
    ('empty rows', 'stock', HEAD + '\n1-1-L,A,5\n,,\n\n2-3-R,B,1200\n,,\n', '', STOCK),
    ('blanks around the cells', 'stock', HEAD + ' 1-1-L , A,5 \n2-3-R,\u00a0B,1200\n', '', STOCK),
    ('quotes', 'stock', '"location","article","on_hand"\n"1-1-L","A","5"\n"2-3-R","B","1200"\n', '', STOCK),
    ('a row of totals', 'stock', STOCK + 'Total,,1205\n', '--skip-last 1', STOCK),
    ('tenths with a point', 'stock', HEAD + '1-1-L,A,5.0\n2-3-R,B,1200.00\n', '--decimal .', STOCK),
    ('tenths with a comma', 'stock', 'location;article;on_hand\n1-1-L;A;5,0\n2-3-R;B;1200,00\n', '--decimal ,', STOCK),
    ('thousands with a comma', 'stock', HEAD + '1-1-L,A,5\n2-3-R,B,"1,200"\n', '--decimal .', STOCK),
    ('thousands with a point', 'stock', 'location;article;on_hand\n1-1-L;A;5\n2-3-R;B;1.200\n', '--decimal ,', STOCK),
    ('thousands with a narrow blank', 'stock', HEAD + '1-1-L,A,5\n2-3-R,B,1\u202f200\n', '', STOCK),
    ('thousands with an apostrophe', 'stock', HEAD + '1-1-L,A,5\n2-3-R,B,1\u2019200\n', '', STOCK),
    ('thousands with an apostrophe, and tenths', 'stock', HEAD + '1-1-L,A,5.0\n2-3-R,B,1\u2019200.00\n', '--decimal .',
     STOCK),
    ('aisles with letters', 'stock', HEAD + 'A-01-L,A,5\nB-03-R,B,1200\n', '--letters', STOCK),
    ('aisles with two letters', 'stock', HEAD + 'A-1-L,A,5\nAB-3-R,B,1200\n', '--letters',
     STOCK.replace('2-3', '28-3')),
    ('aisles with words', 'stock', HEAD + 'north-01-L,A,5\nB2-03-R,B,1200\n', '--aisles North=1,b2=2', STOCK),
    ('slots that are numbered through', 'stock', HEAD + 'A-01-03,A,5\nB-06-01,B,1200\n',
     '--letters --location {aisle}-{slot}-{level} --sides odd=L,even=R', STOCK),
    ('slots of one side', 'stock', HEAD + '1-1,A,5\n2-3,B,1200\n', '--location {aisle}-{slot} --sides all=L',
     STOCK.replace('R', 'L')),
    ('levels', 'stock', HEAD + '1-1-L-04,A,5\n2-3-R-b,B,1200\n', '--location {aisle}-{slot}-{side}-{level}', STOCK),
    ('names that only look like dates or powers', 'stock',
     HEAD + '1-1-L,10MAYER,5\n2-3-R,12E4,5\n3-1-L,MARKER-24,5\n3-2-L,1E400,5\n', '',
     HEAD + '1-1-L,10MAYER,5\n2-3-R,12E4,5\n3-1-L,MARKER-24,5\n3-2-L,1E400,5\n'),
    ('names that are dates', 'stock', HEAD + '1-1-L,10-Apr,5\n', '--take-dates', HEAD + '1-1-L,10-Apr,5\n'),
    ('waves that are dates', 'desks', 'desk,command,arguments\n1,submit,2026-12-01,O1\n', '',
     'desk,command,arguments\n1,submit,2026-12-01,O1\n'),
    ('a heading in the plural', 'desks', 'Desk,Command,Wave,Orders\n1,submit,W1,"O1, O2"\n1,release,W1,\n', '',
     'desk,command,arguments\n1,submit,W1,O1,O2\n1,release,W1\n'),
    ('thousands with a blank', 'stock', 'location;article;on_hand\n1-1-L;A;5\n2-3-R;B;1 200\n', '--decimal ,', STOCK),
    ('leading zeros', 'stock', HEAD + '01-001-L,A,05\n02-03-R,B,1200\n', '', STOCK),
    ('small sides', 'stock', HEAD + '1-1-l,A,5\n2-3-r,B,1200\n', '', STOCK),
    ('locations by a pattern', 'stock', HEAD + '01-A-01,A,5\n02-B-03,B,1200\n',
     '--location {aisle}-{side}-{slot} --sides A=L,B=R', STOCK),
    ('locations with other signs', 'stock', HEAD + 'A01/S1/links,A,5\nA02/S3/rechts,B,1200\n',
     '--location A{aisle}/S{slot}/{side} --sides links=L,rechts=R', STOCK),
    ('orders', 'orders', ORDERS.replace(',', ';'), '', ORDERS),
    ('orders of other words', 'orders', 'Auftrag;Menge;Artikel\nO1;2;A\nO2;1;B\n',
     '--columns order=Auftrag,article=Artikel,quantity=Menge', ORDERS),
    ('commands', 'desks', DESKS, '', DESKS),
    ('commands as a spreadsheet saves them', 'desks',
     'desk,command,arguments,,,\n1,SUBMIT,W1,O1,O2,\n1,release,W1,,,\n2,pick,W1,O1,1-1-L,2\n2,receive,1-1-L,A,4,\n', '',
     DESKS),
    ('commands with a column for each field', 'desks',
     'desk,command,wave,order,location,article,quantity\n1,submit,W1,O1 '
     'O2,,,\n1,release,W1,,,,\n2,pick,W1,O1,1-1-L,,2\n2,receive,,,1-1-L,A,4\n', '', DESKS),
]

# Mistakes in a cell: their name, the kind, the text, the options, and words of what is told.
MISTAKES = [
    ('a small number with tenths', 'stock', HEAD + '1-1-L,A,36.0\n', '',
     'line 2, column on_hand, "36.0": it is no whole number as it stands: say --decimal'),
    ('thousands set apart', 'stock', HEAD + '1-1-L,A,"1,200"\n', '', 'say --decimal'),
    ('half a unit', 'stock', HEAD + '1-1-L,A,1.5\n', '--decimal .', 'units are counted whole'),
    ('thousands not by threes', 'stock', HEAD + '1-1-L,A,"12,00"\n', '--decimal .', 'not set apart by threes'),
    ('below 0', 'stock', HEAD + '1-1-L,A,-4\n', '', 'below 0'),
    ('a power of ten', 'stock', HEAD + '1-1-L,A,1.2E+06\n', '--decimal .', 'power of ten'),
    ('too many units', 'stock', HEAD + '1-1-L,A,1000001\n', '', 'not within 0 to 1000000'),
    ('no units', 'stock', HEAD + '1-1-L,A,\n', '', 'column on_hand, "": it is empty'),
    ('units in words', 'stock', HEAD + '1-1-L,A,five\n', '', 'write digits alone'),
    ('units with their name', 'stock', HEAD + '1-1-L,A,5 pcs\n', '', 'write digits alone'),
    ('an error of the spreadsheet', 'stock', HEAD + '1-1-L,A,#N/A\n', '', 'an error of the spreadsheet'),
    ('a formula', 'stock', HEAD + '1-1-L,A,=C2+1\n', '', 'a formula'),
    ('a formula in German', 'stock', HEAD + '1-1-L,A,#WERT!\n', '', 'an error of the spreadsheet'),
    ('digits of another script', 'stock', HEAD + '1-1-L,A,\u0665\n', '', 'write digits alone'),
    ('a location that became a date', 'stock', HEAD + '2001-01-05,A,5\n', '', 'made a date of it'),
    ('a location that became a day and month', 'stock', HEAD + '3-May,A,5\n', '', 'made a date of it'),
    ('a location that became a German date', 'stock', HEAD + '05.03.2001,A,5\n', '', 'made a date of it'),
    ('a location that became an American date', 'stock', HEAD + '3/5/2001,A,5\n', '', 'made a date of it'),
    ('a location without a side', 'stock', HEAD + '1-1,A,5\n', '', 'not of the form'),
    ('a location of another form', 'stock', HEAD + '01-A-05,A,5\n', '', 'say how locations are written'),
    ('a location with a third side', 'stock', HEAD + '1-1-M,A,5\n', '', 'with l or r for the side'),
    ('a location that a pattern does not have', 'stock', HEAD + '1-1-L,A,5\n',
     '--location {aisle}-{side}-{slot} --sides A=L,B=R', 'with a or b for the side'),
    ('a location that is empty', 'stock', HEAD + ',A,5\n', '', 'it is empty'),
    ('a location with blanks in it', 'stock', HEAD + '1 - 1 - L,A,5\n', '', 'not of the form'),
    ('the same location twice', 'stock', HEAD + '1-1-L,A,5\n01-01-l,B,6\n', '',
     'line 3, column location, "01-01-l": line 2 has it too, as 1-1-L: waveplan would say '
     '"refused stock row 3 location-twice"'),
    ('a location twice since its level is not used', 'stock', HEAD + '1-1-L-1,A,5\n1-1-L-2,B,6\n',
     '--location {aisle}-{slot}-{side}-{level}', 'have {level} make a slot'),
    ('an article that became a day and month', 'stock', HEAD + '1-1-L,10-Apr,5\n', '',
     'made a date of it: give the column the type Text'),
    ('an article that became a German date', 'stock', HEAD + '1-1-L,01.12.2026,5\n', '',
     'made a date of it: give the column the type Text'),
    ('an article that became a power', 'stock', HEAD + '1-1-L,4.00638E12,5\n', '',
     'made a number of it: give the column the type Text'),
    ('an order that became a month', 'orders', 'order,article,quantity\nDec 26,A,1\n', '', 'made a date of it'),
    ('units that became a date', 'stock', HEAD + '1-1-L,A,01.12.2026\n', '--decimal ,', 'made a date of it'),
    ('a row of totals', 'stock', HEAD + '1-1-L,A,5\nTotal,,5\n', '',
     'a row of totals: leave it out, with --skip-last 1'),
    ('a German row of totals', 'stock', HEAD + '1-1-L,A,5\nSumme:,,5\n', '', 'a row of totals'),
    ('an article with a blank', 'stock', HEAD + '1-1-L,PEN RED,5\n', '', 'put something else for the blank'),
    ('an article with an umlaut', 'stock', HEAD + '1-1-L,T\u00dcR,5\n', '', 'put something else for "\u00dc"'),
    ('an article with a slash', 'stock', HEAD + '1-1-L,A/B,5\n', '', 'put something else for "/"'),
    ('an article that is too long', 'stock', HEAD + '1-1-L,%s,5\n' % ('A' * 41), '', '41 characters'),
    ('an article that became a date', 'stock', HEAD + '1-1-L,03/05/2024,5\n', '', 'made a date of it'),
    ('an article that became a number', 'stock', HEAD + '1-1-L,4.71E+12,5\n', '', 'made a number of it'),
    ('no article', 'stock', HEAD + '1-1-L,,5\n', '', 'column article, "": it is empty'),
    ('a row that is too short', 'stock', HEAD + '1-1-L\n', '', 'column article, "": it is empty'),
    ('an article with 1,001 locations', 'stock', HEAD + ''.join('%d-%d-L,A,1\n' % (1 + n // 200, 1 + n % 200)
                                                                for n in range(1001)), '', 'at most 1000 locations'),
    ('too many rows', 'stock', HEAD + ''.join('%d-%d-L,A%d,1\n' % (1 + n // 999, 1 + n % 999, n) for n in range(25601)),
     '', 'at most 25600 rows'),
    ('an order of nothing', 'orders', 'order,article,quantity\nO1,A,0\n', '', 'not within 1 to 100000'),
    ('an order of too much', 'orders', 'order,article,quantity\nO1,A,100001\n', '', 'not within 1 to 100000'),
    ('an order with 51 lines', 'orders', 'order,article,quantity\n' + 'O1,A,1\n' * 51, '', 'at most 50 lines'),
    ('10,001 orders', 'orders', 'order,article,quantity\n' + ''.join('O%d,A,1\n' % n for n in range(10001)), '',
     'at most 10000 orders'),
    ('an order without a name', 'orders', 'order,article,quantity\n,A,1\n', '', 'column order, "": it is empty'),
    ('desk nine', 'desks', 'desk,command,arguments\n9,release,W1\n', '', 'not within 1 to 8'),
    ('a desk with a name', 'desks', 'desk,command,arguments\nEast,release,W1\n', '', 'column desk, "East"'),
    ('an unknown command', 'desks', 'desk,command,arguments\n1,start,W1\n', '', 'it is no command: one of submit'),
    ('a release of two waves', 'desks', 'desk,command,arguments\n1,release,W1,W2\n', '', 'no further field'),
    ('a submit without orders', 'desks', 'desk,command,arguments\n1,submit,W1\n', '',
     'a submit names the orders of its wave'),
    ('a submit whose orders have no column', 'desks', 'Desk,Command,Wave,Auftr\u00e4ge\n1,submit,W1,O1\n', '',
     'say which it is with --columns order=NAME'),
    ('a pick whose location has no column', 'desks', 'desk,command,wave,order\n1,pick,W1,O1\n', '',
     'a pick wants it, and the heading has no column for it'),
    ('a pick without a quantity', 'desks', 'desk,command,arguments\n1,pick,W1,O1,1-1-L\n', '',
     'column quantity, "": it is empty'),
    ('a submit without a wave', 'desks', 'desk,command,arguments\n1,submit,\n', '', 'column wave, "": it is empty'),
    ('a wave with a colon', 'desks', 'desk,command,arguments\n1,release,MON 08:00\n', '',
     'put something else for the blank ":"'),
]

# Files and words that can't be read at all.
TROUBLES = [
    ('a workbook', 'stock', b'PK\x03\x04\x14\x00' + bytes(60), '', 'a workbook (.xlsx or .ods)'),
    ('an old workbook', 'stock', b'\xd0\xcf\x11\xe0\xa1\xb1' + bytes(60), '', 'an old workbook (.xls)'),
    ('a PDF', 'stock', b'%PDF-1.7\n', '', 'a PDF'),
    ('a web page', 'stock', b'<html><body>\n', '', 'a web page'),
    ('an old Windows text', 'stock', (HEAD + '1-1-L,T\u00dcR,5\n').encode('latin-1'), '', '--encoding latin-1'),
    ('UTF-16 that does not say so', 'stock', STOCK.encode('utf-16-le'), '', '--encoding utf-16'),
    ('an empty file', 'stock', b'', '', 'no heading'),
    ('a file of blanks', 'stock', b'\n , ,\n', '', 'no heading'),
    ('a title above', 'stock', 'Stock of Monday\n' + STOCK, '', '--skip 1'),
    ('commands in other words', 'desks', 'Pult;Befehl;Welle;Auftr\u00e4ge\n1;submit;W1;O1\n', '',
     "desks - --columns 'desk=Pult,command=Befehl,wave=Welle,order=Auftr\u00e4ge' -o desks.csv"),
    ('words that nobody knows', 'desks', 'who,what,wave\n1,submit,W1\n', '', '--columns desk=NAME,command=NAME'),
    ('a title above with commas', 'stock', 'Stock, Monday, all\n' + STOCK.replace(',', ';'), '', '--skip 1'),
    ('a column left out', 'stock', 'location,article\n1-1-L,A\n', '', 'no column on_hand'),
    ('a column of another name', 'stock', 'location,article,stock\n1-1-L,A,5\n', '',
     'it has: location, article, stock'),
    ('a column twice', 'stock', 'location,article,on_hand,article\n1-1-L,A,5,B\n', '', 'has article 2 times'),
    ('orders in place of the stock', 'stock', ORDERS, '', 'no column location'),
    ('the stock in place of orders', 'orders', STOCK, '', 'no column order'),
    ('orders in place of commands', 'desks', ORDERS, '', 'no column desk'),
    ('commands without arguments', 'desks', 'desk,command\n1,release\n', '',
     'neither a column arguments nor a column wave'),
    ('a note to the spreadsheet', 'stock', 'sep=;\n' + STOCK.replace(',', ';'), '', '--skip 1'),
    ('a column that there is none of', 'stock', STOCK, '--columns place=Platz', 'no column place'),
    ('a pattern without a side', 'stock', STOCK, '--location {aisle}-{slot}', '{side} once each'),
    ('aisles that are no numbers', 'stock', STOCK, '--aisles A=one', 'WORD=NUMBER'),
    ('sides that are both left', 'stock', STOCK, '--sides A=L,B=L', 'what stands for R'),
    ('the wrong separator', 'stock', STOCK, '--separator semicolon', 'no column location'),
    ('an unknown separator', 'stock', STOCK, '--separator colon', 'invalid choice'),
    ('an unknown kind', 'waves', STOCK, '', 'invalid choice'),
    ('an unknown option', 'stock', STOCK, '--sheet 2', 'unrecognized arguments'),
]


def imported(kind, text, options):
    """How import ends over a table from standard input."""
    return runs.script('import', kind, '-', *options.split(), given=text if isinstance(text, bytes) else text.encode())


def notes_of(done):
    """What is told of a table that is read, line by line, but for what isn't used of it."""
    return [line for line in done.errors.splitlines() if 'used for nothing' not in line and 'not used' not in line]


class Importing(unittest.TestCase):
    def test_there_are_enough_of_them(self):
        self.assertGreaterEqual(len(MISTAKES) + len(TROUBLES), 72)

    def test_usual_forms_are_read(self):
        for name, kind, text, options, due in FORMS:
            with self.subTest(name):
                done = imported(kind, text, options)
                self.assertEqual((0, due, []), (done.status, done.output, notes_of(done)))

    def test_mistakes_in_a_cell_are_told_and_nothing_is_written(self):
        for name, kind, text, options, due in MISTAKES:
            with self.subTest(name):
                done = imported(kind, text, options)
                self.assertEqual((1, ''), (done.status, done.output))
                self.assertIn(due, done.errors)

    def test_files_that_are_none_are_told(self):
        for name, kind, text, options, due in TROUBLES:
            with self.subTest(name):
                done = imported(kind, text, options)
                self.assertEqual((2, ''), (done.status, done.output))
                self.assertIn(due, done.errors)

    def test_each_cause_is_told_once_and_then_its_cells(self):
        rows = ''.join('A%d,X,%s\n' % (n, 'five' if n == 30 else '5') for n in range(1, 41))
        told = imported('stock', HEAD + rows, '').errors.splitlines()
        self.assertTrue(told[0].startswith('column 1 (location), 40 cells: it is not of the form {aisle}-{slot}'))
        self.assertTrue(told[0].endswith('; the first is "A1" in line 2'))
        self.assertIn('line 31, column on_hand, "five": it is no whole number', told[1])
        self.assertEqual(['line %d, column location, "A%d"' % (n + 1, n) for n in range(2, 12)], told[2:12])
        self.assertEqual(['and 29 cells more, which --all tells too',
                          'import: 41 cells of - cannot be read; nothing was written'], told[12:])
        self.assertEqual(1 + 1 + 39 + 1, len(imported('stock', HEAD + rows, '--all').errors.splitlines()))

    def test_a_field_too_many_spoils_no_other_row(self):
        done = imported('desks', 'desk,command,arguments\n1,release,W1,W2\n1,release,W1\n1,release,W3\n', '')
        self.assertEqual(2, len(done.errors.splitlines()), done.errors)

    def test_line_numbers_are_those_of_the_file(self):
        done = imported('stock', 'Title\n\n' + HEAD + '\n"1-1-L","A\nB",5\n1-2-L,C,-5\n', '--skip 2')
        self.assertIn('line 5, column article', done.errors)
        self.assertIn('line 7, column on_hand', done.errors)

    def test_what_is_not_used_is_told(self):
        for text, options, due in (('id,location,article,name,on_hand\n7,1-1-L,A,Pen,5\n', '',
                                    'the columns id, name are used for nothing'),
                                   ('location,article,on_hand,\n1-1-L,A,5,\n', '', ''),
                                   (HEAD + '1-1-L-4,A,5\n', '--location {aisle}-{slot}-{side}-{level}',
                                    'level: not used')):
            done = imported('stock', text, options)
            self.assertEqual((0, HEAD + '1-1-L,A,5\n'), (done.status, done.output))
            self.assertIn(due, done.errors)
            self.assertEqual(bool(due), bool(done.errors))

    def test_an_article_in_two_rows_is_told(self):
        self.assertIn('1 articles lie at more than one location, as A in lines 2 and 4: waveplan takes',
                      imported('stock', STOCK + '3-1-L,A,1\n', '').errors)

    def test_options_stand_anywhere(self):
        text = HEAD.replace(',', ';') + '1-1-L;A;5,0\n'
        for words in ('--decimal , stock -', 'stock --decimal , -', 'stock - --decimal ,',
                      '--decimal=, --skip 0 stock - --skip-last 0'):
            self.assertEqual(HEAD + '1-1-L,A,5\n', runs.script('import', *words.split(), given=text.encode()).output)


class Writing(unittest.TestCase):
    """Files that import writes and reads besides."""

    def setUp(self):
        self.folder = runs.put(runs.Path(runs.shelf().name) / self.id(), {'export.csv': STOCK.replace(',', ';')})

    def imported(self, *words):
        return runs.script('import', *words, folder=self.folder)

    def text(self, name):
        return (self.folder / name).read_text(encoding='utf-8')

    def test_a_file_is_written_whole_or_not_at_all(self):
        done = self.imported('stock', 'export.csv', '-o', 'stock.csv')
        self.assertEqual((0, '', ''), (done.status, done.output, done.errors))
        self.assertEqual(STOCK, self.text('stock.csv'))
        runs.put(self.folder, {'bad.csv': STOCK + 'x,y,z\n'})
        self.assertEqual(1, self.imported('-o', 'stock.csv', 'stock', 'bad.csv').status)
        self.assertEqual(STOCK, self.text('stock.csv'))
        self.assertEqual(['bad.csv', 'export.csv', 'stock.csv'], sorted(os.listdir(self.folder)))

    def test_a_file_may_be_written_over(self):
        self.assertEqual(0, self.imported('stock', 'export.csv', '-o', 'export.csv').status)
        self.assertEqual(STOCK, self.text('export.csv'))

    def test_what_the_shell_empties_is_told(self):
        done = self.emptied()
        self.assertEqual(2, done.status)
        self.assertIn('the shell has emptied it before it was read', done.errors)

    def emptied(self):
        with open(self.folder / 'export.csv', 'wb') as to:
            words = [sys.executable, str(runs.TOOLS / 'import'), 'stock', 'export.csv']
            ran = subprocess.run(words, cwd=self.folder, stdout=to, stderr=subprocess.PIPE)
        return runs.Done(ran.returncode, b'', ran.stderr.decode())

    def test_a_device_is_not_written_over(self):
        self.assertIn('no plain file', self.imported('stock', 'export.csv', '-o', '/dev/null').errors)

    def test_names_are_the_same_in_every_table_and_run(self):
        long = 'X' * 41
        runs.put(self.folder, {
            'stock': HEAD + '1-1-L,B\u00fcrste 5/6,5\n1-2-L,Buerste-5-6,5\n1-3-L,%s,5\n1-4-L,\u0416,1\n' % long,
            'orders': 'order,article,quantity\nSO 1,Buerste-5-6,2\nSO 2,B\u00fcrste 5/6,1\nSO-1,%s,1\n' % long,
            'desks': 'desk,command,wave,orders\n1,submit,MON 08:00,"SO 1, SO 2"\n1,submit,MON-08-00,SO 1\n'
                     '1,release,MON 08:00,\n'})
        for _ in range(2):
            made = [self.imported(kind, kind, '--names', 'names.csv') for kind in ('stock', 'orders', 'desks')]
            self.assertEqual([0, 0, 0], [each.status for each in made])
            stock, orders, desks = (each.output for each in made)
            self.assertEqual(['1-1-L,Buerste-5-6,5', '1-2-L,Buerste-5-6-2,5', '1-3-L,%s,5' % long[1:], '1-4-L,N,1'],
                             stock.splitlines()[1:])
            self.assertEqual(['SO-1,Buerste-5-6-2,2', 'SO-2,Buerste-5-6,1', 'SO-1-2,%s,1' % long[1:]],
                             orders.splitlines()[1:])
            self.assertEqual(['1,submit,MON-08-00,SO-1,SO-2', '1,submit,MON-08-00-2,SO-1', '1,release,MON-08-00'],
                             desks.splitlines()[1:])
        self.assertIn('Buerste-5-6,B\u00fcrste 5/6\nBuerste-5-6-2,Buerste-5-6\n', self.text('names.csv'))

    def test_a_table_that_is_not_read_keeps_no_names(self):
        runs.put(self.folder, {'bad.csv': HEAD + '1-1-L,PEN RED,five\n'})
        self.assertEqual(1, self.imported('stock', 'bad.csv', '--names', 'names.csv').status)
        self.assertFalse((self.folder / 'names.csv').exists())

    def test_a_file_of_names_that_is_none_is_told(self):
        for text in ('PEN,PEN RED\n', 'name,text\nP N,PEN RED\n', 'name,text\nPEN,A\nPEN,B\n', 'name,text\nPEN\n'):
            runs.put(self.folder, {'names.csv': text})
            done = self.imported('stock', 'export.csv', '--names', 'names.csv')
            self.assertEqual((2, ''), (done.status, done.output))
            self.assertIn('names.csv', done.errors)


MESSY = {
    'stock': 'Bestandsliste, Lager S\u00fcd\n\nLagerplatz;Artikel-Nr.;Bezeichnung;Bestand\n' + ''.join(
        '%s-%02d-%s;%s;Text;%s,00\n' % ('ABC'[n % 3], n // 6 + 1, 'LR'[n // 3 % 2],
                                        ['T\u00fcr %d', 'A/%d', 'K%d'][n % 3] % n, ['1.200', '12', '7\u00a0000'][n % 3])
        for n in range(24)) + 'Summe;;;12.345,00\n',
    'orders': 'Auftrag\tMenge\tArtikel\nSO 1\t3,00\tT\u00fcr 0\nSO 1\t2,00\tK2\nSO 2\t1,00\tA/4\n',
    'desks': 'Desk,Command,Wave,Orders,Remark\n1,Submit,Mo 08:00,"SO 1; SO 2",\n1,Release,Mo 08:00,,urgent\n',
}


class MessyDays(unittest.TestCase):
    """A day whose exports are as messy as a spreadsheet makes them."""

    def test_what_is_told_at_the_first_try_is_read_at_the_second(self):
        folder = runs.put(runs.Path(runs.shelf().name) / 'messy', {'layout.json': LAYOUT})
        for kind, text in MESSY.items():
            runs.put(folder, {'export.csv': text.encode('latin-1' if kind == 'stock' else 'utf-8')})
            first = runs.script('import', kind, 'export.csv', folder=folder)
            self.assertIn(first.status, (1, 2))
            told = first.errors.splitlines()[-1].partition('import: it may be read so: tools/import ')[2]
            second = runs.script('import', *shlex.split(told), folder=folder)
            self.assertEqual((0, []), (second.status, notes_of(second)), first.errors)
        done = runs.planned(folder, '--capacity', '2')
        self.assertEqual(0, done.status, done.output)
        self.assertIn('1 1 release Mo-08-00 -> released', done.output)
        runs.put(folder, {'day.txt': done.output})
        words = ('sheets', '--layout', 'layout.json', '--names', 'names.csv', 'day.txt')
        page = runs.script(*words, folder=folder).output
        for text in ('T\u00fcr 0', 'href="#cart-Mo%2008%3A00-1"', '<section id="cart-Mo%2008%3A00-1"'):
            self.assertIn(text, page)
        self.assertIn('have no page here', runs.script(*words, '--since', 'day.txt', folder=folder).output)
        self.assertIn('leave --codes or --names out', runs.script(*words, '--codes', folder=folder).errors)
        shown = runs.script('to-json', 'day.txt', '--names', 'names.csv', folder=folder).output
        self.assertIn('{"word":"submit","wave":"Mo 08:00","orders":["SO 1","SO 2"]}', shown)
        runs.put(folder, {'picked.csv': 'wave,order,location,quantity\nMo 08:00,SO 1,1-1-L,3\n'})
        for words in (('Mo 08:00',), ('--from', 'picked.csv')):
            self.assertIn('1,pick,Mo-08-00,SO-1,1-1-L,3\n', runs.script('confirm', 'day.txt', *words, '--names',
                                                                       'names.csv', folder=folder).output)
        self.assertIn("'Mo 08:00' is no name", runs.script('from-json', '-', given=shown.encode()).errors)
        runs.script('to-csv', '--names', 'names.csv', 'day.txt', 'tables', folder=folder)
        self.assertIn('Mo 08:00', (folder / 'tables' / 'waves.csv').read_text(encoding='utf-8'))
        runs.put(folder, {'stock.csv': (folder / 'stock.csv').read_text().replace('Tuer-0,', 'Tuer-0,x')})
        self.assertIn('1-1-L,T\u00fcr 0,x', runs.script('explain', '--names', 'names.csv', 'plan',
                                                        *runs.options(folder), '--capacity', '2', folder=folder).output)


class WithTheProgram(unittest.TestCase):
    def test_what_is_written_is_read_by_the_program(self):
        folder = runs.put(runs.Path(runs.shelf().name) / 'imported', {
            'layout.json': LAYOUT,
            'stock.csv': imported('stock', STOCK.replace(',', ';'), '').output,
            'orders.csv': imported('orders', ORDERS, '').output,
            'desks.csv': imported('desks', DESKS, '').output})
        self.assertEqual(0, runs.planned(folder, '--capacity', '2').status)
        runs.put(folder, {'stock.csv': HEAD + '1-1-L,A,5\n01-01-L,B,6\n'})
        self.assertEqual('refused stock row 3 location-twice\n', runs.planned(folder, '--capacity', '2').output)

    def test_the_journal_that_to_csv_writes_is_read(self):
        folder = runs.Path(runs.shelf().name) / 'tables'
        runs.script('to-csv', runs.example_day(), folder)
        done = runs.script('import', 'desks', folder / 'journal.csv')
        self.assertEqual((0, runs.script('continue', runs.example_day()).output), (done.status, done.output))
        self.assertIn('the columns entry, reply, reason, about are used for nothing', done.errors)


if __name__ == '__main__':
    unittest.main()
