"""How scripts end over bad inputs: each with a status of the table and one line, and none with a traceback.

Most run in this process, over devices that fail in memory; some run beside each other as processes of their own.
"""

import fcntl
import functools
import importlib.machinery
import importlib.util
import io
import os
import re
import signal
import subprocess
import sys
import termios
import time
import unittest
from concurrent.futures import ThreadPoolExecutor
from pathlib import Path

import by_hand
import endings
import runs
from floor import entry
from in_process import ended

HOSTILE = ('fuzz', 'greatest', 'failing-devices', 'without-memory', 'surroundings')
MOST_DIGITS = '9' * 5000
DEEP = '[' * 100000
DEEP_OBJECT = '{"a":' * 50000
FILES = {
    'layout.json': by_hand.LAYOUT, 'day.txt': '\n'.join(by_hand.PAIR),
    'stock.csv': 'location,article,on_hand\n1-1-L,D,5\n1-4-L,A,5\n2-4-L,B,5\n3-1-L,C,5\n',
    'orders.csv': 'order,article,quantity\nO1,A,1\nO2,B,1\nO3,C,1\nO4,D,1\n',
    'desks.csv': 'desk,command,arguments\n1,submit,W1,O1,O2,O3\n1,release,W1\n',
    'certificate.json': by_hand.PAIR[14][len('certificate '):], 'journal.txt': '\n'.join(by_hand.PAIR[:4]) + '\n',
    'alone.txt': '\n'.join(by_hand.ALONE), 'other.txt': '\n'.join(by_hand.PAIR).replace('W1', 'W3'),
}
FILES['day.json'] = runs.script('to-json', '-', given=FILES['day.txt'].encode()).output
FILES['plain.txt'] = ('instance plain\naisles 3\nslots 4\npitch 2\nclearance 1\nspacings 5 5\ndepot 1 front\n'
                      'capacity 2\nunits 5\norders 2\norder O1 1-4-L 1\norder O2 2-4-L 1 3-1-R 2\nend\n')
FILES['picked.csv'] = 'wave,order,location,quantity\nW1,O1,1-4-L,1\n'
FILES['planner'] = '#!/bin/sh\ncat <<end-of-day\n%send-of-day\n' % FILES['day.txt']
PLAN = '--layout layout.json --stock stock.csv --orders orders.csv --desks desks.csv --capacity 2'.split()
JUDGED = [*PLAN, '--rules', '1', '--pickers', '2', '--root', '1', '--budget', '0']
CHECK = '--layout layout.json --certificate certificate.json'.split()
AUDIT = '--layout layout.json --stock stock.csv --orders orders.csv --journal journal.txt'.split()
TRIED = '--program planner --keep kept --jobs 2'.split()
PLANNING = ('what-if', 'slotting')  # they run a program, here one that prints the day that was worked out by hand

# Of each script: words that are right, and the files that they name.
RIGHT = {
    'import': [(['stock', 'stock.csv'], ('stock.csv',)), (['desks', 'desks.csv'], ('desks.csv',))],
    'split': [(PLAN[:6], ('layout.json', 'stock.csv', 'orders.csv')),
              ([*PLAN[:6], '--units', '1', '--no-back-orders'], ('orders.csv',))],
    'explain': [(['plan', *PLAN], ('layout.json', 'desks.csv')), (['check', *CHECK], ('certificate.json',)),
                (['audit', *AUDIT], ('journal.txt',)),
                (['journal', 'day.txt', '--orders', 'orders.csv'], ('day.txt', 'orders.csv'))],
    'sheets': [(['--layout', 'layout.json', 'day.txt'], ('day.txt', 'layout.json')),
               (['--layout', 'layout.json', '--codes', '--unit', 'cm', '--since', 'alone.txt', 'day.txt'],
                ('day.txt', 'alone.txt'))],
    'continue': [(['day.txt', '--desk', '2'], ('day.txt',))],
    'confirm': [(['day.txt', 'W1'], ('day.txt',)),
                (['day.txt', '--from', 'picked.csv', '--after', 'desks.csv'], ('day.txt', 'picked.csv', 'desks.csv'))],
    'closing-stock': [(['--free', 'day.txt'], ('day.txt',))],
    'to-csv': [(['day.txt', 'tables'], ('day.txt',))],
    'to-json': [(['day.txt'], ('day.txt',))],
    'from-json': [(['day.json'], ('day.json',))],
    'compare': [(['day.txt', 'alone.txt'], ('day.txt',))],
    'report': [(['day.txt'], ('day.txt',)),
               (['--layout', 'layout.json', '--page', '-', 'alone.txt', 'day.txt'], ('layout.json',)),
               (['--per-metre', '100', '--tables', 'tables', '--json', '-', 'day.txt', 'other.txt'], ('other.txt',))],
    'second-opinion': [([*JUDGED, 'day.txt'], ('day.txt', 'stock.csv')), ([*CHECK, 'day.txt'], ('certificate.json',)),
                       ([*AUDIT, 'day.txt'], ('journal.txt',))],
    'what-if': [([*TRIED, '--depot', '1@back', '--wave', '2', 'plan', *PLAN], ('layout.json', 'planner')),
                ([*TRIED, '--rules', '--html', 'plan', *PLAN], ('desks.csv',))],
    'slotting': [([*TRIED, '--tries', '2', '--judge', '.', '--stock-out', 'after.csv', 'plan', *PLAN],
                  ('layout.json', 'stock.csv', 'desks.csv')),
                 ([*TRIED, '--tries', '1', '--html', 'plan', *PLAN], ('planner',))],
    'benchmark': [(['--read', 'plain.txt', '--write', 'made'], ('plain.txt',)),
                  (['--write', 'made', '--class', 'gademann-velde', '--orders', '1', '--read', 'plain.txt'],
                   ('plain.txt',))],
}
NUMBERS = {
    'import': ['--skip', '--skip-last'], 'split': ['--units'], 'continue': ['--desk'], 'confirm': ['--desk'], 'report': ['--per-metre'],
    'second-opinion': ['--capacity', '--units', '--budget', '--nodes', '--workers', '--rules', '--pickers', '--root', '--store'],
    'what-if': ['--capacity', '--units', '--pickers', '--budget', '--nodes', '--spacing', '--depot', '--wave', '--rules',
                '--per-metre', '--jobs'],
    'slotting': ['--tries', '--move-cost', '--days', '--jobs'],
    'benchmark': ['--seeds', '--seed', '--orders', '--units', '--capacity', '--budget', '--nodes', '--jobs'],
    'fuzz': ['--runs', '--first', '--seed', '--processes'], 'greatest': ['--seconds'],
    'surroundings': ['--steps', '--runs'],
}


class Failing(io.RawIOBase):
    """What output goes to that fails, or is interrupted."""

    def __init__(self, why):
        super().__init__()
        self.why = why

    def writable(self):
        return True

    def readable(self):
        return True

    def write(self, data):
        raise self.why

    def readinto(self, room):
        raise self.why


FULL, GONE = OSError(28, 'No space left on device'), BrokenPipeError(32, 'Broken pipe')
STOPS = ((FULL, endings.UNWRITTEN), (GONE, endings.UNWRITTEN), (KeyboardInterrupt(), endings.INTERRUPTED),
         (MemoryError(), endings.NO_MEMORY))


def bad_bytes():
    """What a file may hold that is of no form at all."""
    yield from (b'', b'\n', b'\xff', b'\x00' * 100, b'\xef\xbb\xbf', b'"', b'{', b'[]', b'null', b'NaN', b'1e400',
                b'-1')
    yield from (DEEP.encode(), DEEP_OBJECT.encode(), MOST_DIGITS.encode(), ('[%s]' % MOST_DIGITS).encode())
    yield from (text.encode('utf-16') for text in ('journal', FILES['stock.csv']))
    yield from (b'refused layout not-json\n', b'read fault stock\n', b'journal\n', b'journal\nend\n', b'a,b\r\n"c',
                b'PK\x03\x04')
    yield b'store fault\n'


def bad_days():
    """The output of a plan, with each line changed, left out or cut off."""
    lines = by_hand.PAIR
    digits = re.compile(r'\d+')
    for place, line in enumerate(lines):
        found = list(digits.finditer(line))
        others = [line[:len(line) // 2], line + ' 1'] + [line[:each.start()] + MOST_DIGITS + line[each.end():]
                                                         for each in found[-2:]]
        yield lines[:place] + lines[place + 1:]
        yield from (lines[:place] + [other] + lines[place + 1:] for other in others)
    for text in (DEEP, DEEP_OBJECT, '{"orders":[[1,2]]}', '{"orders":[[1,[2]]]}', '{"orders":[%s]}' % MOST_DIGITS,
                 '[%s]' % MOST_DIGITS, '"\\ud800"'):
        yield [line if not line.startswith('certificate') else 'certificate ' + text for line in lines]


def bad_certificates():
    """A certificate with each of its values changed."""
    text = FILES['certificate.json']
    for old, new in (('2,', MOST_DIGITS + ','), ('[1,4]', '1'), ('[[1,4]]', DEEP), ('[[1,4]]', '[[[1]]]'),
                     ('"kept"', '{}'), ('[{"kind":"kept"}]', '[[]]'),
                     ('{"kind":"kept"}', '1'), ('"version":1', '"version":' + MOST_DIGITS),
                     ('"version":1', '"version":[]'), ('"kept"', '"split"'),
                     ('"kind":"kept"', '"kind":"leaf","duals":[%s],"marks":"","tight":[]' % MOST_DIGITS),
                     ('"kind":"kept"', '"kind":"leaf","duals":[1],"marks":5,"tight":[[1]]'), ('}]', '}'),
                     ('1}', '1,"loads":1,"units":1}')):
        yield text.replace(old, new, 1)


def bad_objects():
    """The object of a day, with a value of each key changed or left out."""
    text, keys = FILES['day.json'], {}
    for found in re.finditer(r'"(\w+)":("[^"]*"|\d+|\[\]|\[|\{)', text):
        keys.setdefault(found[1], found)
    for found in keys.values():
        before, after = text[:found.start(2)], text[found.end(2):]
        yield text[:found.start(1)] + 'x' + text[found.start(1):]
        yield from (before + new + after for new in ('1e400', 'null', '"a b"', '"\\ud800"', MOST_DIGITS, '-1.5', '{"":'))
        yield from (before + new + found[2][:1] + after for new in ('[', '{"a":', '5,"%s":' % found[1]))


def bad_tables(text):
    """A table with a field changed."""
    for new in (MOST_DIGITS, '', '-1', '1-1-L', '"', '\x00', 'A' * 50000, '1.5', '#N/A', '1-1-L-1', '0-0-L',
                '99999-99999-R'):
        yield text.replace(',5', ',' + new, 1).replace(',O1', ',' + new, 1).replace('1 submit', new + ' submit')


def contents_for(name):
    """What stands in the place of a file."""
    made = {'day.txt': ['\n'.join(lines) for lines in bad_days()], 'certificate.json': list(bad_certificates()),
            'day.json': list(bad_objects())}
    made['alone.txt'] = made['other.txt'] = made['day.txt']
    made['layout.json'] = [FILES['layout.json'].replace(':4', ':' + new)
                           for new in (MOST_DIGITS, DEEP, '[]', '"', '-4', '4.0', 'null', '{}')]
    made['plain.txt'] = [FILES['plain.txt'].replace(old, new, 1) for old in ('3', ' 2', 'plain', '1-4-L', 'O1', '5 5')
                         for new in (MOST_DIGITS, '', '-1', '0', '1.5', '\x00', '\u0663', '/', DEEP)]
    some = made.get(name) or list(bad_tables(FILES[name]))
    return [*bad_bytes(), *(text.encode('utf-8', 'surrogatepass') for text in some)]


def bad_words(name):
    """Words that are wrong, whatever the files are."""
    yield from ([], ['--help', '--unknown'], ['--unknown'], ['nowhere.txt'], ['/'], ['-'], ['', ''],
                ['a', 'b', 'c', 'd', 'e'], ['nowhere.txt', 'W1'])
    for option in NUMBERS.get(name, ()):
        for text in (MOST_DIGITS, '-1', '', 'x', '1e3', '\u0663'):
            yield ['day.txt', option, text]
            yield [option + '=' + text]
        yield ['day.txt', option]


def odd_words(name):
    """Words of single scripts that are wrong."""
    yield from {
        'import': [['stock', 'stock.csv', *more] for more in (
            ['--columns', 'x'], ['--columns', 'location='], ['--columns', 'nothing=a'], ['--sides', 'a=b'],
            ['--location', '('], ['--location', '{aisle}'],
            ['--location', '{aisle}{slot}{side}['], ['--encoding', 'utf-16'], ['--encoding', 'x'],
            ['--location', '{aisle}-{slot}-{side}-{1}'], ['--location', '{aisle}-{slot}', '--sides', 'all=L'],
            ['--aisles', 'A=' + MOST_DIGITS], ['--aisles', 'A=0'], ['--letters', '--take-dates', '--all'],
            ['--names', '/'], ['--names', 'day.txt'], ['--names', 'nul.csv'], ['--names', 'nowhere/names.csv'],
            ['-o', '/'], ['-o', 'nowhere/x'], ['-o', '/dev/full'], ['-o', ''],
            ['--separator', 'tab'], ['--skip', '9' * 4000],
            ['--skip-last', '9' * 30], ['--decimal', '.', '--skip', '1'])],
        'confirm': [['day.txt', *more] for more in (['W2'], ['W1', '9' * 30], ['W1', 'x'], ['W1', MOST_DIGITS],
                                                    ['--from', 'nowhere'], ['W1', '--from', 'picked.csv'],
                                                    ['W1', '--after', 'nowhere'], ['W1', '--after', 'stock.csv'],
                                                    ['--from', 'orders.csv'], ['--from', '/'],
                                                    ['W1', '--names', 'nul.csv'], ['W1', '--names', 'nowhere'],
                                                    ['W1', '--earlier', 'nowhere'],
                                                    ['W1', '--earlier', 'alone.txt'], ['W1', '--earlier'])],
        'sheets': [['--layout', layout, *more] for layout in ('layout.json', 'nowhere', '/', 'day.txt') for more in (
            ['day.txt', '--drawing', 'W1', 'x'], ['day.txt', '--drawing', 'W2', '1'], ['day.txt', '--drawing', 'W1'],
            ['/'], ['day.txt', '--names', 'nowhere'], ['day.txt', '--names', 'nul.csv'],
            ['day.txt', '--cart', '1'], ['day.txt', '--wave', 'W1', '--cart', 'x'], ['day.txt', '--wave', 'W2'],
            ['day.txt', '--since', 'nowhere'], ['day.txt', '--earlier', '/'], ['day.txt', '--day', '\udcff'])],
        'to-csv': [['day.txt', folder] for folder in ('/dev/null/x', 'day.txt', '', '/proc/x')],
        'benchmark': [['--read', 'plain.txt', *more] for more in (
            ['--write', '/dev/null/x'], ['--write', ''], ['--program', '/'], ['--program', 'plain.txt'],
            ['--program', 'nowhere'], ['--program', 'day.txt', '--keep', '/dev/null'], ['--write', 'made', 'plain.txt'],
            ['--write', 'x' * 5000], ['--write', '\x00'], ['--class', ''], ['--demand', 'x'])],
        'to-json': [['day.txt', '--names', names] for names in ('nowhere', '/', 'stock.csv', 'nul.csv')],
        'compare': [['day.txt', other] for other in ('/', 'nowhere', '/dev/null', 'layout.json')],
        'report': [['day.txt', *more] for more in (
            ['nowhere'], ['/'], ['stock.csv'], ['--layout', 'nowhere'], ['--layout', 'stock.csv'],
            ['--names', 'nul.csv'], ['--csv', '/'], ['--json', 'nowhere/x'], ['--page', '/dev/full'],
            ['--tables', '/dev/null/x'], ['--tables', 'day.txt'], ['--tables', ''], ['--csv', ''],
            ['--csv', '-', '--page', '-'], ['--page'], ['day.txt'], ['--per-metre', '1.'], ['--per-metre', '0.0'],
            ['--json', '-', '--names', '/'])],
        'explain': [['plan', *PLAN, '--units', MOST_DIGITS], ['plan', *PLAN, '--budget', '+' + MOST_DIGITS],
                    ['plan', *PLAN, '--nodes', '0'], ['plan', *PLAN, '--nodes', '1', '--budget', '5'],
                    ['make', '--number', MOST_DIGITS],
                    ['plan', *PLAN, '--store', '1'], ['check', '--layout', '/root/none/x'], ['\udcff'],
                    ['plan', '\udcff'], ['plan', *PLAN[:-1], '\udcff'], ['journal'], ['journal', 'nowhere'],
                    ['journal', 'day.txt', 'day.txt'], ['journal', '/', '--orders', '/'], ['--names', 'nowhere'],
                    ['journal', 'day.txt', '--orders', 'layout.json'], ['journal', '--help', '--names', 'nul.csv']],
        'second-opinion': [[*JUDGED, *more] for more in (['--stored', 'nowhere'],
                                                         ['--store-after', 'day.txt', 'day.txt'],
                                                         ['--store-before', '/', 'day.txt'],
                                                         ['--store-before', 'stock.csv', 'day.txt'],
                                                         ['day.txt', 'day.txt'], ['--certificate', 'x', 'day.txt'],
                                                         ['--nodes', '1', 'day.txt'])],
        'what-if': [[*TRIED, *more, 'plan', *PLAN] for more in (
            [], ['--capacity', '6..2'], ['--capacity', '1..' + MOST_DIGITS], ['--depot', '@'],
            ['--depot', '1@back@back'], ['--units', 'none..3'], ['--capacity', '1..500', '--budget', '1..500'],
            ['--wave', '0,65'], ['--capacity', '9', '--units', '0'],
            *(['--capacity', '2', *some] for some in (
                ['--keep', '/proc/x'], ['--keep', 'day.txt'], ['--keep', ''], ['x'], ['--program', 'nowhere'],
                ['--program', 'day.txt'], ['--program', '/'])))]
        + [['--capacity', '2', 'plan', *some] for some in (
            [], PLAN[2:], [*PLAN, '--store', '1'], [*PLAN, '--units', MOST_DIGITS], ['\udcff'],
            [*PLAN[:-1], '\udcff'])],
        'slotting': [[*TRIED, *more, 'plan', *PLAN] for more in (
            ['--judge'], ['--judge', 'nowhere'], ['--judge', '/'], ['--judge', '.', 'day.txt'], ['--stock-out', '/'],
            ['--stock-out', ''], ['--stock-out', '/dev/full'], ['--stock-out', 'nowhere/x'], ['--keep', '/dev/null/x'],
            ['--keep', 'day.txt'], ['x'], ['--tries', '10001'], ['--days', '0'], ['--program', 'nowhere'],
            ['--program', 'layout.json'])] + [['plan'], ['plan', *PLAN[2:]], ['plan', *PLAN, '--store', '1']],
    }.get(name, [])


class Floor(unittest.TestCase):
    """The scripts for planners, in this process."""

    @classmethod
    def setUpClass(cls):
        cls.folder = runs.put(Path(runs.shelf().name) / 'endings', {
            **FILES, 'nul.csv': 'name,text\nA,%s\0\n' % ('a' * 200000)})

    def judge(self, name, words, given=b'', due=None, **how):
        """Runs a script, and tests how it ends."""
        out = how.get('out', io.BytesIO())
        status, told = ended(lambda: entry.module_of(name).main(words), name, given, out, self.folder)
        self.assertIn(status, (due,) if due else (endings.RIGHT, endings.WRONG, endings.REFUSED, endings.UNWRITTEN),
                      (name, words, told[:500]))
        is_help = status == endings.REFUSED and told.startswith(entry.module_of(name).__doc__[:40])
        is_list = (name == 'import' and status in (endings.RIGHT, endings.WRONG, endings.REFUSED)
                   or name == 'split' and status == endings.RIGHT)
        self.assertTrue(is_help or is_list or told.count('\n')
                        == (status in (endings.REFUSED, *range(endings.UNWRITTEN, 200))), (name, words, told[:500]))
        self.assertNotIn('Traceback', told)
        return 1

    def bad_files(self, name):
        for words, files in RIGHT[name]:
            for file in files:
                yield from ([bad if word == file else word for word in words] for bad in self.names_of(file))

    @classmethod
    @functools.lru_cache(maxsize=None)
    def names_of(cls, file):
        """The names of files, each of which is wrong in the place of one."""
        contents = contents_for(file)
        runs.put(cls.folder, {'%d %s' % (place, file): content for place, content in enumerate(contents)})
        return ['%d %s' % (place, file) for place, _ in enumerate(contents)]

    def test_right_words_end_with_0(self):
        for name in RIGHT:
            words = RIGHT[name][0][0]
            status, told = ended(lambda: entry.module_of(name).main(words), name, out=io.BytesIO(), folder=self.folder)
            self.assertEqual(int(name == 'compare'), status, (name, told))

    def test_files_of_a_wrong_form_and_wrong_words(self):
        self.judge_all(name for name in RIGHT if name not in PLANNING)

    def test_files_of_a_wrong_form_and_wrong_words_of_those_that_run_the_program(self):
        self.judge_all(PLANNING)

    def judge_all(self, names):
        """Tries all wrong words and files of some scripts."""
        for name in names:
            with self.subTest(name):
                words = [*bad_words(name), *odd_words(name)]
                count = sum(self.judge(name, some, MOST_DIGITS.encode()) for some in words)
                count += sum(self.judge(name, some) for some in self.bad_files(name))
                self.assertGreaterEqual(count, 40, name)

    def test_a_file_that_comes_from_standard_input(self):
        for name in ('sheets', 'continue', 'closing-stock', 'to-json', 'second-opinion'):
            words = ['-' if word == 'day.txt' else word for word in RIGHT[name][0][0]]
            for content in contents_for('day.txt'):
                self.judge(name, words, content)
            self.judge(name, words, Failing(KeyboardInterrupt()), due=endings.INTERRUPTED)

    def test_outputs_that_can_not_be_written(self):
        for name in RIGHT:
            for why, due in STOPS:
                if name != 'to-csv':
                    self.judge(name, RIGHT[name][0][0], out=Failing(why), due=due)
                self.judge(name, ['--help'], out=Failing(why), due=due)
            self.judge(name, ['--help'], out=None, due=endings.UNWRITTEN)

    def test_options_stand_before_and_after_files(self):
        for name, words in (('confirm', ['--desk', '2', 'day.txt', 'W1']),
                            ('confirm', ['day.txt', '--desk', '2', 'W1']),
                            ('sheets', ['day.txt', '--layout', 'layout.json']), ('continue', ['--desk=2', 'day.txt']),
                            ('closing-stock', ['day.txt', '--free']), ('second-opinion', ['day.txt', *JUDGED]),
                            ('second-opinion', ['waveplan', 'plan', *JUDGED, 'day.txt']),
                            ('second-opinion', [*JUDGED[:4], 'plan', *JUDGED[4:], 'day.txt', '--workers=2']),
                            ('import', ['stock', '--skip', '0', 'stock.csv']),
                            ('import', ['--skip=0', 'stock', 'stock.csv'])):
            self.judge(name, words, due=endings.RIGHT)

    def test_a_fault_of_a_script_is_one_line_too(self):
        def wrong():
            return {}['nothing']
        self.assertEqual((endings.FAULTY, "x: this script is at fault: KeyError: 'nothing'\n"),
                         ended(wrong, 'x', out=io.BytesIO()))


def module_of(name):
    """A script of tools/hostile, or of tools/ itself, as a module."""
    path = next(str(at / name) for at in (runs.TOOLS / 'hostile', runs.TOOLS) if (at / name).exists()
                and (at.name == 'hostile' or name not in HOSTILE))
    sys.path[1:1] = [str(runs.TOOLS / 'hostile')] if str(runs.TOOLS / 'hostile') not in sys.path else []
    loader = importlib.machinery.SourceFileLoader(name.replace('-', '_'), path)
    made = importlib.util.module_from_spec(importlib.util.spec_from_loader(loader.name, loader))
    loader.exec_module(made)
    return made


class Hostile(unittest.TestCase):
    """The scripts that try the program, in this process: over programs that are none, and with wrong words."""

    PROGRAMS = {'silent': '#!/bin/sh\n', 'failing': '#!/bin/sh\nexit 1\n', 'loud': '#!/bin/sh\necho waveplan\n',
                'other': '#!/bin/sh\necho refused words\n',
                'stopped': '#!/bin/sh\nkill -9 $$\n', 'nameless': 'no program\n', 'without': '#!/nowhere/sh\n'}

    @classmethod
    def setUpClass(cls):
        cls.folder = runs.put(Path(runs.shelf().name) / 'hostile', {**cls.PROGRAMS, 'plain': 'no program\n'})
        for name in cls.PROGRAMS:
            (cls.folder / name).chmod(0o755)
        cls.modules = {name: module_of(name) for name in HOSTILE}

    def judge(self, name, words, due=endings.REFUSED, **how):
        module, out = self.modules[name], how.get('out', io.BytesIO())
        status, told = ended(lambda: module.main(words), name, out=out, folder=self.folder)
        self.assertEqual(due, status, (name, words, told[:500]))
        self.assertTrue(told == module.__doc__ or told.count('\n') == 1, (name, words, told[:500]))
        return 1

    def words(self, name):
        yield from ([], ['--unknown'], ['silent', '--unknown'], ['silent', '--unknown', '1'])
        yield from ([program] for program in (*self.PROGRAMS, 'plain', 'nowhere', '/', '', '/dev/null', 'plain/x',
                                              'x' * 5000))
        yield from ([program, '--help=1'] for program in ('silent', 'nowhere'))
        for option in (*NUMBERS.get(name, ()), '--only', '--mode', '--list', '--once', '--to-wrong'):
            for text in (MOST_DIGITS, 'x', '', '1.5'):
                yield ['nowhere', option, text]
                yield ['nowhere', option + '=' + text]

    def test_words_and_programs_that_are_none(self):
        for name in HOSTILE:
            with self.subTest(name):
                self.assertGreaterEqual(sum(self.judge(name, words) for words in self.words(name)), 40)

    def test_outputs_that_can_not_be_written(self):
        for name in HOSTILE:
            for why, due in STOPS:
                self.judge(name, ['--help'], due, out=Failing(why))
            self.judge(name, ['--help'], endings.UNWRITTEN, out=None)


class Entry(unittest.TestCase):
    """The entry of the scripts for planners, and the check of the documents, in this process."""

    PAGES = ('`%s`' % MOST_DIGITS, '%s that may wait' % MOST_DIGITS, '[a](%s)' % ('/' * 1000), '`x` of ' * 5000,
             '|' * 50000,
             '`a`, ' * 20000 + '`b` of `c`', '# ' * 50000, '    ./waveplan', '`tools/wave`',
             '`docs/lines-to-read %s`' % ('x ' * 500),
             '## The headline\n\n| a | b | `IsLegal` of `wp_model` | %s |' % MOST_DIGITS,
             '## The crates\n\n| `wp_x` | | `wp_y` |')

    @classmethod
    def setUpClass(cls):
        cls.folder = Path(runs.shelf().name) / 'entry'
        for place, content in enumerate([*bad_bytes(), *(page.encode() for page in cls.PAGES)]):
            runs.put(cls.folder / ('bad %d' % place), {'README.md': content, 'crates.txt': b'wp_model:\n'})
            runs.put(cls.folder / ('odd %d' % place), {'README.md': b'A page.\n', 'crates.txt': content})
        runs.put(cls.folder / 'bare', {'README.md': b'A page.\n'})
        runs.put(cls.folder / 'folder' / 'README.md', {})
        runs.put(cls.folder / 'inner' / 'docs' / 'x.md', {'y': b''})
        runs.put(cls.folder / 'inner', {'README.md': b'A page.\n'})
        cls.documents = module_of('documents')

    def judge(self, words, due, **how):
        out = how.get('out', io.BytesIO())
        status, told = ended(lambda: self.documents.main(words), 'documents', out=out, folder=self.folder)
        self.assertIn(status, due, (words, told[:500]))
        self.assertEqual(int(status > 1), told.count('\n'), (words, told[:500]))
        return 1

    def test_documents_of_a_wrong_form(self):
        count = sum(self.judge(['--top', str(folder)], (0, 1)) for folder in self.folder.glob('bad *'))
        count += sum(self.judge(['--top', str(folder)], (0, 1)) for folder in self.folder.glob('odd *'))
        for words in (['--top', 'nowhere'], ['--top', 'bare'], ['--top', 'folder'], ['--top', 'inner'], ['--top'],
                      ['nowhere'], ['/'],
                      ['--top', '/dev/null'], ['a', 'b'], ['--nothing'], ['--top', 'x' * 5000], ['x' * 5000]):
            count += self.judge(words, (endings.REFUSED,))
        self.assertGreaterEqual(count, 40)

    def test_outputs_of_the_check_that_can_not_be_written(self):
        for why, due in STOPS:
            self.judge(['--help'], (due,), out=Failing(why))
        self.judge(['--help'], (endings.UNWRITTEN,), out=None)

    def test_words_that_name_no_subcommand(self):
        words = [MOST_DIGITS, 'x' * 50000, '', '-', '--', '--x', '-h', '--help=1', '\udcff', '\u0663', '../sheets',
                 'Sheets', 'sheet', 'sheets ', 'to_csv']
        words += [name + end for name in entry.SUBCOMMANDS for end in ('s', '=', '\n')]
        self.assertGreaterEqual(len(words), 40)
        for word in words:
            status, told = ended(lambda: entry.tell_subcommands([word]), 'wave', out=io.BytesIO())
            self.assertEqual(endings.REFUSED, status, (word, told[:500]))
            self.assertTrue(told.count('\n') == 1 or told.startswith('The one entry'), (word, told[:500]))


def may_be_interrupted():
    """Lets a process be interrupted, whoever has started these tests."""
    signal.signal(signal.SIGINT, signal.SIG_DFL)


def waiting_in(pipe):
    """How many bytes of a pipe nobody has read."""
    return int.from_bytes(fcntl.ioctl(pipe, termios.FIONREAD, bytes(4)), sys.byteorder)


class Processes(unittest.TestCase):
    """All scripts as processes of their own, beside each other: real devices, and a signal."""

    NAMES = ('wave', 'documents', 'keep-store', *entry.SUBCOMMANDS, *HOSTILE, *('hostile/' + name for name in HOSTILE))

    def ended(self, name, more, **how):
        words = [str(runs.TOOLS / name), *more]
        done = subprocess.run(words, stderr=subprocess.PIPE, timeout=60, **how)
        return name, done.returncode, done.stderr.decode()

    def each(self, names, more, **how):
        with ThreadPoolExecutor(4) as pool:
            return list(pool.map(lambda name: self.ended(name, more, **how), names))

    def test_each_answers_help(self):
        with open(os.devnull, 'wb') as out:
            for name, status, told in self.each(self.NAMES, ['--help'], stdout=out):
                self.assertEqual((0, ''), (status, told), name)

    def test_a_full_disk_and_a_closed_pipe(self):
        reader, writer = os.pipe()
        os.close(reader)
        with open('/dev/full', 'wb') as full, os.fdopen(writer, 'wb') as gone:
            for out, why in ((full, 'No space left on device'), (gone, 'its reader has ended')):
                for name, status, told in self.each(self.NAMES, ['--help'], stdout=out):
                    self.assertEqual((4, '%s: the output cannot be written: %s\n' % (Path(name).name, why)),
                                     (status, told))

    def test_both_names_of_a_subcommand_do_the_same(self):
        folder = runs.put(Path(runs.shelf().name) / 'names', FILES)
        for name in RIGHT:
            words = RIGHT[name][0][0]
            each = [subprocess.run([*command, *words], cwd=folder, stdout=subprocess.PIPE, stderr=subprocess.PIPE)
                    for command in ([runs.TOOLS / name], [runs.TOOLS / 'wave', name])]
            self.assertEqual(*((done.returncode, done.stdout, done.stderr) for done in each), name)
            self.assertEqual(int(name == 'compare'), each[0].returncode, name)

    def test_an_interruption(self):
        for name in ('continue', 'second-opinion'):
            words = {'continue': ['-'], 'second-opinion': [*JUDGED, '-']}[name]
            script = subprocess.Popen([str(runs.TOOLS / name), *words], stdin=subprocess.PIPE, stdout=subprocess.PIPE,
                                      stderr=subprocess.PIPE, preexec_fn=may_be_interrupted)
            script.stdin.write(b'journal\n')
            script.stdin.flush()
            while waiting_in(script.stdin):
                time.sleep(0.05)
            script.send_signal(signal.SIGINT)
            _, told = script.communicate()
            self.assertEqual((130, '%s: interrupted\n' % name), (script.returncode, told.decode()))


if __name__ == '__main__':
    unittest.main()
