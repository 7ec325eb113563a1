"""Tests of the scripts that read a plan's output: sheets, tables, JSON, comparing, going on."""

import csv
import io
import json
import re
import unittest
import xml.etree.ElementTree as ElementTree
from pathlib import Path

import by_hand
import runs
from floor import drawing, output, warehouse

DAY = runs.EXAMPLES / 'one-day'
LATER = '''journal
0 1 submit W1 O1 -> submitted
1 1 release W1 -> released
2 1 submit W2 O2 -> refused over-cart O2 9
3 1 strange W1 -> refused odd
end journal
wave W1 entry 1 orders 1 capacity 2 units 8 cost 2 bound 1 open
batch 1 length 2 orders O1
tour 1-0 1-1 1-0
pick 1-1-L A 2 O1
rules s-shape 2 0 return 2 0 largest-gap 2 0
extra 7
certificate {"capacity":2}
root 1 2 over 1 open
end wave
unknown line
refills
end refills
crew longest 2 least 2
picker 1 load 2 batches W1/1
picker 2 load 0 batches
end crew
stock
1-1-L A 5 3 2
end stock
end
'''
SMALL = '{"version":2,"aisles":1,"slots":4,"pitch":2,"clearance":1,"spacings":[],"depot":1,"end":"front"}'


def sheets(day, layout=DAY / 'layout.json', *more):
    return runs.script('sheets', '--layout', layout, *more, day)


class Sheets(unittest.TestCase):
    @classmethod
    def setUpClass(cls):
        cls.day = runs.example_day()
        cls.page = sheets(cls.day).output

    def section(self, title):
        return self.page.split(title)[1].split('</section>')[0]

    def test_picks_stand_in_the_order_of_the_walk(self):
        stops = re.findall(r'<td>(\d+-\d+-[LR])</td>', self.section('Wave MON-08.00, cart 1 of 3'))
        tour = output.read_output(str(self.day)).waves[0].batches[0].tour
        firsts = [tour.index(output.slot_of(stop)) for stop in stops]
        self.assertEqual(sorted(firsts), firsts)
        self.assertEqual('14-5-L', stops[0])

    def test_each_pick_has_its_page_and_a_box(self):
        held = [pick for wave in output.read_output(str(self.day)).waves if not wave.cancelled for batch in wave.batches
                for pick in batch.picks]
        self.assertEqual(len(held) + 1, self.page.count('type="checkbox"'))  # and one refill
        for pick in held:
            self.assertIn('<td>%s</td><td>%s</td><td>%d</td>' % (pick.location, pick.article, pick.quantity), self.page)

    def test_a_wave_that_was_cancelled_has_no_page(self):
        self.assertIn('Cancelled later', self.page)
        self.assertNotIn('Wave MON-10.00, cart', self.page)

    def test_the_first_page_tells_what_was_refused_and_what_is_short(self):
        self.assertIn('the orders of MON-13.00 want 1 of DRUM-DR2400 together, and 0 are free', self.page)
        self.assertIn('release MON-13.00</td><td>short DRUM-DR2400 1 0', self.page)
        self.assertNotIn('Short articles', self.page)  # the wave had its drum later

    def test_it_needs_no_other_file_and_no_network(self):
        network = r'(?:src|href)="(?!#)|url\(|@import|fetch|XMLHttp|https?:(?!//www\.w3\.org/2000/svg")'
        self.assertIsNone(re.search(network, self.page))

    def test_each_drawing_is_well_formed(self):
        drawings = re.findall(r'<svg xmlns.*?</svg>', self.page)
        self.assertEqual(5, len(drawings))
        for each in drawings:
            ElementTree.fromstring(each)

    def test_one_drawing_alone(self):
        done = sheets(self.day, DAY / 'layout.json', '--drawing', 'MON-08.00', '2')
        self.assertEqual(0, done.status)
        root = ElementTree.fromstring(done.output)
        texts = [each.text for each in root.iter('{http://www.w3.org/2000/svg}text')]
        self.assertLessEqual({'20', 'depot', '6'}, set(texts))

    def test_an_open_wave_tells_the_budget_of_a_node(self):
        day = runs.day_of('one-day', '--capacity', '3', '--budget', '0')
        self.assertRegex(sheets(day).output, 'A budget of 2\u202f048, or --nodes 1, pays for a node')

    def test_later_kinds_of_lines_are_shown_or_passed_over(self):
        folder = runs.put(Path(runs.shelf().name) / 'later', {'day.txt': LATER, 'layout.json': SMALL})
        done = sheets(folder / 'day.txt', folder / 'layout.json')
        self.assertEqual('', done.errors)
        for text in ('2 units of 8 that the cart holds', 'By usual rules the walk is: s-shape 2 (0 longer)', 'W1/1',
                     'O2 has 9 units, all its lines together, and a cart holds fewer'):
            self.assertIn(text, done.output)

    def test_what_is_no_output_is_told(self):
        for text, why in (('refused stock row 1 columns\n', 'no plan: it says'), ('journal\nend journal\n', 'cut off'),
                          ('bound 68\n', 'no output of')):
            done = runs.script('sheets', '--layout', DAY / 'layout.json', '-', given=text.encode())
            self.assertEqual(2, done.status)
            self.assertIn(why, done.errors)

    def test_the_layout_of_another_day_is_told(self):
        done = sheets(self.day, runs.EXAMPLES / 'one-wave' / 'layout.json')
        self.assertEqual(2, done.status)
        self.assertIn('is it the layout of this day?', done.errors)
        self.assertEqual(2, sheets(self.day, DAY / 'stock.csv').status)

    def test_a_way_is_drawn_by_its_corners(self):
        self.assertEqual([(1, 0), (1, 2), (1, 0), (2, 0)],
                         drawing.corners([(1, 0), (1, 1), (1, 2), (1, 1), (1, 0), (2, 0)]))

    def test_a_depot_at_the_back_lies_above(self):
        layout = warehouse.Layout(3, 4, 2, 1, (5, 20), 2, True)
        scale = drawing.Scale(layout)
        self.assertLess(scale.y(5), scale.y(0))
        self.assertEqual((2, 5), layout.depot_point())
        self.assertAlmostEqual(4 * (scale.x(2) - scale.x(1)), scale.x(3) - scale.x(2))


class Tables(unittest.TestCase):
    def test_the_tables_have_all_that_is_printed(self):
        folder = Path(runs.shelf().name) / 'tables'
        self.assertEqual(0, runs.script('to-csv', runs.example_day(), folder).status)
        day = output.read_output(str(runs.example_day()))
        tables = {path.stem: list(csv.DictReader(io.StringIO(path.read_bytes().decode()))) for path in folder.iterdir()}
        self.assertEqual({'journal', 'waves', 'batches', 'picks', 'refills', 'pickers', 'stock'}, set(tables))
        self.assertEqual([len(day.entries), 3, 8, 1, len(day.rows)],
                         [len(tables[name]) for name in ('journal', 'waves', 'batches', 'refills', 'stock')])
        self.assertEqual(sum(len(batch.picks) for wave in day.waves for batch in wave.batches), len(tables['picks']))
        self.assertEqual(('1', '14-5-L'), (tables['picks'][0]['place'], tables['picks'][0]['location']))
        self.assertEqual(('refused', 'short', 'DRUM-DR2400 1 0'),
                         tuple(tables['journal'][8][name] for name in ('reply', 'reason', 'about')))
        self.assertTrue((folder / 'stock.csv').read_bytes().endswith(b'\r\n'))
        self.assertEqual({''}, {wave['units'] for wave in tables['waves']})
        self.assertEqual(0, runs.script('to-csv', '-', folder, given=LATER.encode()).status)
        waves = list(csv.DictReader(io.StringIO((folder / 'waves.csv').read_text())))
        self.assertEqual([('2', '8', '2')], [(wave['capacity'], wave['units'], wave['cost']) for wave in waves])

    def test_the_object_has_all_that_is_printed(self):
        found = json.loads(runs.script('to-json', runs.example_day()).output)
        self.assertEqual([12, 3, 1], [len(found[name]) for name in ('journal', 'waves', 'refills')])
        self.assertEqual({'place': 1, 'location': '14-5-L', 'article': 'PAPER-A3-80G', 'quantity': 12,
                          'order': 'SO-10235'}, found['waves'][0]['batches'][0]['picks'][0])
        later = json.loads(runs.script('to-json', '-', given=LATER.encode()).output)
        self.assertEqual((8, 2), (later['waves'][0]['units'], len(later['crew']['pickers'])))
        self.assertEqual({'low': 1, 'high': 2, 'over': 1, 'state': 'open'}, later['waves'][0]['root'])

    def test_two_plans_are_compared(self):
        one = runs.example_day()
        same = runs.script('compare', one, one)
        self.assertEqual((0, 'no difference\n'), (same.status, same.output))
        done = runs.script('compare', one, runs.day_of('one-day', '--capacity', '1'))
        self.assertEqual(1, done.status)
        self.assertRegex(done.output, r'MON-08.00 cost: 74300, and \d+ \(\+')
        self.assertRegex(done.output, 'only in the second: batch of SO-10231')
        for units, told in ((' units 9', 'W1 units: 8, and 9\n'), ('', 'W1 units: 8, and None\n')):
            folder = runs.put(Path(runs.shelf().name) / 'carts',
                              {'one.txt': LATER, 'other.txt': LATER.replace(' units 8', units)})
            self.assertIn(told, runs.script('compare', folder / 'one.txt', folder / 'other.txt').output)
        changed = Path(runs.shelf().name) / 'changed.txt'
        changed.write_text(one.read_text().replace('refused short DRUM-DR2400 1 0', 'refused short DRUM-DR2400 2 0'))
        self.assertIn('release MON-13.00: refused short DRUM-DR2400 1 0, and refused short DRUM-DR2400 2 0',
                      runs.script('compare', one, changed).output)



class Reported(unittest.TestCase):
    def test_the_report_of_an_example_is_as_the_document_prints_it(self):
        words = ('--capacity', '3', '--rules', '1', '--pickers', '3')
        folder = runs.put(Path(runs.shelf().name) / 'reported',
                          {'day.txt': runs.day_of('one-day', *words).read_bytes()})
        done = runs.script('report', '--per-metre', '100', folder / 'day.txt')
        section = (runs.TOP / 'docs' / 'QUESTIONS.md').read_text().split('## How good are we')[1].split('\n## ')[0]
        self.assertIn('%s > day.txt\n    tools/wave report --per-metre 100 day.txt\n' % ' '.join(words), section)
        lines = [line[4:] for line in section.splitlines() if line.startswith('    ') and line[4:] != '..']
        printed = [line for line in lines if not line.startswith(('./waveplan', 'tools/'))]
        self.assertEqual(13, len(printed))
        self.assertEqual(printed, [line for line in done.output.splitlines() if line in printed])


class Shown(unittest.TestCase):
    """What the scripts make of lines of rules, brackets and a crew: of outputs that were written by hand, so that no
    program is run."""

    def test_rules_and_pickers_are_shown(self):
        folder = runs.put(Path(runs.shelf().name) / 'shown',
                          {'day.txt': '\n'.join(by_hand.PAIR), 'layout.json': by_hand.LAYOUT})
        page = sheets(folder / 'day.txt', folder / 'layout.json').output
        for text in ('s-shape 26 (0 longer), return 38 (12 longer), largest-gap 26 (0 longer)',
                     '<h2>By usual rules</h2>',
                     '<td>return</td><td class="right">60</td><td class="right">12</td>'
                     '<td class="right">25.0\u202f%</td>', 'The longest load is 26; ',
                     '<td class="right">2</td><td class="right">22</td><td><a href="#cart-W1-2">W1/2</a></td>'):
            self.assertIn(text, page)
        self.assertIn('Walked by picker <b>2</b>', page.split('Wave W1, cart 2 of 2')[1])
        day = runs.put(folder, {'alone.txt': '\n'.join(by_hand.ALONE)}) / 'alone.txt'
        self.assertIn('<a href="#cart-W1-2">W1/2</a>, W2/1 (cancelled later)',
                      sheets(day, folder / 'layout.json').output)
        day = runs.put(folder, {'plain.txt': '\n'.join(by_hand.plain(by_hand.PAIR))}) / 'plain.txt'
        self.assertNotRegex(sheets(day, folder / 'layout.json').output, 'picker|usual rules|Linear bounds')

    def test_brackets_are_shown(self):
        thirds = '\n'.join(by_hand.PAIR).replace('1800 2880 over 60 open', '290000 290001 over 3 narrow')
        folder = runs.put(Path(runs.shelf().name) / 'brackets',
                          {'day.txt': '\n'.join(by_hand.PAIR), 'thirds.txt': thirds, 'layout.json': by_hand.LAYOUT})
        for name, sides, state in (('day.txt', ('&ndash;', '&ndash;'),
                                    'open: the search ended before it told anything'),
                                   ('thirds.txt', ('96\u202f666.66', '96\u202f667.00'), 'narrow')):
            page = sheets(folder / name, folder / 'layout.json').output
            self.assertIn('<tr><td class="name">W1</td>%s<td>%s</td></tr>'
                          % (''.join('<td class="right">%s</td>' % side for side in sides), state),
                          page.split('<h2>Linear bounds</h2>')[1])

    def test_brackets_are_told_and_compared(self):
        for lines, due in ((by_hand.PAIR, ['1800', '2880', '60', 'open']), (by_hand.plain(by_hand.PAIR), [''] * 4)):
            folder = Path(runs.shelf().name) / 'bracket-tables'
            self.assertEqual(0, runs.script('to-csv', '-', folder, given='\n'.join(lines).encode()).status)
            waves = list(csv.DictReader(io.StringIO((folder / 'waves.csv').read_text())))
            self.assertEqual([due], [[row['root_' + name] for name in ('low', 'high', 'over', 'state')]
                                     for row in waves])
        one = '\n'.join(by_hand.PAIR)
        for other, told in ((one, 'no difference'), ('\n'.join(by_hand.without(by_hand.PAIR, 'root ')),
                                                     'brackets: told only in the first\n'),
                            (one.replace('1800 2880 over 60 open', '2880 2880 over 60 narrow'),
                             'W1 bracket: 1800 to 2880 over 60, open, and 2880 to 2880 over 60, narrow\n')):
            folder = runs.put(Path(runs.shelf().name) / 'brackets', {'one.txt': one, 'other.txt': other})
            self.assertIn(told, runs.script('compare', folder / 'one.txt', folder / 'other.txt').output)

    def test_the_tables_have_rules_and_pickers(self):
        for lines, batches, pickers in ((by_hand.PAIR, [['26', '26', '38', '26', '1'], ['22', '22', '22', '22', '2']],
                                         [['1', '26', 'W1/1'], ['2', '22', 'W1/2']]),
                                        (by_hand.plain(by_hand.PAIR), [['26', '', '', '', ''], ['22', '', '', '', '']],
                                         []),
                                        (by_hand.NOBODY, [], [['1', '0', '']])):
            folder = Path(runs.shelf().name) / 'shown-tables'
            self.assertEqual(0, runs.script('to-csv', '-', folder, given='\n'.join(lines).encode()).status)
            tables = {name: list(csv.DictReader(io.StringIO((folder / (name + '.csv')).read_text())))
                      for name in ('batches', 'pickers')}
            self.assertEqual(batches, [[row[name] for name in ('length', 's_shape', 'return', 'largest_gap', 'picker')]
                                       for row in tables['batches']])
            self.assertEqual(pickers, [[row[name] for name in ('picker', 'load', 'batches')]
                                       for row in tables['pickers']])

    def test_the_object_has_rules_pickers_and_brackets(self):
        shown = json.loads(runs.script('to-json', '-', given='\n'.join(by_hand.PAIR).encode()).output)
        self.assertEqual({'name': 'return', 'length': 38, 'surplus': 12}, shown['waves'][0]['batches'][0]['rules'][1])
        self.assertEqual({'longest': 26, 'least': 26,
                          'pickers': [{'picker': 1, 'load': 26, 'batches': ['W1/1']},
                                      {'picker': 2, 'load': 22, 'batches': ['W1/2']}]}, shown['crew'])
        plain = json.loads(runs.script('to-json', '-', given='\n'.join(by_hand.plain(by_hand.PAIR)).encode()).output)
        self.assertEqual({'low': 1800, 'high': 2880, 'over': 60, 'state': 'open'}, shown['waves'][0]['root'])
        self.assertEqual(set(), {'rules', 'root', 'crew'} & {*plain, *plain['waves'][0],
                                                             *plain['waves'][0]['batches'][0]})

    def test_crews_are_compared(self):
        lines = by_hand.ALONE
        place = lines.index('crew longest 36 least 31')
        other = ['crew longest 38 least 31', 'picker 1 load 38 batches W1/1 W1/2', 'picker 2 load 24 batches W1/3 W2/1']
        one = ['crew longest 62 least 62', 'picker 1 load 62 batches W1/1 W1/2 W1/3 W2/1']
        for changed, told in ((lines, 'no difference'), (by_hand.plain(lines),
                                                         'rules: told only in the first\nbrackets: told only in the '
                                                         'first\ncrew: only in the first, 2 pickers with a longest '
                                                         'load of 36\n'),
                              (lines[:place] + other + lines[place + 3:],
                               'crew longest load: 36, and 38 (+5.56 %)\ncrew picker 1: W1/1 W1/3, and W1/1 W1/2\n'),
                              (lines[:place] + one + lines[place + 3:], 'crew pickers: 2, and 1 (-50.00 %)\n')):
            folder = runs.put(Path(runs.shelf().name) / 'crews',
                              {'one.txt': '\n'.join(lines), 'other.txt': '\n'.join(changed)})
            self.assertIn(told, runs.script('compare', folder / 'one.txt', folder / 'other.txt').output)

    def test_a_day_with_a_crew_goes_on_as_one_without(self):
        for name, *words in (('continue',), ('confirm', 'W1'), ('confirm', 'W1', '2'), ('closing-stock', '--free')):
            shown, plain = (runs.script(name, '-', *words, given='\n'.join(lines).encode())
                            for lines in (by_hand.ALONE, by_hand.plain(by_hand.ALONE)))
            self.assertEqual((0, plain.output), (shown.status, shown.output), name)
            self.assertGreater(len(shown.output.splitlines()), 0)


class GoingOn(unittest.TestCase):
    def replayed(self, records):
        folder = runs.put(Path(runs.shelf().name) / 'again',
                          {'desks.csv': records, **{name: (DAY / name).read_bytes() for name in runs.FILES[:3]}})
        return runs.planned(folder, '--capacity', '3')

    def test_a_day_is_played_again_to_the_same_output(self):
        done = self.replayed(runs.script('continue', runs.example_day()).output)
        self.assertEqual(runs.example_day().read_bytes(), done.bytes)

    def test_a_day_of_three_desks_is_played_again(self):
        folder, day = runs.EXAMPLES / 'three-desks', runs.day_of('three-desks', '--capacity', '2')
        again = runs.put(Path(runs.shelf().name) / 'three', {'desks.csv': runs.script('continue', day).output, **{
            name: (folder / name).read_bytes() for name in runs.FILES[:3]}})
        one_desk = re.sub(r'^(\d+) [1-8] ', r'\1 1 ', day.read_text(), flags=re.MULTILINE)
        self.assertEqual(one_desk, runs.planned(again, '--capacity', '2').output)

    def test_a_wave_that_is_confirmed_is_done(self):
        records = runs.script('continue', runs.example_day()).output
        for batch in ('1', '2', '3'):
            records += runs.script('confirm', runs.example_day(), 'MON-08.00', batch).output
        done = self.replayed(records)
        self.assertNotIn('refused not-held', done.output)
        self.assertIn('pick MON-08.00 SO-10232 6-13-R 1 -> picked', done.output)
        self.assertIn('refused wrong-state done', self.replayed(records + '1,cancel,MON-08.00\n').output)
        whole = runs.script('confirm', runs.example_day(), 'MON-08.00', '--desk', '2').output
        self.assertEqual(sorted(records.splitlines()[13:]), sorted(whole.replace('2,pick', '1,pick').splitlines()))

    def test_what_can_not_be_picked_is_told(self):
        for words, why in (('MON-10.00', 'cancelled later'), ('MON-09.00', 'no wave'), ('MON-08.00 4', 'no batch 4')):
            done = runs.script('confirm', runs.example_day(), *words.split())
            self.assertEqual(2, done.status)
            self.assertIn(why, done.errors)

    def test_the_closing_stock_is_read_again(self):
        layout = DAY / 'layout.json'
        for flag, drum in (('--on-hand', 6), ('--free', 5)):
            stock = runs.script('closing-stock', runs.example_day(), flag).output
            self.assertIn('5-36-R,DRUM-DR2400,%d\n' % drum, stock)
            folder = runs.put(Path(runs.shelf().name) / 'next',
                              {'stock.csv': stock, 'desks.csv': 'desk,command,arguments\n',
                               'layout.json': layout.read_bytes(),
                                                                'orders.csv': (DAY / 'orders.csv').read_bytes()})
            self.assertEqual(0, runs.planned(folder, '--capacity', '3').status)


class Dividing(unittest.TestCase):
    LINES = 'order,article,quantity\nO1,A,7\nO1,B,5\nO2,A,2\n'
    COMMANDS = 'desk,command,arguments\n1,submit,W1,O1,O2\n1,submit,W2,O1.1,O1.2,O2\n1,release,W2\n'

    def test_what_is_divided_goes_out(self):
        files = {'layout.json': SMALL, 'stock.csv': 'location,article,on_hand\n1-1-L,A,9\n1-2-L,B,4\n',
                 'orders.csv': self.LINES, 'desks.csv': self.COMMANDS}
        folder = runs.put(Path(runs.shelf().name) / 'divided', files)
        done = runs.script('split', *runs.options(folder, runs.FILES[:3]), '--units', '5')
        self.assertEqual('O1: 5 B to the back order O1.b\nO1: 7 units, in 2 orders, O1.1 to O1.2\n4 orders, of 2\n',
                         done.errors)
        runs.put(folder, {'orders.csv': done.output + 'O1,A,7\n'})
        replies = runs.planned(folder, '--capacity', '3', '--units', '5').output.splitlines()[1:4]
        self.assertEqual(['0 1 submit W1 O1 O2 -> refused over-cart O1 7', '1 1 submit W2 O1.1 O1.2 O2 -> submitted',
                          '2 1 release W2 -> released'], replies)


class Helping(unittest.TestCase):
    def test_each_script_says_how_it_is_used(self):
        for name in ('sheets', 'to-csv', 'to-json', 'from-json', 'compare', 'import', 'split', 'explain', 'continue',
                     'confirm', 'closing-stock', 'report', 'second-opinion', 'what-if', 'slotting'):
            done = runs.script(name, '--help')
            self.assertEqual((0, ''), (done.status, done.errors), name)
            self.assertRegex(done.output, '(?s)usage: tools/%s.*(?:not|[Nn]othing).*proved' % name)
            self.assertEqual(2, runs.script(name).status, name)


if __name__ == '__main__':
    unittest.main()
