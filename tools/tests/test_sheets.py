"""Tests of the pages: heads of further pages, sizes, bar codes, marks of what is missing, what is left out, the
planner's totals. Most need no program."""

import re
import shutil
import subprocess
import unittest
from pathlib import Path

import by_hand
import code128
import runs
from floor import bar_codes, cart_pages, drawing, figures, output, warehouse

LAYOUT = by_hand.LAYOUT
POINT = 25.4 / 72  # millimetres


def written(name, lines):
    """A file with the lines of a day, in a folder with its layout."""
    folder = runs.put(Path(runs.shelf().name) / 'sheets', {name: '\n'.join(lines), 'layout.json': LAYOUT})
    return folder / name


def sheets(day, *more):
    """The pages of a day that stands in a folder with its layout."""
    done = runs.script('sheets', '--layout', Path(day).parent / 'layout.json', *more, day)
    assert (done.status, done.errors) == (0, ''), done.errors
    return done.output


def long_day(picks, name='O1', article='A'):
    """A wave with one cart that picks so many times at one slot."""
    lines = list(by_hand.MISSING[:1]) + ['0 1 submit W1 %s -> submitted' % name, '1 1 release W1 -> released',
                                         'end journal',
                                         'wave W1 entry 1 orders 1 capacity 2 cost 2 bound 2 proven',
                                         'batch 1 length 2 orders %s' % name, 'tour 1-0 1-1 1-0']
    return lines + ['pick 1-1-L %s %d %s' % (article, number, name) for number in range(1, picks + 1)] + [
        'end wave', 'refills', 'end refills', 'stock', 'end stock', 'end', '']


def section(page, title):
    return page.split(title)[1].split('</section>')[0]


class Paper(unittest.TestCase):
    def test_each_further_page_has_the_head_of_the_first(self):
        page = sheets(written('long.txt', long_day(60)), '--unit', 'cm', '--run', 'planned 2026-12-01 07:40')
        heads = re.findall(r'<h1>Wave W1, cart 1 of 1</h1><p class="of">page (\d+) of (\d+)</p><p class="run">(.*?)</p>'
                           r'<p class="fields">(.*?)</p>', page)
        self.assertEqual([(str(place), str(len(heads)), 'planned 2026-12-01 07:40 &middot; lengths in cm',
                           '<span>Name</span><span>Time</span>')
                          for place in range(1, len(heads) + 1)], heads)
        self.assertEqual(3, len(heads))
        self.assertEqual(60, page.count('type="checkbox"'))

    def test_no_page_has_more_than_goes_onto_paper(self):
        for rows in ([('', 9.2)] * 60, [('', 50)] * 9, [('', 500), ('', 9), ('', 9)]):
            dealt = cart_pages.sheets_of([(str(high), high) for _, high in rows], 40, 250)
            self.assertEqual([str(high) for _, high in rows], sum(dealt, []))
            for place, some in enumerate(dealt):
                self.assertTrue(sum(map(float, some)) <= (250 if place else 40) or len(some) == 1, dealt)

    def test_rows_of_long_names_are_higher(self):
        told = cart_pages.Told('', '', None, False, {}, {})
        high = [cart_pages.row_of(told,
                                  output.Wave('W', dict(entry=0, orders=1, capacity=1, cost=0, bound=0), ['proven']), 1,
                                  output.Pick('1-1-L', 'A' * size, 1, 'O' * size), 1)[1] for size in (5, 40)]
        self.assertEqual(cart_pages.ROW, high[0])
        self.assertGreater(high[1], 3 * cart_pages.LINE)

    def test_numbers_in_drawings_are_seven_points_high_on_paper(self):
        self.assertGreaterEqual(drawing.LETTERS * cart_pages.WIDE / drawing.WIDE / POINT, 7)
        sizes = re.findall(r'font-size:([\d.]+)', drawing.STYLE)
        self.assertEqual([str(drawing.LETTERS)], sizes)

    def test_locations_and_quantities_are_bold_and_14_points_high(self):
        page = sheets(written('long.txt', long_day(1)))
        self.assertIn('body{font:11pt/', page)
        self.assertIn('.picks td:nth-child(2),.picks td:nth-child(4),.big{font-size:14pt;font-weight:700', page)
        self.assertIn('<td>1</td><td>1-1-L</td><td>A</td><td>1</td><td><b>1</b> O1</td>', page)

    def test_thousands_are_written_one_way(self):
        longer = {'cost 2 bound 2': 'cost 12345 bound 2345', 'length 2 ': 'length 12345 ', ' A 1 ': ' A 1000 '}
        text = '\n'.join(long_day(1))
        for short, long in longer.items():
            text = text.replace(short, long)
        page = sheets(written('long.txt', text.split('\n')))
        self.assertIn('12\u202f345', page)
        self.assertIn('<td>1\u202f000</td>', page)
        self.assertIsNone(re.search(r'>[^<]*\d,\d{3}', page.split('</style>')[-1]))

    def test_a_length_has_its_unit(self):
        self.assertEqual(('metres a line', '2.5'), figures.length_of_line(1000, 4, 'cm'))
        self.assertEqual(('walk a line', '250.0 feet'), figures.length_of_line(1000, 4, 'feet'))
        self.assertEqual(('walk a line', '250.0'), figures.length_of_line(1000, 4, None))


class Drawings(unittest.TestCase):
    def wide(self, aisles=64, slots=200, spacings=None):
        return warehouse.Layout(aisles, slots, 10, 10, tuple(spacings or [30] * (aisles - 1)), 1, False)

    def boxes(self, layout, points):
        walk = [(point, [output.Pick('%d-%d-%s' % (*point, side), 'A', 1, 'O') for side in sides])
                for point, sides in points]
        return [(x - wide / 2, y - drawing.HIGH_TAG / 2, x + wide / 2, y + drawing.HIGH_TAG / 2)
                for _, (x, y), wide in drawing.tags(layout, walk)]

    def test_numbers_of_stops_do_not_cover_each_other_nor_dots(self):
        crowd = [((aisle, slot), 'L' if slot % 2 else 'LR') for aisle in range(1, 65, 3) for slot in range(1, 200, 45)]
        for layout, points in ((self.wide(), crowd), (self.wide(20, 45), [((3, slot), 'L') for slot in range(1, 41)])):
            boxes = self.boxes(layout, points)
            for place, (left, top, right, low) in enumerate(boxes):
                self.assertTrue(0 < left and right < drawing.WIDE and 0 < top and low < drawing.scale_of(layout).height)
                for other in boxes[:place]:
                    self.assertFalse(left < other[2] and other[0] < right and top < other[3] and other[1] < low,
                                     (place, other))
                for point, sides in points:
                    for x, y in drawing._dots(drawing.scale_of(layout), point, sides):
                        self.assertFalse(left < x < right and top < y < low)

    def test_a_number_stands_beside_its_stop_where_there_is_room(self):
        layout = self.wide(20, 45)
        for side, sign in (('L', -1), ('R', 1)):
            (left, top, right, low), = self.boxes(layout, [((5, 20), side)])
            self.assertEqual(drawing.scale_of(layout).y(20), (top + low) / 2)
            self.assertGreater(sign * ((left + right) / 2 - drawing.scale_of(layout).x(5)), 0)

    def test_numbers_of_aisles_do_not_touch(self):
        for layout, due in ((self.wide(20), list(range(1, 21))), (self.wide(), list(range(1, 65, 2))),
                            (self.wide(64, 200, [1] * 62 + [10000]), [1, 64])):
            self.assertEqual(due, drawing.numbered(layout))
        uneven = self.wide(64, 200, [30 + 25 * (place % 2) for place in range(63)])
        shown = drawing.numbered(uneven)
        places = [drawing.scale_of(uneven).x(aisle) for aisle in shown]
        apart = [right - left for left, right in zip(places, places[1:])]
        self.assertGreater(min(apart), drawing.wide_of(64))

    def test_numbers_of_slots_do_not_touch(self):
        for layout in (self.wide(), self.wide(2, 200, [10000]), self.wide(20, 45), self.wide(1, 4, [])):
            places = [drawing.scale_of(layout).y(slot) for slot in drawing._ticks(layout)]
            self.assertTrue(all(low - high >= drawing.LETTERS - 1 for low, high in zip(places, places[1:])), places)


class Codes(unittest.TestCase):
    NAMES = ['1-1-L', '64-200-R', 'A', 'TONER-TN2420', '24_6', 'a.b-C_d.0123456789', 'Z' * 40]

    def codes(self, page):
        return [code128.modules_of(each) for each in re.findall(r'<svg class="code".*?</svg>', page)]

    def test_each_printed_code_says_what_stands_above_it(self):
        page = sheets(written('missing.txt', by_hand.MISSING), '--codes')
        rows = re.findall(r'<td>(\d+-\d+-[LR])</td><td>([^<]*)</td>', page)
        self.assertEqual([text for row in rows for text in row], [code128.decoded(each) for each in self.codes(page)])
        self.assertEqual(3, len(rows))
        self.assertNotIn('class="code"', sheets(written('missing.txt', by_hand.MISSING)))

    def test_every_sign_of_a_name_is_decoded(self):
        for text in self.NAMES:
            modules = code128.modules_of(bar_codes.bar_code(text))
            self.assertEqual((text, bar_codes.wide_of(text)), (code128.decoded(modules), len(modules)))

    def test_the_longest_codes_go_onto_paper_beside_each_other(self):
        pixel = 25.4 / 96
        self.assertLess(8 + pixel * (bar_codes.wide_of('64-200-R') + bar_codes.wide_of('A' * 40)) + 4,
                        cart_pages.WIDE - 3)

    def test_a_code_that_is_wrong_is_told(self):
        modules = code128.modules_of(bar_codes.bar_code('1-1-L'))
        wrong = modules[:21] + code128.MODULES[5] + modules[32:]
        self.assertRaises(AssertionError, code128.decoded, wrong)
        self.assertRaises(AssertionError, code128.decoded, modules[5:])

    @unittest.skipUnless(shutil.which('zbarimg'),
                         'there is no zbarimg, which would be asked what the codes say: apt-get install zbar-tools')
    def test_zbarimg_reads_the_same(self):
        pictures = {'%d.pgm' % place: code128.picture(code128.modules_of(bar_codes.bar_code(text)))
                    for place, text in enumerate(self.NAMES)}
        folder = runs.put(Path(runs.shelf().name) / 'codes', pictures)
        words = ['zbarimg', '-q', '--raw', '-Sdisable', '-Scode128.enable', *pictures]
        done = subprocess.run(words, cwd=folder, stdout=subprocess.PIPE, stderr=subprocess.PIPE)
        self.assertEqual((0, self.NAMES), (done.returncode, done.stdout.decode().split()), done.stderr)


class Phone(unittest.TestCase):
    def test_a_page_is_made_for_a_phone(self):
        page = sheets(written('missing.txt', by_hand.MISSING))
        self.assertIn('<meta name="viewport" content="width=device-width,initial-scale=1">', page)
        self.assertIn('.picture{position:sticky;top:0;', page)
        self.assertIn('@media screen and (max-width:640px)', page)
        network = r'(?:src|href)="(?!#)|url\(|@import|fetch|XMLHttp|https?:(?!//www\.w3\.org/2000/svg")'
        self.assertIsNone(re.search(network, page))

    def test_ticks_are_kept_by_day_and_cart(self):
        day = written('missing.txt', by_hand.MISSING)
        keys = [re.findall('data-key="(.*?)"', sheets(day, '--day', name)) for name in ('Monday', 'Tuesday')]
        self.assertEqual(['Monday/refills', 'Monday/W1/1', 'Monday/W3/1'],
                         [key.rpartition('/')[0] for key in keys[0]])
        self.assertFalse(set(keys[0]) & set(keys[1]))
        other = written('other.txt',
                        [line.replace('pick 1-1-L A 3 O1', 'pick 1-1-L A 4 O1') for line in by_hand.MISSING])
        changed = re.findall('data-key="(.*?)"', sheets(other, '--day', 'Monday'))
        self.assertEqual([True, False, True], [one == another for one, another in zip(keys[0], changed)])


class Missing(unittest.TestCase):
    """What became of the picks since their sheets were printed."""

    def setUp(self):
        self.day = written('missing.txt', by_hand.MISSING)
        self.page = sheets(self.day)

    def test_refills_are_those_that_are_still_to_be_picked(self):
        rows = re.findall('<tr>(.*?)</tr>', section(self.page, '<h1>Refills</h1>'))[1:]
        self.assertEqual([['3-1-L', 'A', '1', 'O1', 'W1/1', '', ''], ['3-3-L', 'A', '1', 'O1', 'W1/1', '', '']],
                         [[re.sub('<[^>]*>', '', cell) for cell in re.findall('<td.*?</td>', row)] for row in rows])

    def test_refills_of_a_cart_name_its_picker(self):
        lines = [line for line in by_hand.MISSING]
        place = lines.index('end refills') + 1
        lines[place:place] = ['crew longest 4 least 4', 'picker 1 load 4 batches W1/1', 'picker 2 load 4 batches W3/1',
                              'picker 3 load 14 batches W2/1', 'end crew']
        page = sheets(written('crew.txt', lines))
        self.assertIn('<a href="#cart-W1-1">W1/1</a></td><td class="right">1</td>', section(page, '<h1>Refills</h1>'))
        self.assertIn('<td>picker 2</td><td class="right">4</td><td><div class="bar" style="width:100.0%"></div></td>',
                      page)

    def test_a_page_marks_the_place_that_was_missing_and_the_one_in_its_stead(self):
        told = re.sub('</?span.*?>', '', section(self.page, '<h1>Wave W1, cart 1 of 1</h1>'))
        self.assertIn('>1-1-L: 3 missing, in its stead 1 at 2-1-L and 2 at 3-1-L; '
                      '3-1-L: 1 missing, in its stead 1 at 3-3-L<', told)
        self.assertIn('>1-2-L: 1 missing, none in its stead<', told)
        self.assertNotIn('missing', section(self.page, '<h1>Wave W3, cart 1 of 1</h1>'))

    def test_short_articles_are_those_that_nobody_covered_later(self):
        told = section(self.page, '<h2>Short articles</h2>').split('<h2>')[0]
        self.assertEqual([['W4', 'C', '9', '0', '9'], ['W1', 'B', '1', 'lost', '1']],
                         [[re.sub('<[^>]*>', '', cell) for cell in re.findall('<td.*?</td>', row)]
                          for row in re.findall('<tr>(.*?)</tr>', told)[1:]])

    def test_a_refill_of_an_earlier_run_is_told_without_its_sheet(self):
        first = by_hand.MISSING.index('wave W1 entry 2 orders 2 capacity 2 cost 4 bound 4 proven')
        later = by_hand.MISSING[:first] + by_hand.MISSING[first + 7:]
        told = section(sheets(written('later.txt', later)), '<h1>Refills</h1>')
        self.assertIn('W1 (its sheet is of an earlier run)', told)
        self.assertEqual(['3-1-L', '3-3-L'], re.findall(r'big">(\d-\d-L)<', told))


class Some(unittest.TestCase):
    """Pages of some carts."""

    def test_a_wave_or_a_cart_alone(self):
        day = written('pair.txt', by_hand.PAIR)
        for more, carts in (((), ['1', '2']), (('--wave', 'W1'), ['1', '2']), (('--wave', 'W1', '--cart', '2'), ['2'])):
            page = sheets(day, *more)
            self.assertEqual(carts, re.findall(r'<h1>Wave W1, cart (\d) of 2', page))
            self.assertEqual(not more, 'Carts by length' in page)

    def test_a_cart_that_is_not_there_is_told(self):
        day = written('missing.txt', by_hand.MISSING)
        for more, why in ((('--wave', 'W9'), 'no wave W9'), (('--wave', 'W1', '--cart', '7'), 'no batch 7'),
                          (('--wave', 'W2'), 'was cancelled later'),
                          (('--cart', '1'), 'of which wave?')):
            done = runs.script('sheets', '--layout', day.parent / 'layout.json', *more, day)
            self.assertEqual(2, done.status)
            self.assertIn(why, done.errors)

    def test_what_is_unchanged_is_left_out(self):
        one, other = written('one.txt', by_hand.MISSING), [line.replace('pick 1-2-L B 4 O3', 'pick 1-2-L B 5 O3')
                                                           for line in by_hand.MISSING]
        page = sheets(one, '--since', one)
        self.assertNotIn('<h1>Wave', page)
        self.assertIn('<b>2 carts</b> have no page here: those of', page)
        page = sheets(written('other.txt', other), '--since', one)
        self.assertEqual(['W3'], re.findall(r'<h1>Wave (\S+), cart', page))
        self.assertIn('These pages of it are void: W3/1.', page)
        untold = [line for line in by_hand.MISSING if ' missing W1 ' not in line]
        self.assertEqual(['W1'],
                         re.findall(r'<h1>Wave (\S+), cart', sheets(one, '--since', written('untold.txt', untold))))

    def test_carts_of_an_earlier_run_have_pages_with_its_output(self):
        first = by_hand.MISSING.index('wave W3 entry 12 orders 1 capacity 2 cost 4 bound 4 proven')
        end = by_hand.MISSING.index('end journal')
        sheets_then = [line.replace(' cancelled later', '') for line in by_hand.MISSING[end + 1:first]]
        earlier = by_hand.MISSING[:8] + ['end journal'] + sheets_then + by_hand.MISSING[first + 6:]
        later = by_hand.MISSING[:end + 1] + by_hand.MISSING[first:]
        noon, morning = written('noon.txt', later), written('morning.txt', earlier)
        page = sheets(noon, '--earlier', morning, '--wave', 'W1')
        self.assertEqual(['W1'], re.findall(r'<h1>Wave (\S+), cart', page))
        page = sheets(noon, '--since', morning)
        self.assertEqual(['W3'], re.findall(r'<h1>Wave (\S+), cart', page))
        self.assertIn('These pages of it are void: W2/1.', page)

    def test_what_is_no_location_is_told(self):
        for text in ('1-1-<script>', '1-1', '1-1-L-L'):
            lines = [line.replace('pick 1-2-L', 'pick ' + text) for line in by_hand.MISSING]
            done = runs.script('sheets', '--layout', written('bad.txt', lines).parent / 'layout.json', '-',
                               given='\n'.join(lines).encode())
            self.assertEqual((2, ''), (done.status, done.output))
            self.assertIn('is not as a plan prints it', done.errors)


class Planner(unittest.TestCase):
    def test_totals_are_of_the_waves_that_were_not_cancelled(self):
        page = sheets(written('missing.txt', by_hand.MISSING), '--unit', 'dm', '--day', 'Monday', '--run',
                      'planned at 07:40')
        found = dict(re.findall(r'<div>([^<]*)<b>(.*?)</b></div>', page))
        self.assertEqual({'waves proven': '2 of 2, 100.0\u202f%', 'orders': '3', 'carts': '2',
                          'length of the tours': '8\u00a0dm', 'lines': '3', 'units': '9',
                          'metres a line': '0.3'}, found)
        self.assertIn('<h1>Monday</h1><p class="facts">planned at 07:40; lengths in dm.</p>', page)
        self.assertIn('<title>Monday</title>', page)

    def test_rules_and_carts_by_length(self):
        page = sheets(written('pair.txt', by_hand.PAIR))
        told = page.split('class="totals"')[1].split('<h2>')[1]
        figures_of_rule = ''.join('<td class="right">%s</td>' % figure for figure in ('60', '12', '25.0\u202f%'))
        self.assertIn('<td>return</td>' + figures_of_rule, told)
        self.assertEqual(['W1/1</a> 26', 'W1/2</a> 22'], re.findall(r'<li><a href="#cart-W1-\d">(.*?)</li>', page))

    def test_the_day_is_that_of_the_file(self):
        day = written('dated.txt', by_hand.PAIR)
        subprocess.run(['touch', '-d', '2026-02-03 04:05', day], check=True)
        page = sheets(day)
        self.assertIn('<h1>Tuesday 2026-02-03</h1><p class="facts">planned 2026-02-03 04:05;', page)


if __name__ == '__main__':
    unittest.main()
