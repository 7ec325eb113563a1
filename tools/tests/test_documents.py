"""What tools/documents finds: wrong citations, wrong counts and wrong printed lines that are planted into documents."""

import tempfile
import unittest
from pathlib import Path

import runs
from citations import ceilings, checks, counts, printed
from citations.pages import Page
from citations.sources import Sources, read
from citations import refused

COUNTER = 'docs/lines-to-read' if (runs.TOP / 'docs/lines-to-read').exists() else 'tools/gate/lines-to-read'

# What a document cites, and what is wrong with it.
CITED = [
    ('`crates/wp_top/src/lib.rt`', None), ('`crates/wp_top/src/nothing.rt`', 'there is no file or folder'),
    ('`wp_top/specs/Promise.antt`', None), ('`wp_top/specs/Nothing.antt`', 'there is no file or folder'),
    ('`specs/`', None), ('`nowhere/`', 'there is no file or folder'), ('`lib.rt`', None),
    ('`nothing.rt`', 'there is no file or folder'),
    ('`Keeps`', None), ('`KeepsNothing`', 'nothing is called KeepsNothing'),
    ('`write_planned`', 'nothing is called write_planned'),
    ('`Store::append`', None), ('`Store::append_nothing`', 'nothing is called'), ('`wp_top`', None),
    ('`wp_bottom`', 'nothing is called'),
    ('`--units 30`', None), ('`--pieces 30`', 'there is no option --pieces'), ('`tools/sheets`', None),
    ('`tools/nothing`', 'there is no'),
    ('`tools/wave sheets --layout FILE DAY`', None), ('`tools/wave sheet DAY`', 'no subcommand sheet'),
    ('`tools/confirm DAY --nothing`', 'there is no option --nothing'), ('`./waveplan plan --capacity 3`', None),
    ('`./waveplan plan --cap 3`', 'there is no option --cap'), ('[a page](FORMATS.md)', None),
    ('[a page](NOTHING.md)', 'there is no document'),
    ('[a part](FORMATS.md#statuses)', None), ('[a part](FORMATS.md#nothing)', 'has no heading'),
    ('[a part](#a-heading)', None),
    ('[a part](#another)', 'has no heading'), ('[a page](../README.md#run-it)', None),
    ('[a page](https://example.org/x)', None),
]
CLAUSES = [
    ('`first` of `recover`', None), ('`settled`, `since_syncs` of `recover`', None),
    ('`kept` of `recover`', 'recover has no kept'),
    ('`done`, `most` of `Keeps`', None),
    ('`done`, `least` of `Keeps`', 'Keeps has no least'), ('`stored`, `disk` of `Store::append`', None),
    ('`takes` of `Store::append`', 'has no takes'),
    ('`points` of `Picks::add` and `join`, `exact` of `has`', None),
]
class Documents(unittest.TestCase):
    """Single lines, in a page that has a heading."""

    @classmethod
    def setUpClass(cls):
        cls.sources = Sources(runs.TOP)
        files = [runs.TOP / 'README.md', *sorted((runs.TOP / 'docs').glob('*.md'))]
        cls.texts = {str(file.relative_to(runs.TOP)): read(file) for file in files}
        cls.pages = [Page(name, text) for name, text in cls.texts.items()]

    def faults(self, text):
        page = Page('docs/PAGE.md', '# A heading\n\n%s\n' % text)
        found = [*checks.links(page, [*self.pages, page], self.sources), *checks.quoted(page, self.sources),
                 *checks.clauses(page, self.sources)]
        return [why for _, why in found if why]

    def counted(self, *pages):
        return [why for _, why in counts.all_of(pages, self.sources) if why]

    def test_faults(self, found=None):
        for text, due in CITED + CLAUSES:
            found = self.faults(text)
            self.assertTrue(not found if due is None else due in ' '.join(found), (text, found))

    def test_counts(self):
        """A number that is counted is right in the text, and one more is not."""
        texts = ('the %d that may wait', '%d crates', '%d edits in `edits/`', '%d wrong edits in `must-fail/`')
        counted = counts.counted_of(self.sources)
        for text in texts:
            due = next(due for form, due in counted.items() if counts.re.search(form, text % 7))
            self.assertGreater(due, 0, text)
            self.assertEqual([], self.counted(Page('docs/PAGE.md', text % due)))
            self.assertIn('where %d are counted' % due, ' '.join(self.counted(Page('docs/PAGE.md', text % (due + 1)))))
        self.assertIn('Nine small tests stay in libraries, where',
                      ' '.join(self.counted(Page('docs/PAGE.md', 'Nine small tests stay in libraries'))))

    def test_lines_to_read(self):
        due, _ = counts.Lines(runs.TOP, COUNTER).of(('IsLegal',))
        for number, words, told in ((due, 'IsLegal', None), (due + 1, 'IsLegal', 'IsLegal counts %d' % due),
                                    (due, 'IsNothing', 'IsNothing counts nothing')):
            found = self.counted(Page('docs/PAGE.md', '%d lines (`%s %s`)' % (number, COUNTER, words)))
            self.assertTrue(not found if told is None else told in ' '.join(found), found)

    def test_ceilings(self):
        """A document may have as many words as its ceiling says and no more, and has a ceiling."""
        self.assertEqual([], [why for _, why in ceilings.all_of(self.pages) if why])
        name, most = next(iter(ceilings.CEILINGS.items()))
        for words, told in ((most, None), (most + 1, 'it has %d words, and may have %d' % (most + 1, most))):
            page = Page(name, 'Word.\n\n    a block\n' + '| a |\n' * ((words - 3) // 3) + 'b ' * ((words - 3) % 3))
            self.assertEqual([(name, told)], list(ceilings.all_of([page])))
        self.assertIn('no ceiling', next(ceilings.all_of([Page('docs/PAGE.md', 'A page.')]))[1])

    def changed(self, name, old, new):
        self.assertIn(old, self.texts[name])
        return Page(name, self.texts[name].replace(old, new, 1))

    def test_the_tables_of_counts(self):
        for name, old, new, due in (('docs/PROMISES.md', 'in the state before it | ', 'in the state before it | 1',
                                     'of IsLegal there are '),
                                    ('docs/PROMISES.md', '`IsSound` of `wp_model` | ', '`IsSound` of `wp_model` | 1',
                                     'lines more'),
                                    ('docs/MAP.md', '| `wp_crew` |', '| `wp_nothing` |',
                                     'the table of the crates has others')):
            self.assertIn(due, ' '.join(self.counted(self.changed(name, old, new))))
        lines = self.texts['docs/MAP.md'].split('\n')
        low, high = (next(at for at, line in enumerate(lines) if line.startswith('| `%s` |' % name))
                     for name in ('wp_model', 'wp_outside'))
        lines[low], lines[high] = lines[high], lines[low]
        self.assertIn('wp_outside stands on wp_model, which comes later',
                      self.counted(Page('docs/MAP.md', '\n'.join(lines))))

    def test_the_tables_of_refusals(self):
        """The rows are those of the refusals that tools/explain tells: none is changed, left out, added or moved."""
        self.assertEqual([], [why for _, why in refused.all_of(self.pages) if why])
        first, second = '| `bad-number` |', '| `out-of-range` |'
        rows = {line.split(' | ')[0] + ' |': line for line in self.texts['docs/FORMATS.md'].split('\n')}
        one, two = rows[first], rows[second]
        for name, old, new, due in (('docs/FORMATS.md', 'digits alone: no sign', 'digits: no sign', 'no such row'),
                                    ('docs/FORMATS.md', one + '\n', '', 'lacks the row | `bad-number`'),
                                    ('docs/FORMATS.md', one, one + '\n| `bad-cell` | it | that |', 'no such row'),
                                    ('docs/FORMATS.md', '%s\n%s' % (one, two), '%s\n%s' % (two, one), 'another order'),
                                    ('docs/RULES.md', 'name it once', 'name it', 'lacks the row | `order-twice ORDER`')):
            found = [why for _, why in refused.all_of([self.changed(name, old, new)]) if why]
            self.assertIn(due, ' '.join(found))

    def printed(self, page):
        with tempfile.TemporaryDirectory() as folder:
            self.assertTrue(Path(folder).is_dir())
            waves = Path(runs.WAVES) if runs.WAVES else None
            return [why for _, why in printed.all_of([page], runs.TOP, Path(runs.PROGRAM), waves) if why]

    def test_what_is_printed(self):
        for name in ('README.md', 'docs/EXAMPLES.md', 'docs/DAY.md'):
            self.assertEqual([], self.printed(Page(name, self.texts[name])))

    def test_files_that_are_shown_and_endings(self):
        """A program that prints a file of its folder, and ends with the status that its last word names."""
        program = runs.put(Path(runs.shelf().name) / 'copies', {'copy': '#!/bin/sh\ncat "$1"\nexit "$2"\n'}) / 'copy'
        text = ('With `stock.csv`:\n\n    heading\n    a,5\n\nIt is copied, and the run ends with status 6:\n\n'
                '    ./waveplan stock.csv 6\n\n    heading\n    a,5\n\nNow `stock.csv`:\n\n    a,7\n\nOnce more:\n\n'
                '    ./waveplan stock.csv 0\n\n    a,7\n')
        for old, new, due in (('', '', ''), ('status 6', 'status 5', 'it ends with status 6: ./waveplan stock.csv 6'),
                              (', and the run ends with status 6', '', 'it ends with status 6'),
                              ('    a,7\n\nOnce', '    a,8\n\nOnce', 'no such line is printed: a,7'),
                              ('Now `stock.csv`:', 'Now:', 'no such line is printed: a,7'),
                              ('csv 0', 'csv 3', 'it ends with status 3')):
            page = Page('docs/EXAMPLES.md', '# Examples\n\n' + text.replace(old, new, 1))
            found = [why for _, why in printed.all_of([page], runs.TOP, program) if why]
            self.assertEqual(due in ' '.join(found), True, (new, found))
            self.assertEqual(bool(due), bool(found), (new, found))

    def test_commands_of_waves_are_those_of_its_program(self):
        """Two programs that print their names; without the second one its commands and what they print are left out."""
        texts = {name: '#!/bin/sh\necho %s "$1"\n' % name for name in ('first', 'second')}
        folder = runs.put(Path(runs.shelf().name) / 'two-programs', texts)
        text = '# Examples\n\n    ./waveplan plan 1\n\n    first plan\n\n    ./waveplan waves 1\n\n    %s waves\n'
        for name, waves, due in (('second', 'second', []), ('first', None, []),
                                 ('first', 'second', ['no such line is printed: first waves'])):
            page, second = Page('docs/EXAMPLES.md', text % name), folder / waves if waves else None
            found = [why for _, why in printed.all_of([page], runs.TOP, folder / 'first', second) if why]
            self.assertEqual(due, found)

    def test_wrong_lines_and_commands(self):
        head = self.texts['README.md'].split('## What the words')[0]
        for old, new, due in (('cost 64480 bound 64480', 'cost 64481 bound 64480',
                               'no such line is printed: wave MON-13.00'),
                              ('138 lines', '139 lines', 'the command prints 138 lines'),
                              ('--capacity 3\n', '--capacity 9\n', 'it ends with status 1'),
                              ('tools/wave sheets --layout', 'tools/wave sheets --layuot', 'it ends with status 2'),
                              ('    end\n', '    ends\n', 'no such line'),
                              ('    10 1 release', '    10 1 release MON-13.00 -> released\n    10 1 release',
                               'no such line is printed: 10 1 release MON-13.00 -> released')):
            self.assertIn(old, head)
            self.assertIn(due, ' '.join(self.printed(Page('README.md', head.replace(old, new, 1)))), new)

    def test_the_script(self):
        done = runs.script('documents', '--help')
        self.assertEqual((0, ''), (done.status, done.errors))
        for words, told in ((['nowhere'], 'nowhere is no program'),
                            (['--top', '/nowhere'], 'there is no file /nowhere/README.md'), (['--nothing'], 'unrecognized')):
            done = runs.script('documents', *words)
            self.assertEqual((2, '', 1), (done.status, done.output, done.errors.count('\n')))
            self.assertIn(told, done.errors)
        folder = runs.put(Path(runs.shelf().name) / 'documents',
                          {'README.md': 'See `nothing_such` and `--units`.\n', 'crates.txt': 'wp_model:\n'})
        done = runs.script('documents', '--top', folder)
        self.assertEqual(1, done.status, done.errors)
        self.assertIn('README.md:1: nothing is called nothing_such\nleft out: ', done.output)
        self.assertTrue(done.output.endswith('\n2 passed, 1 failed\n'), done.output)


if __name__ == '__main__':
    unittest.main()
