"""Tests of what the gate's own scripts judge: refused edits, weights, functions that may wait, and statuses."""
import contextlib
import errno
import importlib.machinery
import importlib.util
import io
import os
import shutil
import sys
import tempfile
import types
import unittest

import runs

HOME = str(runs.TOP)
GATE = f'{HOME}/tools/gate'
sys.path.append(GATE)
import copies
import edits
import ending
import endings
import judge
import kit
import left
from in_process import ended


def write(path, text):
    os.makedirs(os.path.dirname(path), exist_ok=True)
    with open(path, 'w', encoding='utf-8') as it:
        it.write(text)


def script(name):
    """A script as a module."""
    loader = importlib.machinery.SourceFileLoader(name, f'{GATE}/{name}')
    spec = importlib.util.spec_from_loader(name, loader)
    made = importlib.util.module_from_spec(spec)
    sys.modules[name] = made
    loader.exec_module(made)
    return made


def function(name, module=('rows',), block=None, body=()):
    return types.SimpleNamespace(name=name, module=module, block=block, body=list(body))


def block(ty, trait=(), is_trait=False):
    return types.SimpleNamespace(ty=list(ty), trait=list(trait), is_trait=is_trait)


# What the prover says of a function, and of a declaration of its proof.
SETTLE = 'fn wp_pairs::rows::settle'
PROOFS = 'Rattle.wp_pairs.proofs.rows'


class Refusing(unittest.TestCase):
    """What counts as a refusal of a function's own."""

    def setUp(self):
        self.judge = judge.Judge.__new__(judge.Judge)
        self.judge.crate = types.SimpleNamespace(name='wp_pairs')
        self.judge.declared = {'Table': [(('table',),)]}
        self.judge.cycle_of = lambda it: self.cycles.get(it.name, it.name)
        self.cycles = {}

    def own(self, line, name='settle', **named):
        return self.judge.own_refusal(f'fn wp_pairs::rows::other: no holes\n{line}\nholes=0\n', function(name, **named))

    def test_a_declaration_below_its_own_path_is_its_own(self):
        said = f'{SETTLE}: not proved; it stands on `{PROOFS}.settle.Answers.returns`, which antt refuses'
        self.assertIn('settle.Answers.returns', self.own(said))

    def test_a_goal_that_was_not_found_is_its_own(self):
        said = f'{SETTLE}: no proof: expected answers in ./proofs/settle/Answers.antt; `search` did not prove `returns`'
        self.assertIn('did not prove', self.own(said))

    def test_a_callee_that_is_not_proved_is_not_its_own(self):
        said = f'{SETTLE}: not proved; it calls `wp_pairs::rows::join`, which is not proved'
        self.assertIsNone(self.own(said))

    def test_a_declaration_of_a_callee_is_not_its_own(self):
        said = (f'{SETTLE}: not proved; it stands on `{PROOFS}.join.Answers.returns`, which antt refuses; '
                'it calls `wp_pairs::rows::join`, which is not proved')
        self.assertIsNone(self.own(said))

    def test_a_name_that_begins_as_its_own_is_not_its_own(self):
        said = f'{SETTLE}: not proved; it stands on `{PROOFS}.settle_all.Answers.returns`, which antt refuses'
        self.assertIsNone(self.own(said))

    def test_no_verdict_is_no_refusal(self):
        self.assertIsNone(self.own('fn wp_pairs::rows::settle: could not tell'))

    def test_a_proved_function_is_not_refused(self):
        self.assertIsNone(self.own('fn wp_pairs::rows::settle: no holes'))

    def test_a_closure_in_it_is_its_own(self):
        said = f'{SETTLE}+map: not proved; it stands on `{PROOFS}.settle+map.Answers.returns`, which antt refuses'
        self.assertIn('settle+map', self.own(said))

    def test_a_closure_below_its_path_is_its_own(self):
        closure = 'fn wp_pairs::rows::fn::settle::all'
        said = f'{closure}: not proved; it stands on `{PROOFS}.fn.settle.all.Answers.returns`, which antt refuses'
        self.assertIn('settle::all', self.own(said))
        closure = 'fn wp_pairs::table::fn::Table::better::all'
        said = f'{closure}: no proof: expected answers; `search` did not prove `returns`'
        self.assertIn('better::all', self.own(said, 'better', block=block(['Table'])))
        said = 'fn wp_pairs::rows::fn::join::all: no proof: expected answers; `search` did not prove `returns`'
        self.assertIsNone(self.own(said))

    def test_what_stands_on_a_hole_is_not_refused(self):
        self.assertIsNone(self.own(f'{SETTLE}: depends on a hole in `{PROOFS}.join.Proof.join_spec`'))

    def test_the_proof_of_its_cycle_is_its_own(self):
        said = f'{SETTLE}: not proved; it stands on `{PROOFS}.+settle.Answers.returns`, which antt refuses'
        self.assertIn('+settle', self.own(said))
        said = f'{SETTLE}: not proved; it stands on `{PROOFS}.+turns.Answers.returns`, which antt refuses'
        self.assertIsNone(self.own(said))
        self.cycles['settle'] = 'turns'
        self.assertIn('+turns', self.own(said))

    def test_paths_are_those_that_the_prover_prints(self):
        paths = [
            (function('widen'), 'rows::widen'),
            (function('better', ('choice',), block(['Table'])), 'table::Table::better'),
            (function('fmt', ('reply',), block(['Reply'], ['fmt', ':', ':', 'Display'])), 'reply::ReplyDisplay::fmt'),
            (function('from', ('fault',), block(['Fault'], ['From', '<', 'Memory', '>'])),
             'fault::FaultFromMemory::from'),
            (function('read', ('part',), block(['u64'], ['Part'])), 'part::U64Part::read'),
            (function('drop', ('chain',), block(['Chain'], ['Drop'])), 'chain::Chain::drop'),
        ]
        for it, path in paths:
            self.assertEqual(edits.path_of(it, self.judge.declared), path)

    def test_a_round_has_one_edit_of_a_function(self):
        first, second = function('first'), function('second')
        tried = [edits.Edit(name, '', {}, [], [of]) for name, of in (('a', first), ('b', first), ('c', second))]
        self.assertEqual([[it.name for it in one] for one in self.judge.rounds(tried)], [['a', 'c'], ['b']])

    def test_a_caller_of_an_edited_function_is_masked(self):
        callee, caller = function('join'), function('settle', body=['join', '(', ')'])
        tried = [edits.Edit(name, '', {}, [], [of]) for name, of in (('a', callee), ('b', caller))]
        self.assertEqual([self.judge.is_masked(it, tried) for it in tried], [False, True])

    def test_pairs_are_read_line_by_line(self):
        text = 'file: src/a.rt\nold: x\nnew: y\nold: z\nnew:\n'
        self.assertEqual(edits.pairs_of(text), [('src/a.rt', 'x', 'y'), ('src/a.rt', 'z', '')])


ROWS = """use crate::table::Table;

/// Joins two.
#[cycle(turns)]
fn join(first: u8, second: u8) -> u8
    ensures { result ≡ first + second }
{
    settle(first) + second
}

fn settle(first: u8) -> u8 {
    join(first, LIMIT)
}

fn widen(first: u8) -> u8
    ensures { MOST ≡ most }
{
    settle(first)
}

fn main() {
    widen(1);
}
"""


class Emptying(unittest.TestCase):
    """A crate in which the functions that aren't judged are emptied."""

    def setUp(self):
        self.room = tempfile.mkdtemp(prefix='waveplan-test-')
        self.addCleanup(shutil.rmtree, self.room, ignore_errors=True)
        write(f'{self.room}/crate/src/rows.rt', ROWS)
        for name in ('join', '+turns', 'settle', 'widen'):
            answers = f'{self.room}/crate/proofs/rows/{name}/Answers.antt'
            write(answers, f'use {PROOFS}.{name}.Goals as goal\n')
        parts = types.SimpleNamespace(PARTS=['src', 'proofs'])
        known = {'unread': lambda line, texts: False, 'Kept': None, 'REFUSED': 'refused', 'AT_LIMIT': 'limit'}
        kit.rt = types.SimpleNamespace(rtlib=parts, **known)
        self.judge = judge.Judge.__new__(judge.Judge)
        self.judge.crate = types.SimpleNamespace(name='wp_pairs', folder=f'{self.room}/crate', is_program=False)
        self.judge.room, self.judge.kept, self.judge.declared, self.judge.checks = self.room, '', {}, 0
        self.functions = {it: self.function(it) for it in ('join', 'settle', 'widen', 'main')}
        self.judge.functions = [*self.functions.values()]
        self.judge.cited = self.judge.cited_paths()

    def function(self, name):
        data = ROWS.encode()
        at = data.index(f'fn {name}('.encode())
        first = data.index(b'/// Joins') if name == 'join' else at
        opens, end = (data.index(it, at) for it in (b'{\n', b'\n}'))
        body = data[opens:end].decode().replace('(', ' ( ').replace(')', ' ) ').split()[1:]
        module = ('rows',) if name != 'main' else ()
        return types.SimpleNamespace(
            name=name, module=module, block=None, file='src/rows.rt', body=body, has_body=True, in_trait=False,
            in_cycle=False, first=first, start=at, opens=opens, end=end + 2)

    def edit(self, name, old, new, *functions):
        pairs = [('src/rows.rt', old, new)]
        return edits.Edit(name, '', {'src/rows.rt': ''}, pairs, [self.functions.get(it) for it in functions])

    def copied(self, tried, *kept, control=None):
        room, applied = self.judge.copy(tried, [self.functions[it] for it in kept], self.functions.get(control))
        with open(f'{room}/src/rows.rt', encoding='utf-8') as it:
            return room, it.read(), applied

    def test_all_but_what_is_judged_is_emptied(self):
        edit = self.edit('a', 'settle(first)\n}\n\nfn main', 'first\n}\n\nfn main', 'widen')
        first = self.edit('a', '    join(first, LIMIT)', '    first', 'settle')
        room, text, applied = self.copied([first, edit], 'settle')
        self.assertIn('fn settle(first: u8) -> u8 {\n    first\n}', text)
        self.assertIn('ensures { result ≡ first + second }\n{ unreachable!() }', text)
        self.assertIn('ensures { MOST ≡ most }\n{ unreachable!() }', text)
        self.assertEqual([it.name for it in applied], ['a'])
        self.assertEqual(os.listdir(f'{room}/proofs/rows/settle'), ['Answers.antt'])
        self.assertEqual(os.listdir(f'{room}/proofs/rows/widen'), ['Proof.antt'])

    def test_an_emptied_function_has_one_hole_for_its_proof(self):
        room, _, _ = self.copied([], 'settle')
        with open(f'{room}/proofs/rows/widen/Proof.antt', encoding='utf-8') as it:
            text = it.read()
        self.assertIn('use Rattle.wp_pairs.proofs.rows.widen.Statement.{statement}', text)
        self.assertIn('pub widen_spec : {M : Type 1} → statement M', text)
        self.assertEqual(text.count('?'), 1)

    def test_an_emptied_function_is_in_no_cycle(self):
        room, text, _ = self.copied([], 'settle')
        self.assertNotIn('cycle', text)
        self.assertEqual(sorted(os.listdir(f'{room}/proofs/rows')), ['join', 'settle', 'widen'])

    def test_a_cycle_stays_whole(self):
        _, text, _ = self.copied([], 'join')
        self.assertIn('settle(first) + second', text)
        self.assertIn('#[cycle(turns)]', text)

    def test_the_control_means_the_same_as_before(self):
        _, text, _ = self.copied([], 'settle', 'widen', control='widen')
        self.assertIn(f'ensures {{ MOST ≡ most }}\n{{{copies.HARMLESS}\n    settle(first)', text)

    def test_an_emptied_program_is_checked_as_a_library(self):
        self.judge.crate.is_program = True
        _, text, _ = self.copied([], 'settle')
        self.assertNotIn('main', text)
        _, text, _ = self.copied([], 'main')
        self.assertIn('fn main() {\n    widen(1);', text)

    def test_a_function_whose_proof_another_names_is_not_emptied(self):
        cited = f'use {PROOFS}.widen.Met\nuse Rattle.wp_pairs.proofs.Rows.{{sum}}\n'
        write(f'{self.room}/crate/proofs/Sums.antt', cited)
        self.judge.cited = self.judge.cited_paths()
        _, text, _ = self.copied([], 'settle')
        self.assertIn('ensures { MOST ≡ most }\n{\n    settle(first)', text)
        self.assertIn('{ unreachable!() }', text)

    def test_an_edit_stands_in_a_twin_with_the_proof_of_its_function(self):
        first = self.edit('a', '    join(first, LIMIT)', '    first', 'settle')
        tried = [first, self.edit('b', 'LIMIT', 'MOST', 'settle')]
        room = self.judge.copy_with_twins(tried, self.judge.twins(tried), None)
        with open(f'{room}/src/rows.rt', encoding='utf-8') as it:
            text = it.read()
        self.assertIn('fn settle(first: u8) -> u8 { unreachable!() }', text)
        self.assertIn('fn settle_twin_0(first: u8) -> u8 {\n    first\n}', text)
        self.assertIn('fn settle_twin_1(first: u8) -> u8 {\n    join(first, MOST)\n}', text)
        with open(f'{room}/proofs/rows/settle_twin_1/Answers.antt', encoding='utf-8') as it:
            self.assertEqual(it.read(), f'use {PROOFS}.settle_twin_1.Goals as goal\n')
        self.assertEqual(os.listdir(f'{room}/proofs/rows/settle'), ['Proof.antt'])

    def test_what_can_have_no_twin(self):
        edit = self.edit('a', '    join(first, LIMIT)', '    first', 'settle')
        self.assertTrue(self.judge.has_twin(edit))
        for name in ('in_trait', 'in_cycle'):
            setattr(self.functions['settle'], name, True)
            self.assertFalse(self.judge.has_twin(edit))
            setattr(self.functions['settle'], name, False)
        write(f'{self.room}/crate/proofs/rows/settle/More.antt', 'use Rattle.wp_pairs.proofs.rows.{settle, join}\n')
        self.assertFalse(self.judge.has_twin(edit))

    def test_a_function_with_a_proof_for_its_closure_has_no_twin(self):
        write(f'{self.room}/crate/proofs/rows/settle+fn-settle/Invariants.antt', '')
        self.assertFalse(self.judge.has_twin(self.edit('a', '    join(first, LIMIT)', '    first', 'settle')))

    def judged(self, *lines):
        """Which edits of widen and of settle count as refused, where the prover says this of their twins."""
        tried = [self.edit('a', 'settle(first)', 'first', 'widen'), self.edit('b', 'LIMIT', 'MOST', 'settle')]
        said = '\n'.join(f'fn wp_pairs::rows::{it}' for it in lines)
        self.judge.check = lambda room, functions: f'{said}\nonly=1 holes=1\n'
        self.judge.control = lambda edits: None
        return sorted(self.judge.settle_twins(tried))

    def test_twins_are_refused_by_refusals_of_their_own(self):
        refused = 'no proof: expected answers; `search` did not prove `returns`'
        found = self.judged(f'widen_twin_0: {refused}', f'settle_twin_1: {refused}', 'widen_twin_2: no holes')
        self.assertEqual(found, ['a', 'b'])
        found = self.judged(f'widen_twin_0: {refused}', 'settle_twin_1: no holes', 'widen_twin_2: no holes')
        self.assertEqual(found, ['a'])

    def test_a_twin_without_an_edit_has_to_be_proved(self):
        for line in ('widen_twin_2: no proof: expected answers; `search` did not prove `returns`', 'settle: no holes'):
            with self.assertRaises(kit.Missing):
                self.judged('widen_twin_0: no holes', line)

    def test_an_edit_outside_of_functions_is_judged_by_those_that_name_its_item(self):
        edit = self.edit('a', 'const LIMIT: u8 = 1;', 'const LIMIT: u8 = 2;', None)
        self.assertEqual([it.name for it in self.judge.users(edit)], ['settle'])
        edit = self.edit('a', 'const MOST: u8 = 1;', 'const MOST: u8 = 2;', None)
        self.assertEqual([it.name for it in self.judge.users(edit)], ['widen'])

    def alone(self, edited, unedited, whole='missed'):
        """How an edit ends that is tried alone, where the prover says this of its function with it and without it,
        and that of the whole crate."""
        self.judge.check = lambda room, functions: self.said(room, edited, unedited)
        kit.rt.must_fail = lambda crate, path, flags, kept: (whole, 'of the whole crate')
        return self.judge.alone(self.edit('a', '    join(first, LIMIT)', '    first', 'settle'))

    def said(self, room, edited, unedited):
        with open(f'{room}/src/rows.rt', encoding='utf-8') as it:
            line = unedited if 'join(first, LIMIT)' in it.read() else edited
        return line and f'fn wp_pairs::rows::settle: {line}\nonly=1 holes=1\n'

    def test_alone_an_edit_is_refused_where_its_function_is_proved_without_it(self):
        edited = 'not proved; it calls `wp_pairs::rows::join`, which is not proved'
        said = self.alone(edited, f'depends on a hole in `{PROOFS}.join.Proof`')
        self.assertEqual(said.kind, judge.REFUSED)

    def test_alone_an_edit_is_not_refused_where_its_function_is_unproved_without_it(self):
        line = 'not proved; it calls `wp_pairs::rows::join`, which is not proved'
        self.assertEqual(self.alone(line, line), ('failed', 'of the whole crate'))

    def test_alone_an_edit_that_is_proved_fails(self):
        self.assertEqual(self.alone('no holes', 'no holes').kind, 'failed')

    def test_what_its_functions_do_not_settle_the_whole_crate_does(self):
        self.assertEqual(self.alone('no holes', 'no holes', 'refused'), (judge.REFUSED, 'of the whole crate'))
        self.assertEqual(self.alone(None, 'no holes', 'refused'), (judge.REFUSED, 'of the whole crate'))
        self.assertEqual(self.alone('not proved; it stands on `x`', None).kind, 'failed')

    def test_a_kit_that_keeps_nothing_says_whether_the_whole_crate_is_refused(self):
        del kit.rt.Kept
        self.assertEqual(self.alone('no holes', 'no holes', True), (judge.REFUSED, 'of the whole crate'))
        self.assertEqual(self.alone('no holes', 'no holes', False), ('failed', 'of the whole crate'))


# A crate with a definition over a private type, whose fields are a type that is seen by a view and one that isn't.
READ_SPECS = """use Rattle.wp_low.specs.declared.row.Row.{Row}
use Rattle.wp_low.specs.Kinds.{Little}
use Rattle.csv.specs.Rows.{IsRecord}

-- a row of little
abbrev pub IsLittle : Row → Type 0
IsLittle row = IsRecord row × (row.kind ≡ Little)
"""
READ_KINDS = """-- how much
pub data Kind : Type 0 where
  Little : Kind
  -- more than that
  Much : Kind
"""
READ_CODE = """use crate::name::{Long, Name};

/// A row.
pub(crate) struct Row {
    name: Name,
    // what it holds
    long: Long,
}

struct Unused {
    name: Name,
}
"""
READ_NAMES = """ghost use Rattle.wp_low.specs.Bytes.{bytes_of};

/// A name.
pub struct Name {
    bytes: [u8; 8],
    hash: Hash,
}

impl Model for Name {
    ghost Value = { List ℕ };

    ghost view = { λ name.
        bytes_of name.bytes };

    ghost invariant = { λ name. hash_of name ≡ name.hash };
}

/// A hash.
struct Hash(u32);

pub type Long = Vec<Name>;
"""
READ_BYTES = """-- the bytes
pub bytes_of : List ℕ → List ℕ
bytes_of bytes = bytes

-- the hash
pub hash_of : List ℕ → ℕ
hash_of bytes = 0
"""


class Reading(unittest.TestCase):
    """How many lines a reader reads of a definition."""

    def seen(self, *words):
        counter = script('lines-to-read')
        with tempfile.TemporaryDirectory() as room:
            for name, text in (('specs/Rows.antt', READ_SPECS), ('specs/Kinds.antt', READ_KINDS),
                               ('specs/Bytes.antt', READ_BYTES), ('src/row.rt', READ_CODE),
                               ('src/name.rt', READ_NAMES)):
                write(f'{room}/crates/wp_low/{name}', text)
            counter.TOP = room
            definitions = counter.Definitions()
            found, of_kit = definitions.follow([definitions.root(it) for it in words], [])
        return {name: lines for (_, name), lines in found.items()}, of_kit

    def test_private_types_views_variants_and_aliases_are_read(self):
        found, of_kit = self.seen('IsLittle')
        self.assertEqual(found, {'IsLittle': 2, 'Row': 4, 'Name': 7, 'Long': 1, 'Kind': 3, 'bytes_of': 2})
        self.assertEqual({name for _, name in of_kit}, {'IsRecord'})

    def test_a_type_without_uses_is_read_alone(self):
        self.assertEqual(self.seen('hash_of')[0], {'hash_of': 2})


class Weighing(unittest.TestCase):
    """Which crates are held to be too heavy."""

    def faults(self, kilobytes, *lines):
        """What is told of one crate of 1,000 lines, where the table has these lines besides its two ceilings."""
        weigh = script('weigh')
        with tempfile.TemporaryDirectory() as room:
            write(f'{room}/weights', '\n'.join(['# a comment', 'each 100', 'whole 150  # of all', *lines]) + '\n')
            return list(weigh.faults({'low': weigh.Weight(1000, kilobytes)}, weigh.read_table(f'{room}/weights')))

    def test_a_crate_up_to_the_ceiling_is_passed(self):
        self.assertEqual(self.faults(100), [])

    def test_one_above_it_is_told_with_its_name_and_both_numbers(self):
        (name, why), = self.faults(101)
        self.assertEqual(name, 'low')
        self.assertIn('101 KB for 1,000 lines, where 100 may be', why)

    def test_a_line_of_its_own_lets_it_pass_where_it_says_why(self):
        self.assertEqual(self.faults(120, 'low 130 it reads tables'), [])
        self.assertIn('says no reason', self.faults(120, 'low 130')[0][1])
        self.assertIn('where 130 may be', self.faults(131, 'low 130 it reads tables')[0][1])

    def test_a_line_that_nothing_needs_is_told(self):
        self.assertIn('needs no line', self.faults(90, 'low 130 it reads tables')[0][1])
        found = self.faults(90, 'high 130 it reads tables')
        self.assertEqual(found, [('high', 'it has a line in tools/gate/weights and is no crate')])

    def test_all_together_have_a_ceiling_too(self):
        (name, why), = self.faults(151, 'low 200 it reads tables')
        self.assertEqual(name, 'whole')
        self.assertIn('151 KB, where 150 may be', why)

    def test_the_table_of_the_repository_gives_each_reason(self):
        table = script('weigh').read_table(f'{GATE}/weights')
        self.assertTrue({'each', 'whole'} <= {*table})
        self.assertTrue(all(it.why for name, it in table.items() if name not in ('each', 'whole')))


class SummingUp(unittest.TestCase):
    """What the end of a gate tells of its checks."""

    def told(self, **checks):
        """What is told of checks that ended so: a status, and the lines."""
        sums = script('sum-up')
        with tempfile.TemporaryDirectory() as room:
            for name, (status, text) in checks.items():
                write(f'{room}/{name}', text + '\n')
                write(f'{room}/{name}.ended', f'{status} tools/{name}\n')
            out = io.StringIO()
            with contextlib.redirect_stdout(out):
                status = sums.sum_up([sums.read(room, name) for name in checks], False)
        return status, out.getvalue().rstrip('\n').split('\n')

    def test_what_passed_is_added_up(self):
        told = self.told(waits=(0, 'a\n3 passed, 0 failed'), proofs=(0, '114 passed, 0 failed'))
        self.assertEqual(told, (0, ['117 passed, 0 failed']))

    def test_each_failure_stands_by_itself_with_its_command(self):
        proofs = 'rt: FAILED: wp_low wp_high (tests) wp_low/drops_one.edit\n3 passed, 3 failed'
        waits = 'FAILED: wp_turn: tools/waits\nwp_turn: it has 4\n1 passed, 1 failed'
        status, told = self.told(waits=(1, waits), proofs=(1, proofs))
        self.assertEqual((status, told[-1]), (1, '4 passed, 4 failed'))
        self.assertEqual(told[:-1], [
            'failed in waits: wp_turn', '    to see it alone: tools/waits',
            'failed in proofs: wp_low', '    to see it alone: rt ci wp_low',
            'failed in proofs: wp_high (tests)', '    to see it alone: rt ci wp_high',
            'failed in proofs: wp_low/drops_one.edit', '    to see it alone: rt must-fail wp_low'])

    def test_a_check_that_ends_ill_and_names_nothing_is_told(self):
        status, told = self.told(edits=(2, 'there is no rt on the path'))
        self.assertEqual(status, 1)
        self.assertEqual(told, ['failed in edits: it ended with status 2: there is no rt on the path',
                                '    to see it alone: tools/edits', '0 passed, 1 failed'])


class Changing(unittest.TestCase):
    """Which crates a change reaches."""

    def setUp(self):
        self.changed = script('changed')
        self.now = self.lines('turn may_wait=2: low')

    def lines(self, turn):
        """A table of crates with this line among them."""
        table = ['# lowest first', 'low:', turn, 'high: low turn', 'waveplan: high', 'cases: high']
        return self.changed.lines_of(table)

    def reached(self, *files, before=None):
        crates = self.changed.changed_crates(files, self.now, before or self.now)
        return self.changed.reached(crates, self.changed.below_of(self.now))

    def test_a_crate_reaches_those_above_it(self):
        self.assertEqual(self.reached('crates/turn/src/lib.rt'), ['turn', 'high', 'waveplan', 'cases'])
        self.assertEqual(self.reached('crates/waveplan/src/main.rt'), ['waveplan'])

    def test_documents_and_scripts_reach_no_crate(self):
        self.assertEqual(self.reached('README.md', 'tools/prove', 'crates.txt'), [])
        names = [name for name, _ in self.changed.checks_for([])]
        self.assertEqual(names, ['waits', 'documents', 'scripts', 'programs'])

    def test_another_line_of_a_crate_reaches_it(self):
        before = self.lines('turn may_wait=3: low')
        self.assertEqual(self.reached('crates.txt', before=before), ['turn', 'high', 'waveplan', 'cases'])

    def test_handles_reach_all(self):
        self.assertEqual(self.reached('HANDLES'), [*self.now])

    def test_the_statuses_and_stores_are_tried_where_the_program_is_reached(self):
        names = [name for name, _ in self.changed.checks_for(['high', 'waveplan'])]
        self.assertEqual(names, ['waits', 'documents', 'scripts', 'proofs', 'statuses', 'stores', 'edits', 'programs'])
        reached = [name for name, _ in self.changed.checks_for(['waves'])]
        self.assertIn('statuses', reached)
        self.assertNotIn('stores', reached)
        reached = [name for name, _ in self.changed.checks_for(['cases'])]
        self.assertEqual(reached, ['waits', 'documents', 'scripts', 'proofs', 'edits', 'programs'])


class Leaving(unittest.TestCase):
    """What `rt ci` leaves in the crates' folders, where the kit keeps nothing of its run."""

    def setUp(self):
        self.room = tempfile.mkdtemp(prefix='waveplan-test-')
        self.addCleanup(shutil.rmtree, self.room, ignore_errors=True)
        self.top = f'{self.room}/top'
        write(f'{self.top}/HANDLES', 'Handles allowed: none.\n')
        write(f'{self.top}/crates.txt', 'low:\nhigh: low\nwaveplan: low high\n')
        for name in ('low', 'high', 'waveplan'):
            write(f'{self.top}/crates/{name}/src/lib.rt', f'pub fn {name}() {{}}\n')
        left.copy_crates(self.top, f'{self.room}/repository')
        write(f'{self.room}/said/proofs', '== low\nfn low::low: proved\nrt: low proved\nrt: waveplan proved\n')
        for name, made in (('low', 'rlib/low.rlib/format'), ('high', 'rlib/high.rlib/format'),
                           ('waveplan', 'waveplan')):
            write(f'{self.top}/crates/{name}/out/{made}', 'made\n')
        self.low = self.crate('low')
        self.high = self.crate('high', self.low)
        self.program = self.crate('waveplan', self.low, self.high)

    def crate(self, name, *below):
        os.makedirs(f'{self.room}/repository/crates/{name}/out', exist_ok=True)
        return types.SimpleNamespace(name=name, folder=f'{self.room}/repository/crates/{name}', of_kit=['std'],
                                     below=lambda: below, is_program=name == 'waveplan')

    def files_of(self, folder):
        for at, _, names in os.walk(f'{folder}/src'):
            yield from (f'{at}/{it}' for it in sorted(names))

    def text_of(self, file):
        if file == '/kit/WHAT':
            return 'archive 1'
        if not os.path.isfile(file):
            return None
        with open(file, encoding='utf-8') as it:
            return it.read()

    def given(self, crate):
        """Whether what was left of the crate is taken, and whether it is in the copy then."""
        rtlib = types.SimpleNamespace(files_of=self.files_of, text_of=self.text_of, KIT='/kit')
        found = left.Left(rtlib, self.room, self.top, f'{self.room}/cache')
        is_taken = found.give(crate, False, found.key(crate))
        made = 'waveplan' if crate.is_program else f'rlib/{crate.name}.rlib/format'
        return is_taken, os.path.isfile(f'{crate.folder}/out/{made}')

    def test_nothing_that_was_made_is_copied(self):
        self.assertEqual(os.listdir(f'{self.room}/repository/crates/low/out'), [])
        self.assertTrue(os.path.isfile(f'{self.room}/repository/crates/low/src/lib.rt'))

    def test_what_was_proved_is_taken(self):
        self.assertEqual(self.given(self.low), (True, True))
        self.assertEqual(self.given(self.program), (True, True))

    def test_what_was_not_proved_is_not_taken(self):
        self.assertEqual(self.given(self.high), (False, False))

    def test_what_was_changed_since_is_not_taken_nor_what_stands_above_it(self):
        write(f'{self.top}/crates/low/src/lib.rt', 'pub fn other() {}\n')
        self.assertEqual(self.given(self.low), (False, False))
        self.assertEqual(self.given(self.program), (False, False))

    def test_what_a_check_of_ones_own_had_left_is_not_taken(self):
        write(f'{self.top}/crates/low/out/rlib/stamp', 'stamp\n')
        with contextlib.redirect_stdout(io.StringIO()) as told:
            self.assertEqual(self.given(self.low), (False, False))
        self.assertIn('run the gate in a clone', told.getvalue())

    def test_what_was_taken_is_kept_for_later(self):
        self.assertEqual(self.given(self.low), (True, True))
        self.assertEqual(self.given(self.program), (True, True))
        os.remove(f'{self.room}/said/proofs')
        for crate in (self.low, self.program):
            shutil.rmtree(f'{crate.folder}/out')
            os.mkdir(f'{crate.folder}/out')
            self.assertEqual(self.given(crate), (True, True))
        write(f'{self.room}/repository/crates/low/src/lib.rt', 'pub fn other() {}\n')
        self.assertEqual(self.given(self.low)[0], False)

    def test_what_nobody_has_taken_for_long_is_let_go(self):
        self.given(self.low)
        kept, = os.listdir(f'{self.room}/cache/kept')
        os.utime(f'{self.room}/cache/kept/{kept}', (0, 0))
        self.given(self.program)
        self.assertEqual(len(os.listdir(f'{self.room}/cache/kept')), 1)
        self.assertNotIn(kept, os.listdir(f'{self.room}/cache/kept'))


class Proving(unittest.TestCase):
    """Which tasks prove some crates, and how a failure of one is told."""

    def setUp(self):
        self.some = script('prove-some')
        known = {'need': lambda it: 1, 'edits_of': lambda it: ([], []), 'Kept': None}
        self.addCleanup(setattr, kit, 'rt', getattr(kit, 'rt', None))
        kit.rt = types.SimpleNamespace(**known)
        self.low = self.crate('low')
        self.high = self.crate('high', self.low, has_tests=True)

    def crate(self, name, *below, has_tests=False):
        return types.SimpleNamespace(name=name, below=lambda: below, count=lambda pattern: 1,
                                     has_tests=lambda: has_tests)

    def test_what_lies_below_is_proved_and_not_tested(self):
        tasks = self.some.tasks_for(None, [self.low, self.high], ['high'])
        self.assertEqual([*tasks], [('low', 'proof'), ('high', 'proof'), ('high', 'tests')])
        self.assertEqual(tasks['high', 'proof'][0], [('low', 'proof')])
        self.assertEqual(tasks['high', 'tests'][0], [('high', 'proof')])

    def test_what_stands_on_a_crate_that_is_not_proved_is_told(self):
        tasks = self.some.tasks_for(None, [self.low, self.high], ['high'])
        given = {('low', 'proof'): self.some.Ended('low (proof)', 'no proof')}
        with contextlib.redirect_stdout(io.StringIO()) as told:
            ended = tasks['high', 'proof'][3](given, 1)
        self.assertEqual(ended.why, 'a crate below it is not proved')
        self.assertIn('FAILED: high (proof): tools/gate/prove-some high', told.getvalue())
        self.assertEqual(tasks['high', 'tests'][3]({('high', 'proof'): ended}, 1), [])

    def test_a_failed_call_tells_what_the_kit_said(self):
        def call(crate):
            print('fn low::low: not proved', file=crate.out)
            return 1

        self.assertEqual(self.some.called(self.low, call), 'fn low::low: not proved\n1')
        self.assertIsNone(self.some.called(self.low, lambda crate: 0))


# A crate whose functions may wait by their own bounds, by those of their impl, by an argument, or not at all.
SOME_WAIT = """
use std::sync::Wait;

pub fn own<R: Threads + Wait + Sync>(rt: &R) {}

pub fn given(rt: &impl Wait) {}

pub fn none(rt: &impl Threads) {}

struct Day<R> {
    rt: R,
}

impl<R: Wait> Day<R> {
    fn both(&self) {}
}
"""


class Waiting(unittest.TestCase):
    """How many functions of a crate may wait, against its line in crates.txt."""

    def faults(self, text, is_program=False, **said):
        with tempfile.TemporaryDirectory() as room:
            os.mkdir(f'{room}/src')
            with open(f'{room}/src/{"main" if is_program else "lib"}.rt', 'w', encoding='utf-8') as it:
                it.write(text)
            crate = types.SimpleNamespace(name='low', folder=room, is_program=is_program, said=said)
            return list(script('waits').faults([crate], script('kit.py').load()[1]))

    def test_each_that_may_wait_is_counted(self):
        self.assertEqual(self.faults(SOME_WAIT, may_wait=3), [])

    def test_another_number_is_told_with_their_names(self):
        found = self.faults(SOME_WAIT, may_wait=2)
        self.assertEqual(len(found), 1)
        self.assertIn('low: it has 3 functions that may wait', found[0])
        for name in ('own', 'given', 'both'):
            self.assertIn(name, found[0])
        self.assertEqual(len(self.faults(SOME_WAIT)), 1)

    def test_the_main_of_a_program_in_which_one_may_wait_counts(self):
        self.assertEqual(self.faults(SOME_WAIT + '\nfn main() {}\n', is_program=True, may_wait=4), [])
        self.assertEqual(self.faults('fn main() {}\n', is_program=True), [])

    def test_a_crate_in_which_none_may_wait_needs_no_number(self):
        self.assertEqual(self.faults('pub fn none() {}\n'), [])
        self.assertEqual(len(self.faults('pub fn none() {}\n', may_wait=1)), 1)


class Releasing(unittest.TestCase):
    def test_a_release_has_both_programs(self):
        release = script('../release')
        self.addCleanup(setattr, release.built, 'copied_to', release.built.copied_to)

        def copied_to(folder):
            for name in release.built.PROGRAMS:
                with open(f'{folder}/{name}', 'w', encoding='utf-8') as it:
                    it.write(f'the program {name}')
            return [f'{folder}/{name}' for name in release.built.PROGRAMS]

        release.built.copied_to = copied_to
        self.assertEqual(list(release.proved_programs()), [('bin/waveplan', b'the program waveplan', True),
                                                           ('bin/waves', b'the program waves', True)])


class Ending(unittest.TestCase):
    """What is said of a program that doesn't end as it is due."""

    def faults(self, text, name='waveplan'):
        with tempfile.TemporaryDirectory() as room:
            with open(f'{room}/program', 'w', encoding='utf-8') as it:
                it.write(f'#!/bin/sh\n{text}\n')
            os.chmod(f'{room}/program', 0o755)
            places = {'examples': f'{HOME}/examples', 'files': room}
            return list(script('statuses').faults(name, f'{room}/program', places))

    def test_a_program_that_always_ends_with_0_is_told_once_for_each_other_end(self):
        self.assertEqual(len(self.faults('echo bound 68')), 13)

    def test_a_program_that_leaves_another_store_is_told(self):
        found = self.faults(ENDS_AS_DUE.replace('1 cancel W1 -> refused', '1 cancel W2 -> refused'))
        self.assertEqual(len(found), 2)
        self.assertTrue(all('it has left' in it for it in found))

    def test_a_program_that_leaves_a_file_without_being_asked_is_told(self):
        found = self.faults('touch left\n' + ENDS_AS_DUE)
        self.assertEqual(len(found), 16)
        self.assertIn("it has left ['left'] where None is due", found[0])

    def test_another_output_is_told(self):
        found = self.faults('echo bound 69')
        self.assertIn('status 0 where 0 is due', found[0])

    def test_a_program_that_ends_as_each_run_is_due_passes(self):
        self.assertEqual(self.faults(ENDS_AS_DUE), [])
        self.assertEqual(self.faults(WAVES_END_AS_DUE, 'waves'), [])

    def test_each_status_of_waves_is_held_to_what_is_due(self):
        self.assertEqual(len(self.faults('echo desks', 'waves')), 11)
        for status in range(1, 7):
            found = self.faults(WAVES_END_AS_DUE.replace(f'exit {status}', 'exit 0'), 'waves')
            self.assertTrue(found)
            self.assertTrue(all(f'status 0 where {status} is due' in it for it in found), found)


# Programs that know the runs of tools/statuses.
WAVES_END_AS_DUE = """case "$*" in
'') echo refused words no-mode; exit 1 ;;
plan*) echo refused words unknown-mode; exit 1 ;;
waves) echo refused words bad-words; exit 1 ;;
*/large/*) exit 5 ;;
*--open*/no.json) echo refused open row 1 columns; exit 2 ;;
*nowhere.csv) echo read fault open; exit 3 ;;
*nowhere.txt) echo read fault journal; exit 3 ;;
*--journal*) echo refused journal line 1; exit 6 ;;
*/no.json*) echo refused layout not-json; exit 2 ;;
*) printf '%s\\n' desks desk,command,arguments 'end desks' waves 'end waves' left 'end left' end || exit 4 ;;
esac"""
ENDS_AS_DUE = """record() { printf '\\001\\000\\000\\000\\046%s 1 cancel W1 -> refused unknown-wave\\n\\000' "$1"; }
case "$*" in
'') echo refused words no-mode; exit 1 ;;
make*) exit 5 ;;
*--store*)
    [ ! -d waveplan.store ] || { echo store fault; exit 7; }
    [ -f waveplan.store ] || { record 0 >waveplan.store; exit 0; }
    case $(wc -c <waveplan.store),"$*" in
    81970002,*) echo refused store too-long; exit 6 ;;
    4[0-9][0-9][0-9][0-9][0-9],*/one.csv*) echo refused store entries 10001; exit 6 ;;
    4[0-9][0-9][0-9][0-9][0-9],*) exit 0 ;;
    */one.csv*) truncate -s 43 waveplan.store; record 1 >>waveplan.store; exit 0 ;;
    *)
        grep -q 'no line' waveplan.store && echo refused store record 2 \\
            || echo refused store entry 1 printed cancelled right refused unknown-wave
        exit 6
        ;;
    esac ;;
*none.csv*) ;;
*nowhere.json) echo read fault certificate; exit 3 ;;
*one-certificate*no.json) echo refused certificate not-json; exit 6 ;;
*no.json*) echo refused layout not-json; exit 2 ;;
*) echo bound 68 2>&- || exit 4 ;;
esac"""


class Failing(io.RawIOBase):
    """What an output goes to that can't be written."""

    def __init__(self, number):
        super().__init__()
        self.number = number

    def writable(self):
        return True

    def write(self, data):
        raise OSError(self.number, os.strerror(self.number))


class BadInputs(unittest.TestCase):
    """The gate's scripts over wrong words, without a kit, with another one, and with outputs that can't be written."""

    SCRIPTS = ('refuse', 'weigh', 'waits', 'statuses', 'stores', 'changed', 'sum-up', 'printed', 'lines-to-read',
               'prove-some', '../release')
    WORDS = (['--unknown'], ['nowhere', 'nothing'], ['9' * 5000], ['', ''], ['/dev/null', '--table'], ['--from'],
             ['--anew', '\x1b[2J'], ['--from', 'nowhere'], ['--whole', 'x', 'y'], ['--without', '--without'],
             ['x' * 200, '--write'])

    def setUp(self):
        self.room = tempfile.mkdtemp(prefix='waveplan-test-')
        self.addCleanup(shutil.rmtree, self.room, ignore_errors=True)

    def told(self, name, words, path, out):
        """How a script ends over these words, with this search path, and an output of this kind."""
        module = script(name)
        kept = os.environ['PATH'], os.environ.get('XDG_CACHE_HOME')
        os.environ.update(PATH=path, XDG_CACHE_HOME=self.room)
        try:
            return ended(lambda: ending.status_of(module.main, words, module.__doc__), name, out=out)
        finally:
            os.environ['PATH'] = kept[0]
            os.environ.pop('XDG_CACHE_HOME')
            os.environ.update({'XDG_CACHE_HOME': kept[1]} if kept[1] else {})

    def paths(self):
        """Search paths without a kit, and with one that isn't the known one."""
        write(f'{self.room}/other/bin/rt', '#!/bin/sh\n')
        os.chmod(f'{self.room}/other/bin/rt', 0o755)
        write(f'{self.room}/other/KIT-ID', 'another kit\n')
        os.makedirs(f'{self.room}/none', exist_ok=True)
        return f'{self.room}/none', f'{self.room}/other/bin'

    def test_each_ends_with_one_line_and_a_status_of_the_table(self):
        for name in self.SCRIPTS:
            tried = 0
            for path in self.paths():
                for words in self.WORDS:
                    for out in (io.BytesIO(), None):
                        status, told = self.told(name, words, path, out)
                        self.assertIn(status, (endings.REFUSED, endings.UNWRITTEN), (name, words, told))
                        self.assertEqual(told.count('\n'), 1, (name, words, told))
                        tried += 1
            self.assertGreaterEqual(tried, 40)

    def test_within_a_gate_what_is_not_proved_is_left_out(self):
        def main(words):
            raise kit.NotProved('rt ci has built no program')

        for where, due in (('', endings.REFUSED), (self.room, endings.RIGHT)):
            os.environ[kit.SHARED] = where
            self.addCleanup(os.environ.pop, kit.SHARED, None)
            out = io.BytesIO()
            out.close = lambda: None
            status, told = ended(lambda: ending.status_of(main, [], ''), 'statuses', out=out)
            self.assertEqual(status, due)
            self.assertEqual(b'0 passed, 0 failed\n' in out.getvalue(), due == endings.RIGHT)

    def test_help_is_told_and_an_output_that_can_not_be_written_is_a_status(self):
        for name in self.SCRIPTS:
            self.assertEqual(self.told(name, ['--help'], self.room, io.BytesIO())[0], endings.RIGHT)
            for number in (errno.ENOSPC, errno.EPIPE):
                status, told = self.told(name, ['--help'], self.room, Failing(number))
                self.assertEqual((status, told.count('\n')), (endings.UNWRITTEN, 1), (name, told))
