"""Judges the wrong edits of a crate: whether the prover refuses each, by a refusal of its own function's own."""
import collections
import os
import re
import shutil
import subprocess

import kit
from copies import Copies
from edits import Edit, function_at, pairs_of

Verdict = collections.namedtuple('Verdict', 'kind text')
REFUSED, MASKED = 'refused', 'masked'


class Judge(Copies):
    """Tries the edits of one crate."""

    def __init__(self, crate, edits):
        super().__init__(crate)
        self.edits, self.checks = edits, 0
        self.kept = f'{self.room}/kept'
        os.mkdir(self.kept)

    def read(self, file):
        """The edit of this file, or a verdict that it can't be tried."""
        name = f'{self.crate.name}/{os.path.basename(file)}'
        texts, why = kit.rt.read_edit(file, self.crate.folder)
        if why:
            return Verdict('bad', f'{name}: BAD EDIT: {why}')
        with open(file, encoding='utf-8') as it:
            pairs = pairs_of(it.read())
        functions = [function_at(self.functions, self.crate.folder, path, old) for path, old, _ in pairs]
        return Edit(name, file, texts, pairs, functions)

    def is_own(self, declaration, function):
        """Whether a declaration stands below the path of the function's proof: its own, its closures', or that of its
        cycle, whose name begins with +."""
        *above, name = self.path_of(function).split('::')
        top = f'Rattle.{self.crate.name}.proofs.'
        start = top + ''.join(f'{it}.' for it in above)
        if declaration.startswith(top + ''.join(f'{it}.' for it in self.closures_of(function))):
            return True
        if not declaration.startswith(start):
            return False
        first, dot, _ = declaration[len(start):].partition('.')
        in_cycle = first.startswith('+') and bool({name, self.cycle_of(function)} & {*first.split('+')})
        return bool(dot) and (first == name or first.startswith(f'{name}+') or in_cycle)

    def calls(self, function, names):
        return any(word in names and after == '(' for word, after in zip(function.body, function.body[1:]))

    def control(self, edits):
        """An unedited caller of an edited function, with a small body, which is to be changed so that it means the
        same."""
        edited = {id(f) for it in edits for f in it.functions}
        names = {f.name for it in edits for f in it.functions}
        free = [it for it in self.functions if id(it) not in edited and it.has_body and not it.in_trait]
        callers = [it for it in free if not it.in_cycle and self.calls(it, names)]
        return min(callers, key=lambda it: len(it.body), default=None)

    def check(self, room, functions, whole=False):
        """What the prover says of these functions in the folder, or of the whole crate."""
        self.checks += 1
        only = [] if whole else [word for it in sorted({self.path_of(f) for f in functions}) for word in ('--only', it)]
        # (by one job: each further one reads the libraries once more)
        words = [kit.rt.rtlib.RATTLE, 'check', *self.crate.words(['--jobs', '1'], keeps=False)]
        words += ['--incremental', self.kept, '--allow-holes', *only]
        how = {'cwd': room, 'stdin': subprocess.DEVNULL, 'stdout': subprocess.PIPE, 'stderr': subprocess.STDOUT}
        ran = subprocess.run([*kit.rt.rtlib.guarded(), *words], errors='replace', **how)
        # (a path that the prover doesn't know, or a limit of memory)
        if not whole and ran.returncode == 2:
            return self.check(room, functions, whole=True)
        return ran.stdout if kit.has_ended(ran.stdout) else None

    def lines_of(self, said, function):
        """The prover's lines of a function and of the closures in it."""
        paths = self.path_of(function), '::'.join(self.closures_of(function))
        name, closures = (re.escape(f'{self.crate.name}::{it}') for it in paths)
        found = kit.lines_named(said, rf'{name}(?:\+\S*)?|{closures}::\S*')
        if not found:
            last = re.escape(function.name)
            found = kit.lines_named(said, rf'\S*(?:::|-|\+){last}(?:\+\S*)?')
            found = found if len({it[0] for it in found}) == 1 else []
        return found

    def own_refusal(self, said, function):
        """The refusal of the function's own, if there is one."""
        for name, line in self.lines_of(said, function):
            if kit.lacks_a_goal(line) or any(self.is_own(it, function) for it in kit.refused_declarations(line)):
                return f'{name}: {line}'
        return None

    def test_control(self, said, control):
        """Stops where the harmless change of the control, if there is one, counts as refused."""
        why = control and self.own_refusal(said, control)
        if why:
            which = f'{self.crate.name}: the harmless change of {self.path_of(control)}'
            raise kit.Missing(f'{which} counts as refused: {why[:300]}')
        if control and not self.lines_of(said, control):
            which = f'{self.crate.name}: there is no line of {self.path_of(control)}'
            raise kit.Missing(f'{which}, which was changed so that it means the same')

    # Many edits in one check

    def settle_twins(self, edits):
        """Tries edits in twins of their functions, all in one check, and gives a verdict for each that it settles, by
        its name."""
        unedited = self.unedited(edits)
        twins, control = self.twins([*edits, *unedited]), self.control(edits)
        room = self.copy_with_twins([*edits, *unedited], twins, control)
        said = self.check(room, [*twins.values(), *[control] * bool(control)])
        shutil.rmtree(room, ignore_errors=True)
        if said is None:
            return {}
        self.test_control(said, control)
        for it in unedited:
            self.test_control(said, twins[it.name])
        told = {it.name: self.own_refusal(said, twins[it.name]) for it in edits}
        return {name: Verdict(REFUSED, why) for name, why in told.items() if why}

    def rounds(self, edits):
        """Puts the edits into rounds, each of which has at most one edit of a function, or of a cycle of calls, whose
        functions have one proof."""
        rounds = []
        proofs = {it.name: {self.unit_of(f) for f in it.functions} for it in edits}
        for edit in edits:
            place = next((it for it in rounds if all(not proofs[edit.name] & proofs[one.name] for one in it)), None)
            if place is None:
                rounds.append([edit])
            else:
                place.append(edit)
        return rounds

    def settle(self, edits, is_first):
        """Tries edits of different functions in one check, and gives a verdict for each, by its name."""
        control = self.control(edits) if is_first else None
        room, applied = self.copy(edits, [f for it in edits for f in it.functions] + [control] * bool(control), control)
        functions = [f for it in applied for f in it.functions] + [control] * bool(control)
        said = self.check(room, functions)
        shutil.rmtree(room, ignore_errors=True)
        verdicts = {it.name: Verdict(MASKED, 'its text stands beside that of another edit') for it in edits}
        if said is None:
            return {it.name: Verdict(MASKED, 'the check of several edits ended early') for it in edits}
        self.test_control(said, control)
        for edit in applied:
            own = next(filter(None, (self.own_refusal(said, it) for it in edit.functions)), None)
            verdicts[edit.name] = Verdict(REFUSED, own) if own else Verdict(MASKED, 'no refusal of its own')
        return verdicts

    def is_masked(self, edit, others):
        """Whether a function of the edit calls one that another edit of the round has changed, or the round wasn't
        judged."""
        names = {f.name for it in others if it is not edit for f in it.functions}
        return len(others) > 1 and any(self.calls(it, names) for it in edit.functions)

    # One edit

    def users(self, edit):
        """The functions that the edit changes, and those that name an item which it changes outside of functions."""
        outside = [old for (_, old, _), it in zip(edit.pairs, edit.functions) if it is None]
        names = {it for old in outside for it in re.findall(r'\b[A-Z]\w*', old)}
        changed = {id(it) for it in edit.functions}
        words = {id(it): {*re.findall(r'\w+', self.text_of(it))} for it in self.functions if it.has_body}
        return [it for it in self.functions if it.has_body and (id(it) in changed or names & words[id(it)])]

    def refusal(self, edits, functions):
        """What the prover says of the first of these functions that these edits alone leave unproved: '' where all
        are proved, None where it isn't known."""
        room, applied = self.copy(edits, functions)
        said = self.check(room, functions)
        shutil.rmtree(room, ignore_errors=True)
        changed = {path for it in edits for path in it.texts}
        if said is None or len(applied) < len(edits) or any(kit.rt.unread(it, changed) for it in said.split('\n')):
            return None
        lines = [self.lines_of(said, it) for it in functions]
        told = [f'{name}: {line}' for found in lines for name, line in found if kit.is_unproved(line)]
        return told[0] if told else '' if all(lines) else None

    def alone(self, edit):
        """Tries an edit alone: by its functions where these are proved without it, and else as rt must-fail does,
        over what was kept, and from nothing where that says no refusal."""
        users = self.users(edit)
        told = self.refusal([edit], users) if users else None
        if told and self.refusal([], users) == '':
            return Verdict(REFUSED, told)
        for kept in (self.kept, None):
            is_refused, text = kit.must_fail(self.crate, edit.path, kept)
            self.checks += 1
            if is_refused:
                return Verdict(REFUSED, text)
        return Verdict('failed', text)

    def judge(self):
        """A verdict for each edit, by its name."""
        read = [self.read(it) for it in self.edits]
        verdicts = {it.text.partition(':')[0]: it for it in read if isinstance(it, Verdict)}
        left = [it for it in read if isinstance(it, Edit) and None not in it.functions]
        single = [it for it in read if isinstance(it, Edit) and None in it.functions]
        tried = collections.Counter()
        is_first = True
        with_twins = [it for it in left if self.has_twin(it)]
        if with_twins:
            settled = self.settle_twins(with_twins)
            verdicts.update(settled)
            is_first = not settled
            # (beside twins all functions are emptied, so what isn't settled there is tried alone)
            single += [it for it in with_twins if settled and it.name not in settled]
            left = [it for it in left if it.name not in verdicts and it not in single]
        while left:
            now = self.rounds(left)[0]
            found = self.settle(now, is_first)
            is_first = False
            for edit in now:
                tried[edit.name] += 1
                if found[edit.name].kind == REFUSED:
                    verdicts[edit.name] = found[edit.name]
            # (what was masked is tried once more beside fewer edits, and then alone)
            masked = [it for it in now if it.name not in verdicts]
            single += [it for it in masked if tried[it.name] > 1 or not self.is_masked(it, now)]
            left = [it for it in left if it.name not in verdicts and it not in single]
        for edit in single:
            verdicts[edit.name] = self.alone(edit)
        return verdicts
