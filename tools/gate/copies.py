"""Copies of a crate in which edits stand, in their functions or in twins, and all other functions are emptied."""
import collections
import copy
import os
import re
import shutil
import tempfile

import kit
from edits import closures_at, Edit, path_of, read_text

HARMLESS = ' let _unchanged: u8 = 1;'
EMPTY = '{ unreachable!() }'
HOLE = """use Rattle.{path}.Statement.{{statement}}

pub {name}_spec : {{M : Type 1}} → statement M
{name}_spec = absurd ?
"""


class Copies:
    """The copies of a crate: its functions, their paths and proofs, and the folder for copies."""

    def __init__(self, crate):
        self.crate = crate
        source = kit.bodies.Source(crate.folder)
        source.read('src/main.rt' if crate.is_program else 'src/lib.rt')
        self.functions, self.declared = source.functions, source.declared
        self.room = tempfile.mkdtemp(prefix=f'rt-edits-{os.getpid()}-')
        self.cited = self.cited_paths()

    def path_of(self, function):
        return path_of(function, self.declared)

    def cycle_of(self, function):
        """The name of the cycle of calls in which the function stands; its own, where it says none."""
        with open(f'{self.crate.folder}/{function.file}', 'rb') as it:
            found = re.search(rb'#\[cycle\((\w+)\)\]', it.read()[function.first:function.start])
        return found[1].decode() if found else function.name

    def unit_of(self, function):
        """What has one proof: the function, or the cycle in which it stands."""
        return (*self.path_of(function).split('::')[:-1], self.cycle_of(function))

    def closures_of(self, function):
        return closures_at(self.path_of(function), bool(function.block))

    def proof_of(self, function):
        """Where the function's proof stands, if it is written."""
        return '/'.join([self.crate.folder, 'proofs', *self.path_of(function).split('::')])

    def text_of(self, function):
        """The function as it is written, with its contract."""
        with open(f'{self.crate.folder}/{function.file}', 'rb') as it:
            return it.read()[function.first:function.end].decode()

    def is_main(self, function):
        return self.crate.is_program and self.path_of(function) == 'main'

    def may_be_empty(self, function):
        """Whether others know no more of the function than its contract: it has a body, is no default of a trait, and
        no proof of another names its own."""
        is_default = function.block and function.block.is_trait
        return function.has_body and not is_default and tuple(self.path_of(function).split('::')) not in self.cited

    def cited_paths(self):
        """The paths below proofs/ that a file elsewhere names."""
        found, top = set(), f'{self.crate.folder}/proofs'
        for at, _, names in os.walk(top):
            here = tuple(it for it in os.path.relpath(at, top).split('/') if it != '.')
            for name in names:
                with open(f'{at}/{name}', encoding='utf-8') as it:
                    words = re.findall(rf'\bRattle\.{self.crate.name}\.proofs\.([^\s{{}}()]+)', it.read())
                for path in [tuple(it.split('.')) for it in words]:
                    found |= {path[:end] for end in range(1, len(path)) if here[:end] != path[:end]}
        return found

    def new_copy(self):
        room = tempfile.mkdtemp(dir=self.room)
        for part in kit.rt.rtlib.PARTS:
            if os.path.isdir(f'{self.crate.folder}/{part}'):
                shutil.copytree(f'{self.crate.folder}/{part}', f'{room}/{part}')
        return room

    def copy(self, edits, kept, control=None):
        """Writes the crate with these edits to a new folder, in which all functions but those kept are emptied, and
        those of the edits. Edits whose texts the others took away are left out."""
        room = self.new_copy()
        units = {self.unit_of(it) for it in kept}
        emptied = [it for it in self.functions if self.may_be_empty(it) and self.unit_of(it) not in units]
        self.write(room, emptied, control)
        return room, [it for it in edits if self.apply(it, room)]

    def write(self, room, emptied, control, beside=None):
        """Empties these functions, changes the control so that it means the same, and writes behind a function what
        is to stand beside it."""
        texts, empty = {}, {id(it) for it in emptied}
        for it in sorted(self.functions, key=lambda it: -it.first):
            more = (beside or {}).get(id(it), '').encode()
            if it is not control and id(it) not in empty and not more:
                continue
            if it.file not in texts:
                with open(f'{room}/{it.file}', 'rb') as file:
                    texts[it.file] = file.read()
            text = texts[it.file]
            item = text[it.first:it.end]
            if it is control:
                item = text[it.first:it.opens + 1] + HARMLESS.encode() + text[it.opens + 1:it.end]
            elif id(it) in empty:
                item = self.emptied(text[it.first:it.opens], it)
                self.put_hole(room, it)
            texts[it.file] = text[:it.first] + item + more + text[it.end:]
        for path, text in texts.items():
            with open(f'{room}/{path}', 'wb') as it:
                it.write(text)

    def emptied(self, head, function):
        """The function without its code. With no main a program is checked as a library, and so without what it
        links."""
        # (with no code it stands in no cycle of calls)
        return b'' if self.is_main(function) else re.sub(rb'#\[cycle\(\w+\)\]', b'', head) + EMPTY.encode()

    def put_hole(self, room, function):
        """Puts a hole in the place of the function's proof."""
        *above, name = self.path_of(function).split('::')
        folder = '/'.join([room, 'proofs', *above])
        cycles = [it for it in os.listdir(folder) if it.startswith('+')] if os.path.isdir(folder) else []
        for it in [name, *[it for it in cycles if {name, self.cycle_of(function)} & {*it.split('+')}]]:
            shutil.rmtree(f'{folder}/{it}', ignore_errors=True)
        if not self.is_main(function):
            os.makedirs(f'{folder}/{name}')
            with open(f'{folder}/{name}/Proof.antt', 'w', encoding='utf-8') as it:
                it.write(HOLE.format(path='.'.join([self.crate.name, 'proofs', *above, name]), name=name))

    def apply(self, edit, room):
        texts = {}
        for path, old, new in edit.pairs:
            if path not in texts:
                with open(f'{room}/{path}', encoding='utf-8') as it:
                    texts[path] = it.read()
            if texts[path].count(old) != 1:
                return False
            texts[path] = texts[path].replace(old, new)
        for path, text in texts.items():
            with open(f'{room}/{path}', 'w', encoding='utf-8') as it:
                it.write(text)
        return True

    # Twins

    def has_twin(self, edit):
        """Whether the edit can stand in a twin of its function: it changes that alone, which is no method of a
        trait's, in no cycle of calls, and has no proof of a closure's."""
        function = edit.functions[0]
        is_alone = all(it is function for it in edit.functions) and not function.in_trait and not function.in_cycle
        if not is_alone or not function.has_body or self.is_main(function):
            return False
        folder = self.proof_of(function)
        above = os.path.dirname(folder)
        own = os.listdir(above) if os.path.isdir(above) else []
        has_closure = any(it.startswith(f'{function.name}+') or it == 'fn' for it in own)
        return not has_closure and not self.cites_itself_otherwise(function)

    def cites_itself_otherwise(self, function):
        """Whether the function's proof names it in another way than by its whole path, under which a twin's names its
        own."""
        source, name = self.proof_of(function), re.escape(function.name)
        files = os.listdir(source) if os.path.isdir(source) else []
        texts = [self.renamed(read_text(f'{source}/{it}'), function, 'twin') for it in files]
        imports = [line for text in texts for line in text.split('\n') if line.startswith('use ')]
        return any(re.search(rf'[.{{\s]{name}(\.|\s*[,}}])', line) for line in imports)

    def renamed(self, text, function, name):
        """A text of the function's proof under another name of the function."""
        *above, own = self.path_of(function).split('::')
        path = '.'.join(['', *above, ''])
        before = rf'Rattle\.{self.crate.name}\.(?:proofs|specs\.contracts){re.escape(path)}'
        cited = re.compile(rf'({before}){re.escape(own)}(?=[.\s]|$)', re.M)
        return re.sub(rf'\b{re.escape(own)}_spec\b', f'{name}_spec', cited.sub(rf'\g<1>{name}', text))

    def unedited(self, edits):
        """An edit that changes nothing, of the least of the functions with a written proof: its twin shows that twins
        are proved as their functions are."""
        written = [it.functions[0] for it in edits if os.path.isdir(self.proof_of(it.functions[0]))]
        least = min(written, key=lambda it: len(it.body), default=None)
        return [Edit('unedited', '', {}, [], [least])] * bool(least)

    def twins(self, edits):
        """A twin of its function for each edit: the same under a name of its own."""
        found = {}
        for number, edit in enumerate(edits):
            found[edit.name] = twin = copy.copy(edit.functions[0])
            twin.name = f'{twin.name}_twin_{number}'
        return found

    def text_of_twin(self, edit, twin):
        """The twin's item, with the edit in it; None where the edit's texts don't stand in it once each."""
        text = self.text_of(edit.functions[0])
        for _, old, new in edit.pairs:
            if text.count(old) != 1:
                return None
            text = text.replace(old, new)
        return re.sub(rf'\bfn {re.escape(edit.functions[0].name)}\b', f'fn {twin.name}', text, count=1)

    def put_twin(self, room, function, twin):
        """Gives the twin the proof of its function, under its own name."""
        source = self.proof_of(function)
        for name in os.listdir(source) if os.path.isdir(source) else []:
            to = '/'.join([room, 'proofs', *self.path_of(twin).split('::')])
            os.makedirs(to, exist_ok=True)
            with open(f'{to}/{name}', 'w', encoding='utf-8') as it:
                it.write(self.renamed(read_text(f'{source}/{name}'), function, twin.name))

    def copy_with_twins(self, edits, twins, control):
        """Writes the crate to a new folder in which each edit stands in a twin, and all functions are emptied but the
        control."""
        room = self.new_copy()
        beside = collections.defaultdict(str)
        for edit in edits:
            text = self.text_of_twin(edit, twins[edit.name])
            if text is not None:
                beside[id(edit.functions[0])] += f'\n{text}\n'
                self.put_twin(room, edit.functions[0], twins[edit.name])
        kept = {self.unit_of(control)} if control else set()
        emptied = [it for it in self.functions if self.may_be_empty(it) and self.unit_of(it) not in kept]
        self.write(room, emptied, control, beside)
        return room

    def end(self):
        shutil.rmtree(self.room, ignore_errors=True)
