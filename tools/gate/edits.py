"""Wrong edits: how they are read, and which functions they change."""
import collections
import os
import re

import kit

# An edit: its name, its file, the texts that it makes, its pairs of texts, and the functions that these stand in.
Edit = collections.namedtuple('Edit', 'name path texts pairs functions')


def read_text(path):
    with open(path, encoding='utf-8') as it:
        return it.read()


def pairs_of(text):
    """The pairs of an edit: file, old text, new text."""
    path, old, pairs = '', None, []
    for line in text.split('\n'):
        if line.startswith('file: '):
            path = line[len('file: '):].strip()
        elif line.startswith('old: '):
            old = line[len('old: '):]
        elif line.startswith('new:'):
            new = line[len('new:'):]
            pairs.append((path, old, new[1:] if new.startswith(' ') else new))
    return pairs


def camel(words):
    """The words of a path or a type as one word, as the prover writes the name of an impl."""
    return ''.join(it[:1].upper() + it[1:] for it in words if it.isidentifier())


def without_modules(words):
    """A trait's words without the modules before its name."""
    end = words.index('<') if '<' in words else len(words)
    starts = [at + 1 for at in range(end) if words[at] == ':']
    return words[max(starts, default=0):]


def path_of(function, declared):
    """The function's path below the crate, as the prover prints it: a method of a type stands at the type, and one of
    a trait's impl at the impl."""
    block, module = function.block, function.module
    if not block:
        return '::'.join([*module, function.name])
    owner = re.sub(r'<.*', '', ''.join(block.ty)).split(':')[-1]
    is_drop = block.trait[-1:] == ['Drop']
    if block.trait and not is_drop and not block.is_trait:
        return '::'.join([*module, camel([owner]) + camel(without_modules(block.trait)), function.name])
    at = next((it[0] for it in declared.get(owner, [])), module)
    return '::'.join([*at, owner, function.name])


def closures_at(path, has_owner):
    """The path below which the prover names the closures of the function with that path."""
    words = path.split('::')
    cut = len(words) - 1 - has_owner
    return [*words[:cut], 'fn', *words[cut:]]


def function_at(functions, folder, path, old):
    """The function in whose item the text stands, if it stands in one."""
    if not path.startswith('src/'):
        return None
    with open(f'{folder}/{path}', 'rb') as it:
        data = it.read()
    at = data.find(old.encode())
    inside = [it for it in functions if it.file == path and it.first <= at < it.end]
    return inside[0] if at >= 0 and inside else None


def edits_in(root, crate, folder):
    at = f'{root}/crates/{crate.name}/{folder}'
    names = sorted(os.listdir(at)) if os.path.isdir(at) else []
    for it in names:
        if not re.fullmatch(r'[A-Za-z0-9_-]+\.edit', it):
            why = f'an edit stands right in {folder}/, and its name ends in .edit'
            raise kit.Missing(f'crates/{crate.name}/{folder}/{it}: {why}')
    return [f'{at}/{it}' for it in names]
