"""What there is to be cited: the files of the repository, its words, the items of its code and definitions, and
options."""

import os
import re
from pathlib import Path

from floor.entry import SUBCOMMANDS

WORD = re.compile(r'[A-Za-z_][A-Za-z0-9_]*')
OPTION = re.compile(r'--[a-z][a-z-]*')
ITEM = re.compile(r'\s*(?:pub(?:\(\w+\))? )?(?:ghost )?(?:const |unsafe )*(fn|struct|enum|trait|impl|const|type)\b(.*)')
DEFINITION = re.compile(r"^(?:abbrev|unfoldable|record|data|pub)\s+(?:(?:pub|record|data)\s+)?([A-Za-z_][\w'-]*)",
                        re.MULTILINE)
LEFT_OUT = {'.git', 'out', '__pycache__'}


def read(path):
    return Path(path).read_text(encoding='utf-8', errors='replace')


class Sources:
    """All that stands in a repository, but for its documents and the tests of its scripts."""

    def __init__(self, top):
        self.top = Path(top)
        self.files = sorted(self._files())
        self.endings = {}
        for file in self.files:
            self.endings.setdefault(file.rsplit('/', 1)[-1], []).append(file)
        self.folders = {'/'.join(file.split('/')[:depth]) for file in self.files
                        for depth in range(1, file.count('/') + 1)}
        self.texts = {file: read(self.top / file) for file in self.files if self._is_source(file)}
        self.words = {word for file, text in self.texts.items() for word in WORD.findall(text)}
        self.words |= {word for file in self.files for word in WORD.findall(file)}
        self.words |= {part for file in self.files for part in re.split('[/.]', file)}
        self.subcommands = SUBCOMMANDS
        self.options = {option for file, text in self.texts.items() if not file.startswith('crates/')
                        for option in OPTION.findall(text)}
        self.items = {}
        for file, text in self.texts.items():
            for name, block in _items_of(file, text):
                self.items.setdefault(name, []).append((file, block))

    def _files(self):
        for at, folders, names in os.walk(self.top):
            folders[:] = [each for each in folders if each not in LEFT_OUT]
            yield from (os.path.relpath(os.path.join(at, name), self.top) for name in names)

    @staticmethod
    def _is_source(file):
        """Whether the words of a file count: code, definitions and scripts do, and what they are made of."""
        if file.endswith('.md') or file.startswith(('crates/wp_cases/data/', 'tools/tests/')):
            return False
        return file.endswith(('.rt', '.antt', '.py', '.txt', '.json', '.csv', '.cpp', '.kit',
                              '.toml')) or '.' not in file.rsplit('/', 1)[-1]

    def has_path(self, path):
        """Whether there is a file or a folder of this name: from the top, below crates/ or docs/, or at the end of some
        path."""
        path = re.sub(r'^\./', '', path.rstrip('/'))
        for at in (path, 'crates/' + path, 'docs/' + path):
            if at in self.folders or at in self.endings.get(at.rsplit('/', 1)[-1], ()):
                return True
        named = self.endings.get(path.rsplit('/', 1)[-1], ())
        return any(file.endswith('/' + path) for file in named) or any(folder.endswith('/' + path)
                                                                       for folder in self.folders)

    def blocks_of(self, item):
        """The texts in which an item stands, as `Name`, `name` or `Type::name`."""
        *before, name = item.split('::')
        found = self.items.get(name, [])
        if before:
            within = [(file, block) for file, block in found if re.search(r'\b%s\b' % before[-1], self.texts[file])]
            found = (within or found) + self.items.get(before[-1], [])
        return [block for _, block in found]


def _items_of(file, text):
    if file.endswith('.rt'):
        return _items_of_code(text)
    return _items_of_definitions(text) if file.endswith('.antt') else ()


def _items_of_definitions(text):
    """The definitions of a file, each with the paragraph in which it stands."""
    for block in re.split(r'\n\s*\n', text):
        for found in DEFINITION.finditer(block):
            yield found[1], block


def _items_of_code(text):
    """The items of a file, each up to the line that closes it."""
    lines = text.split('\n')
    for place, line in enumerate(lines):
        found = ITEM.match(line)
        if found:
            indent = line[:len(line) - len(line.lstrip())]
            end = next((at for at in range(place, len(lines)) if lines[at] == indent + '}' or at == place
                        and line.endswith((';', '}'))), len(lines))
            block = '\n'.join(lines[place:end + 1])
            names = WORD.findall(found[2].split('{')[0])
            yield from ((name, block) for name in (names if found[1] == 'impl' else names[:1]))
