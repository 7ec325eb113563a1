"""The commands that README.md, docs/EXAMPLES.md, docs/DAY.md and docs/QUESTIONS.md print, run over a program, and what
they print of its output."""

import os
import re
import shutil
import subprocess
import tempfile
from pathlib import Path

COMMAND = re.compile(r'\./|tools/|echo |grep ')
LEFT_OUT = re.compile(r'\./gate|\./waveplan --prove')
OF_WAVES = re.compile(r'(?<![-\w])waves ')
DAY_OF = re.compile(r'The day of `examples/([\w-]+)`')
LINES = re.compile(r'The command prints ([0-9,]{1,9}) lines')
# Before a block: a file that it shows, and the status with which its commands end where that isn't 0.
SHOWN = re.compile(r'`((?:layout|stock|orders|open|desks|journal)\.(?:json|csv|txt))`:$')
ENDING = re.compile(r'ends with status ([0-9]{1,3})\b')
# The pages, each with the example whose files it begins with.
PAGES = {'README.md': None, 'docs/EXAMPLES.md': None, 'docs/DAY.md': 'one-day', 'docs/QUESTIONS.md': 'one-day'}
STORE, BEFORE = 'waveplan.store', 'waveplan.store.before'  # the copy is the launcher's, which isn't run here
LONGEST = 120  # seconds that a command may take
TELLING = ('tools/wave compare', 'tools/wave explain')  # commands that end with 1 where they have something to tell
CONFIRMED = 'wave,order,location,quantity\nMON-08.00,SO-10235,1-42-R,8\n'


def all_of(pages, top, program, waves=None):
    """All that was run and looked for: a place, and what is wrong there, or None. Without the program waves its
    commands are left out."""
    for page in pages:
        if page.name in PAGES:
            with tempfile.TemporaryDirectory() as room:
                yield from Reader(page, top, (program, waves), Path(room)).all()


def _set_up(folder, top, programs, example):
    """A folder with the programs, the scripts, the examples, and the files of one of these."""
    folder.mkdir()
    launcher = folder / 'waveplan'
    launcher.write_text('#!/bin/sh\n[ "$1" = waves ] || exec "%s" "$@"\nexec "%s" "$@"\n' % programs)
    launcher.chmod(0o755)
    for name in ('tools', 'examples'):
        os.symlink(top / name, folder / name)
    for file in sorted((top / 'examples' / example).iterdir()) if example else ():
        shutil.copy(file, folder)
    if example:
        rows = (folder / 'stock.csv').read_text().split('\n')[1:]
        (folder / 'export.csv').write_text('\n'.join(['Platz,Artikel,Bestand', *rows]))
        (folder / 'confirmed.csv').write_text(CONFIRMED)
    return folder


class Reader:
    """Reads one page as a planner does who types what it prints."""

    def __init__(self, page, top, programs, room):
        self.page, self.top, self.programs, self.room = page, top, programs, room
        self.last, self.last_plan, self.folders, self.place, self.shown = '', None, {}, '', None
        self.examples = {line.section: DAY_OF.search(line.text)[1] for line in page.lines if DAY_OF.search(line.text)}

    def folder(self, section):
        """The folder of a section: one of its own where it begins with an example."""
        example = self.examples.get(section)
        if example not in self.folders:
            self.folders[example] = _set_up(self.room / (example or 'first'), self.top, self.programs,
                                            example or PAGES[self.page.name])
        return self.folders[example]

    def all(self):
        blocks = {block.number: block for block in self.page.blocks()}
        for line in self.page.lines:
            self.place = '%s:%d' % (self.page.name, line.number)
            if line.number in blocks:
                yield from self.block(blocks[line.number])
            elif not line.is_code:
                yield from self.prose(line)

    def prose(self, line):
        """Commands within the prose, and what it says of the output."""
        for text in re.findall(r'`(tools/(?:wave [\w-]+|(?!wave)[\w-]+) [^`]+)`', line.text):
            yield self.run(text, self.folder(line.section))
        if 'Then plan again' in line.text and self.last_plan:
            yield self.run(self.last_plan, self.folder(line.section))
        if line.text.strip():
            self.shown = SHOWN.search(line.text)
        found = LINES.search(line.text)
        if found:
            count = (self.last or '').count('\n')
            yield self.place, None if int(found[1].replace(',', '')) == count else 'the command prints %d lines' % count

    def block(self, block):
        """A block of commands, a file that is shown, or what the command before it has printed."""
        folder, shown, self.shown = self.folder(block.section), self.shown, None
        if not self.programs[1] and any(OF_WAVES.search(line) for line in block.lines if COMMAND.match(line)):
            self.last = None
            return
        if not COMMAND.match(block.lines[0]):
            if shown:
                (folder / shown[1]).write_text('\n'.join(block.lines) + '\n')
                return
            named = re.search(r'some of `([\w.]+)`', block.before)
            text = (folder / named[1]).read_text() if named else self.last
            yield from self.output(block.lines, text) if text is not None else ()
            return
        for command in block.lines:
            if not LEFT_OUT.match(command):
                yield self.run(command, folder, ENDING.search(block.before))
        promised = re.search(r'prints `([^`]+)`:$', block.before)
        if promised:
            yield from self.output([promised[1]], self.last)

    def run(self, command, folder, ending=None):
        """Runs a command, and tells whether it ended as it should: with 0, or with the status that is named."""
        if command.startswith('./waveplan') and '--store 1' in command:
            (folder / BEFORE).write_bytes((folder / STORE).read_bytes() if (folder / STORE).exists() else b'')
        try:
            done = subprocess.run(['sh', '-c', command], cwd=folder, stdin=subprocess.DEVNULL, stdout=subprocess.PIPE,
                                  stderr=subprocess.PIPE, timeout=LONGEST,
                                  env={**os.environ, 'XDG_CACHE_HOME': str(self.room / 'cache')})
        except subprocess.TimeoutExpired:
            return self.place, 'it takes longer than %d seconds: %s' % (LONGEST, command)
        self.last = done.stdout.decode('utf-8', 'replace')
        if command.startswith('./waveplan plan'):
            self.keep(command, folder)
        telling = done.returncode == 1 and command.startswith(TELLING)
        right = telling or done.returncode == (int(ending[1]) if ending else 0)
        told = (done.stderr or done.stdout).decode('utf-8', 'replace').strip().split('\n')[-1]
        return self.place, None if right else 'it ends with status %d: %s: %s' % (done.returncode, command, told)

    def keep(self, command, folder):
        """Keeps the first output of a plan under the names that later commands have for it."""
        self.last_plan = command
        if '>' not in command and not (folder / 'day.txt').exists():
            (folder / 'day.txt').write_text(self.last)
        if (folder / 'day.txt').exists() and not (folder / 'morning.txt').exists():
            shutil.copy(folder / 'day.txt', folder / 'morning.txt')

    def output(self, lines, text):
        """Each line stands in an output, one behind the other. Two dots stand for what is left out."""
        rest = text.split('\n')
        for line in lines:
            begins = line[:-2].rstrip() if line.endswith('..') else None
            if begins == '':
                continue
            found = next((at for at, other in enumerate(rest) if other == line or begins and other.startswith(begins)),
                         None)
            yield self.place, None if found is not None else 'no such line is printed: %s' % line
            rest = rest if found is None else rest[found + 1:]
