"""Citations held to what is there. Each check gives, one after the other, what it looked at: None, or what is wrong."""

import re

from opinion import words as command_line

from .sources import OPTION, WORD

NAME = re.compile(r"[A-Za-z_][A-Za-z0-9_]*(?:(?:::|\.)[A-Za-z_][A-Za-z0-9_]*)*(?:<\w+>)?")
PATH = re.compile(r'[\w.-]*/[\w./-]*|[\w-]+\.(?:rt|antt|py|md|txt|csv|json|cpp|svg|edit|store|html)')
ENDING = re.compile(r'.*\.(?:rt|antt|py|md|edit|cpp|svg)')
OF = re.compile(r'((?:`[a-z_][a-z0-9_]*`(?:, | and )?)+),? of `([A-Za-z_]\w*(?:::\w+)*)`')
MEMBER = r'\b(?:ensures|requires|fn)\s+%s\b|\b%s\s*:|\b%s\s*='
COMMAND = re.compile(r'(?:\./)?(tools/[\w/-]+|docs/lines-to-read|waveplan|gate)(?: |$)')

# Files that a reader has or makes, and words of the system that no file of the repository has.
OF_A_READER = {'day.txt', 'day.html', 'noon.txt', 'morning.txt', 'journal.txt', 'waveplan.store', 'layout.json',
               'stock.csv', 'orders.csv',
               'desks.csv', 'out/waveplan', 'out/waves', '/dev/null', 'must-fail/', 'edits/', 'data/', '/'}
OF_THE_SYSTEM = {'lseek', 'ftruncate', 'fsync', 'malloc', 'realloc', 'unlimited', 'perf', 'LD_PRELOAD',
                 'XDG_CACHE_HOME', 'cache'}
PLACEHOLDER = re.compile(r'NAME|\*|FOLDER|~')

OPTIONS = {'--' + name for mode in command_line.FILES for name in (*command_line.FILES[mode],
                                                                   *command_line.NUMBERS[mode])}


def links(page, pages, sources):
    """Each link leads to a file, and to a heading in it."""
    known = {each.name: each for each in pages}
    for line, target in page.links():
        if re.match(r'[a-z]+:', target):
            continue
        path, _, anchor = target.partition('#')
        name = resolved(page.name, path)
        if name not in known:
            yield line, None if sources.has_path(name) else 'there is no document %s' % target
        elif anchor and anchor not in known[name].anchors():
            yield line, '%s has no heading #%s' % (name, anchor)
        else:
            yield line, None


def resolved(name, path):
    """The name of the document to which a link leads from another."""
    if not path:
        return name
    parts = name.split('/')[:-1]
    for part in path.split('/'):
        parts = parts[:-1] if part == '..' else parts + [part]
    return '/'.join(parts)


def quoted(page, sources):
    """Each file, item, option and command that stands in backquotes is there."""
    examples = {word for line in page.lines if line.is_code for word in WORD.findall(line.text)}
    for line, text in page.quoted():
        if COMMAND.match(text):
            yield line, of_command(text, sources)
        elif PLACEHOLDER.search(text) or text in OF_A_READER or text in OF_THE_SYSTEM:
            continue
        elif text.startswith('--'):
            unknown = set(OPTION.findall(text)) - OPTIONS - sources.options
            yield line, 'there is no option %s' % ' '.join(sorted(unknown)) if unknown else None
        elif PATH.fullmatch(text) and (ENDING.fullmatch(text) or '/' in text):
            yield line, None if sources.has_path(text) else 'there is no file or folder %s' % text
        elif NAME.fullmatch(text):
            unknown = [word for word in WORD.findall(text) if word not in sources.words and word not in examples]
            yield line, 'nothing is called %s' % text if unknown else None


def of_command(text, sources):
    """What is wrong with a command that is cited: its script, its subcommand or one of its options isn't there."""
    script = COMMAND.match(text)[1]
    if not sources.has_path(script):
        return 'there is no command %s' % script
    unknown = set(OPTION.findall(text)) - OPTIONS - sources.options
    if unknown:
        return 'there is no option %s' % ' '.join(sorted(unknown))
    if script == 'tools/wave' and ' ' in text and text.split()[1] not in sources.subcommands:
        return 'tools/wave has no subcommand %s' % text.split()[1]
    return None


def clauses(page, sources):
    """Each clause or field stands in the item of which it is told to be. What stands before the last of them may be an
    item by itself."""
    prose = (line for line in page.lines if not line.is_code)
    told = ((line, found[2], re.findall('`(.*?)`', found[1])) for line in prose for found in OF.finditer(line.text))
    for line, item, names in told:
        blocks = sources.blocks_of(item)
        members = [name for name in names[:-1] if name not in sources.items] + names[-1:]
        yield from ((line, None if _has_member(blocks, name) else '%s has no %s' % (item, name))
                    for name in (members if blocks else ()))


def _has_member(blocks, name):
    return any(re.search(MEMBER % (name, name, name), block) for block in blocks)
