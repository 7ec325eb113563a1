"""Runs of the scripts and of the program, for the tests beside this file."""

import functools
import os
import subprocess
import sys
import tempfile
from pathlib import Path

import in_process
from floor import entry

TOOLS = Path(__file__).resolve().parent.parent
TOP = TOOLS.parent
EXAMPLES = TOP / 'examples'
PROGRAM, WAVES = os.environ.get('WAVEPLAN_PROGRAM'), os.environ.get('WAVES_PROGRAM')
FILES = ('layout.json', 'stock.csv', 'orders.csv', 'desks.csv')

# Stands between a script and the program, and changes what it answers.
PLANTED = '''#!''' + sys.executable + ''' -SE
import re, subprocess, sys
done = subprocess.run([%(program)r, *sys.argv[1:]], stdin=subprocess.DEVNULL, stdout=subprocess.PIPE)
sys.stdout.buffer.write(re.sub(%(pattern)r, lambda found: %(new)s, done.stdout, flags=re.MULTILINE))
sys.stdout.flush()
sys.exit(%(status)s)
'''


class Done:
    """How a script ended: its status, and what it wrote."""

    def __init__(self, status, output, errors):
        self.status, self.bytes = status, output
        self.output, self.errors = output.decode('utf-8', 'replace'), errors

    @classmethod
    def of(cls, done):
        return cls(done.returncode, done.stdout, done.stderr.decode('utf-8', 'replace'))


def script(name, *words, given=b'', folder=None):
    """Runs a script of tools/: those for planners within this process."""
    if name in entry.SUBCOMMANDS:
        return Done(*in_process.floor(name, list(map(str, words)), given, folder))
    words = [sys.executable, str(TOOLS / name), *map(str, words)]
    return Done.of(subprocess.run(words, input=given, stdout=subprocess.PIPE, stderr=subprocess.PIPE, cwd=folder,
                                  timeout=170))


def waves(*words, folder=None):
    """Runs the program waves."""
    return ran(WAVES, 'waves', *words, folder=folder)


def waveplan(*words, folder=None):
    """Runs the program."""
    return ran(PROGRAM, *words, folder=folder)


def ran(program, *words, folder=None):
    """Runs a program."""
    words = [program, *map(str, words)]
    return Done.of(subprocess.run(words, stdin=subprocess.DEVNULL, stdout=subprocess.PIPE, stderr=subprocess.PIPE,
                                  cwd=folder,
                                  timeout=170))


def put(folder, files):
    """Writes texts or bytes into a folder, and gives the folder. What begins as a script may be run."""
    folder = Path(folder)
    folder.mkdir(parents=True, exist_ok=True)
    for name, content in files.items():
        data = content.encode() if isinstance(content, str) else content
        (folder / name).write_bytes(data)
        if data.startswith(b'#!'):
            (folder / name).chmod(0o755)
    return folder


def options(folder, names=FILES):
    """The options of a plan over the files of a folder."""
    return [word for name in names for word in ('--' + name.split('.')[0], str(Path(folder) / name))]


def planned(folder, *more):
    """Plans the day of a folder, and gives the run."""
    return waveplan('plan', *options(folder), *more)


@functools.lru_cache(maxsize=None)
def shelf():
    """A folder for the files of all tests, which goes with the process."""
    return tempfile.TemporaryDirectory()


@functools.lru_cache(maxsize=None)
def day_of(example, *more):
    """The path of the output of an example day."""
    done = planned(EXAMPLES / example, *more)
    assert done.status == 0, done.errors
    path = Path(shelf().name) / ('%s%s.txt' % (example, ''.join(more)))
    path.write_bytes(done.bytes)
    return path


def example_day():
    return day_of('one-day', '--capacity', '3')
