"""What the scripts of the gate take of the kit: its own modules, the libraries that `rt ci` has proved, and the
sentences of its prover.

All that is tied to a kit stands here and in left.py. When the kit changes, look at: IDENTITIES; `load`, which takes
`rt` and `rt-plant-bodies` as modules; what is used of them (`crates_of`, `copy_crates`, `Kept.give` and `Kept.key`,
`Crate.words`, `must_fail`, `in_lanes`, `need`, `Source`); and the prover's sentences below. `tools/refuse --unedited`
over all crates and `tools/tests/run -k test_gate` show whether they still hold.
"""
import contextlib
import importlib.machinery
import importlib.util
import os
import re
import shutil
import sys
import tempfile

sys.dont_write_bytecode = True
import left

# The kits whose sentences stand below, the newest first. The first keeps on the machine what `rt ci` has proved, and
# its `rt ci` takes names of crates; the second does neither.
IDENTITIES = ('rattle-kit-13f logic dac8208d650f15bf', 'rattle-kit-13b logic dac8208d650f15bf')

# The folder of the copy of the repository that all checks of one gate share, which the first of them makes.
SHARED = 'WAVEPLAN_GATE_COPY'


class Missing(Exception):
    """Why nothing can be judged."""


class NotProved(Missing):
    """What stands in the way where a check of the gate stands on what `rt ci` has not proved."""


def module(folder, name, known_as):
    loader = importlib.machinery.SourceFileLoader(known_as, f'{folder}/{name}')
    spec = importlib.util.spec_from_loader(known_as, loader)
    made = importlib.util.module_from_spec(spec)
    sys.modules[known_as] = made
    loader.exec_module(made)
    return made


def folder():
    """The folder of the kit's commands."""
    command = shutil.which('rt')
    if not command:
        raise Missing('there is no rt on the path')
    return os.path.dirname(os.path.realpath(command))


def identity():
    with open(f'{folder()}/../KIT-ID', encoding='utf-8') as it:
        return it.read().strip()


def known():
    """The kits that are known, in words."""
    return ' or '.join(IDENTITIES)


def load():
    """The kit's rt, and its module that reads the functions of a crate; also known as kit.rt and kit.bodies."""
    global rt, bodies
    rt, bodies = module(folder(), 'rt', 'rt_of_kit'), module(folder(), 'rt-plant-bodies', 'bodies_of_kit')
    return rt, bodies


def keeps(rt):
    """Whether this kit keeps what `rt ci` has proved, by the checksums of all that it read."""
    return hasattr(rt, 'Kept')


def must_fail(crate, edit, kept):
    """Whether a check of the whole crate, over what is kept there, refuses the edit, and what is to be said of it."""
    verdict, text = rt.must_fail(crate, edit, ['--jobs', '1'], kept)
    return verdict in ((rt.REFUSED, rt.AT_LIMIT) if keeps(rt) else (True,)), text


def has_ended(said):
    """Whether the prover came to its end, and didn't stop early."""
    return bool(re.search(r'^(only|holes)=', said, re.M))


def lines_named(said, pattern):
    """The prover's lines of the functions whose paths have this pattern: the path, and what is said of it."""
    return re.findall(rf'^fn ({pattern}): (.*)', said, re.M)


def is_unproved(line):
    return line.startswith(('not proved', 'no proof'))


def lacks_a_goal(line):
    """Whether a function isn't proved since a goal of its own wasn't found."""
    return line.startswith('no proof') and '`search` did not prove' in line


def refused_declarations(line):
    """The declarations because of which a function isn't proved, but for those of what it calls."""
    return re.findall(r'`([^`]+)`', line.partition('it calls')[0]) if line.startswith('not proved') else []


def cache():
    """The folder for what is kept on this machine."""
    return os.path.join(os.environ.get('XDG_CACHE_HOME') or os.path.expanduser('~/.cache'), 'waveplan')


def passed_commit():
    """The file that notes the last commit which the whole gate passed on this machine, and the last line of that
    gate."""
    return f'{cache()}/passed'


def top():
    """The top of this repository."""
    return os.path.dirname(os.path.dirname(os.path.dirname(os.path.realpath(__file__))))


@contextlib.contextmanager
def room_of_copy():
    """Gives the folder for a copy of the repository: that which the checks of one gate share, or one of its own."""
    if os.environ.get(SHARED):
        yield os.environ[SHARED]
    else:
        with tempfile.TemporaryDirectory(prefix=f'rt-copy-{os.getpid()}-') as room:
            yield room


def copy_crates(rt, to):
    """Copies the crates, as the top of a repository."""
    (rt.copy_crates if keeps(rt) else left.copy_crates)(top(), to)
    os.mkdir(f'{to}/.git')


def crates_here(rt):
    """The crates of the repository whose top is the current folder, lowest first, and what rt ci has kept of them."""
    rt.Crate.cuts_libraries = True
    rt.Crate.allowed = rt.handles_of(os.getcwd())
    rt.rtlib.guarded()
    if keeps(rt):
        crates = rt.crates_of(os.getcwd())
        return crates, rt.Kept(crates)
    rt.rtlib.Crate = rt.Crate
    crates = sorted(rt.rtlib.crates_below(os.getcwd()), key=lambda it: len(it.below()))
    return crates, left.Left(rt.rtlib, os.environ.get(SHARED), top(), cache())


@contextlib.contextmanager
def copied(rt):
    """Gives the crates of a copy of this repository, lowest first, and what rt ci has kept of them. The copy is the
    current folder meanwhile."""
    here = os.getcwd()
    with room_of_copy() as room:
        if not os.path.isdir(f'{room}/repository'):
            copy_crates(rt, f'{room}/repository')
        os.chdir(f'{room}/repository')
        try:
            yield crates_here(rt)
        finally:
            os.chdir(here)


def take(kept, crate):
    """Puts what `rt ci` has proved of the crate into the copy's out/, where an earlier check of the gate hasn't, and
    returns whether it is there."""
    key, taken = kept.key(crate), f'{crate.folder}/out/taken'
    if os.path.isfile(taken):
        with open(taken, encoding='utf-8') as it:
            return it.read() == key
    os.makedirs(f'{crate.folder}/out', exist_ok=True)
    if kept.give(crate, False, key):
        note_taken(kept, crate)
        return True
    return False


def note_taken(kept, crate):
    """Notes that what stands in the copy's out/ was proved of these files."""
    with open(f'{crate.folder}/out/taken', 'w', encoding='utf-8') as it:
        it.write(kept.key(crate))


def take_library(rt, kept, crate, jobs):
    """Puts the crate's library, as rt ci has proved it of these files, into the copy's out/. Where rt ci has kept
    none it is proved here."""
    if not take(kept, crate):
        if os.environ.get(SHARED):
            raise NotProved(crate.name)
        print(f'{crate.name}: proved first, since rt ci has kept no library of these files', flush=True)
        with tempfile.TemporaryFile('w+', errors='replace') as crate.out:
            status = crate.ci(['--jobs', str(jobs)], False)
            crate.out.seek(0)
            said = crate.out.read()
        crate.out = sys.stdout
        if status:
            raise Missing(f'{crate.name} is not proved:\n{said[-2000:]}')
        note_taken(kept, crate)
    kept.is_built(crate)


def take_libraries(rt, kept, crates):
    """Puts the library of each of these crates, which are listed lowest first, into the copy's out/. Returns the
    names of those that aren't proved, which there are only within a gate, where `rt ci` has told of them."""
    lacking = []
    for it in crates:
        try:
            if not {low.name for low in it.below()} & {*lacking}:
                take_library(rt, kept, it, min(4, rt.processors()))
                continue
        except NotProved:
            pass
        lacking.append(it.name)
    return lacking


def judged(crates, lacking):
    """Those of the crates that stand on nothing which isn't proved; the others are told."""
    passed_over = [it for it in crates if {it.name, *[low.name for low in it.below()]} & {*lacking}]
    for it in passed_over:
        print(f'{it.name}: left out, since it or what it stands on is not proved', flush=True)
    return [it for it in crates if it not in passed_over]
