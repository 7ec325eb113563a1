"""The programs that `rt ci` has proved and built of these very files."""
import os
import shutil

import kit

PROGRAMS = ('waveplan', 'waves')
PROGRAM = PROGRAMS[0]


def programs(rt, crates, kept, name=PROGRAM):
    """A program as it was built, once for each compiler."""
    crate = next(it for it in crates if it.name == name)
    below = {it.name for it in crate.below()}
    # (where the kit keeps it, what is kept of a crate stands on the libraries below)
    lacking = kit.keeps(rt) and kit.take_libraries(rt, kept, [it for it in crates if it.name in below])
    if lacking or not kit.take(kept, crate):
        raise kit.NotProved(f'rt ci has built no {name} of these files')
    return [f'{crate.folder}/out/{it}' for it in kept.made(crate, False)]


def copied_to(folder):
    """Copies of the programs in a folder, in the order of their names above."""
    rt, _ = kit.load()
    with kit.copied(rt) as (crates, kept):
        return [os.path.realpath(shutil.copy(programs(rt, crates, kept, it)[0], os.path.abspath(folder)))
                for it in PROGRAMS]
