"""What a kit's `rt ci` has proved that keeps nothing of it but what lies in the crates' folders out/.

Within the gate that ran it, what it left is taken where it said that it proved the crate, and where the crate and those
below it are still as in the copy that the gate made before. What is taken so, or is proved by the gate's own scripts,
is kept on this machine by a sum of all that it is made from; and it is taken from there where no gate has it.
"""
import hashlib
import os
import re
import shutil
import tempfile
import time

SAID = 'said/proofs'
PROGRAMS = ('', '.by-rattle')
# How long what nobody has taken is kept, in seconds.
KEPT_FOR = 14 * 24 * 3600


def copy_crates(top, to):
    """Copies what the crates are made of, and nothing that was made of them."""
    os.makedirs(to, exist_ok=True)
    for name in ('HANDLES', 'crates.txt'):
        if os.path.isfile(f'{top}/{name}'):
            shutil.copyfile(f'{top}/{name}', f'{to}/{name}')
    shutil.copytree(f'{top}/crates', f'{to}/crates', ignore=shutil.ignore_patterns('out'))


def link_or_copy(source, to):
    """Gives a file a second name where that can be, and else copies it."""
    try:
        os.link(source, to)
    except OSError:
        shutil.copy2(source, to)


def made_of(crate):
    """What stands in a crate's out/ once it is proved: its library, or its programs, one for each compiler."""
    return [f'{crate.name}{it}' for it in PROGRAMS] if crate.is_program else ['rlib']


def put(crate, source, to):
    """Puts what was made of the crate from one folder into another, and returns whether there was any."""
    found = [it for it in made_of(crate) if os.path.exists(f'{source}/{it}')]
    for it in found:
        if os.path.isdir(f'{source}/{it}'):
            shutil.copytree(f'{source}/{it}', f'{to}/{it}', copy_function=link_or_copy, dirs_exist_ok=True)
        else:
            shutil.copy2(f'{source}/{it}', f'{to}/{it}')
    return bool(found)


class Left:
    """What was proved, in the place of what a kit keeps."""

    def __init__(self, rtlib, room, top, cache):
        self.rtlib, self.room, self.top, self.cache = rtlib, room, top, f'{cache}/kept'
        self.sums = {}

    def own_sum(self, folder):
        """A sum of what a crate in this folder is made of."""
        if folder not in self.sums:
            made = hashlib.sha256()
            for file in self.rtlib.files_of(folder):
                with open(file, 'rb') as it:
                    made.update(repr((os.path.relpath(file, folder), it.read())).encode())
            self.sums[folder] = made.hexdigest()
        return self.sums[folder]

    def sum_at(self, crate, folder):
        """A sum of what the crate and those below it are made of, whose folders stand in this one."""
        made = hashlib.sha256(self.rtlib.text_of(f'{self.rtlib.KIT}/WHAT').encode())
        for it in sorted([crate, *crate.below()], key=lambda one: one.name):
            made.update(repr((it.name, sorted(it.of_kit), self.own_sum(f'{folder}/{it.name}'))).encode())
        return made.hexdigest()

    def key(self, crate):
        return self.sum_at(crate, os.path.dirname(crate.folder))

    def is_proved(self, crate):
        """Whether the gate's `rt ci` has proved the crate."""
        said = self.room and self.rtlib.text_of(f'{self.room}/{SAID}') or ''
        return bool(re.search(rf'^rt: {crate.name} proved$', said, re.M))

    def of_gate(self, crate, key):
        """The folder in which the gate's `rt ci` has left what it proved of these very files; None where there is none."""
        out = f'{self.top}/crates/{crate.name}/out'
        if not self.is_proved(crate) or self.sum_at(crate, f'{self.top}/crates') != key:
            return None
        if os.path.isfile(f'{out}/rlib/stamp'):
            print(f'{crate.name}: this kit has given back what checks of your own had left in {out}, and what rt ci '
                  'proved is gone with it: run the gate in a clone in which no other check has run', flush=True)
            return None
        return out

    def give(self, crate, _, key):
        """Puts what was proved of these very files of the crate into its out/, and returns whether there was any."""
        out = self.of_gate(crate, key)
        if out and put(crate, out, f'{crate.folder}/out'):
            self.keep(crate, key)
            return True
        return put(crate, f'{self.cache}/{key}', f'{crate.folder}/out')

    def keep(self, crate, key):
        """Keeps what was proved of the crate, whole or not at all, and lets go what nobody has taken for long."""
        try:
            os.makedirs(self.cache, exist_ok=True)
            for name in os.listdir(self.cache):
                if os.path.getmtime(f'{self.cache}/{name}') < time.time() - KEPT_FOR:
                    shutil.rmtree(f'{self.cache}/{name}')
            if os.path.isdir(f'{self.cache}/{key}'):
                os.utime(f'{self.cache}/{key}')
                return
            room = tempfile.mkdtemp(dir=self.cache)
            put(crate, f'{crate.folder}/out', room)
            os.rename(room, f'{self.cache}/{key}')
        except OSError:
            # (it is proved again then)
            pass

    def is_built(self, crate):
        """Takes note that a proved library stands in its place."""
        self.keep(crate, self.key(crate))

    def made(self, crate, _):
        """The names of the crate's built programs, one for each compiler."""
        return [it for it in made_of(crate) if os.path.isfile(f'{crate.folder}/out/{it}')]
