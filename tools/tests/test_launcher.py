"""Tests of the launcher and of `tools/prove`, over a kit that only pretends to prove."""
import os
import shutil
import signal
import subprocess
import sys
import tempfile
import time
import unittest

import kit
import runs

HOME = str(runs.TOP)

# It stands for the kit: it counts proofs, and a proof takes as long, and ends, as the files beside it say.
PRETENDED_KIT = '''#!/usr/bin/env python3
import os, signal, subprocess, sys, time
ROOM = os.path.dirname(os.path.realpath(__file__))


def beside(name):
    with open(f'{ROOM}/{name}', encoding='utf-8') as it:
        return it.read()


def processors():
    return 2


def ci():
    with open(f'{ROOM}/proofs', 'a', encoding='utf-8') as it:
        it.write(f'{processors()} lanes\\n')
    with open('crates.txt', encoding='utf-8') as it:
        names = [line.partition(':')[0].split()[0] for line in it]
    for name in names:
        time.sleep(float(beside('seconds')))
        print(f'fn {name}::main: proved\\nrt: {name} proved', flush=True)
    if os.path.exists(f'{ROOM}/fails'):
        print('fn waveplan::main: not proved\\nrt: FAILED: waveplan\\n1 passed, 1 failed')
        return 1
    for name in ('waveplan', 'waves'):
        os.makedirs(f'crates/{name}/out')
        with open(f'crates/{name}/out/{name}', 'w', encoding='utf-8') as it:
            it.write('#!/bin/sh\\necho %s"$@"\\nexit 6\\n' % ('proved ' if name == 'waveplan' else 'proved by waves: '))
        os.chmod(f'crates/{name}/out/{name}', 0o755)
    print('2 passed, 0 failed')
    return 0


def build():
    """Waits for what builds, a session of its own. It clears up after one signal, where no second one comes."""
    for it in (signal.SIGTERM, signal.SIGINT):
        signal.signal(it, lambda number, _: sys.exit(128 + number))
    tool = subprocess.Popen(['sleep', beside('try-seconds')], start_new_session=True)
    with open(f'{ROOM}/tools', 'a', encoding='utf-8') as it:
        it.write(f'{tool.pid}\\n')
    try:
        tool.wait()
    finally:
        time.sleep(0.3)
        tool.kill()
        tool.wait()


def try_unproved(words):
    with open(f'{ROOM}/tried', 'a', encoding='utf-8') as it:
        it.write(os.path.basename(os.getcwd()) + '\\n')
    if beside('try-seconds') != '0':
        build()
    files = [it.partition('=')[2] for it in words if it.startswith('file-') and '=' in it]
    for it in files:
        with open(it, encoding='utf-8') as text:
            print('unproved', text.read().strip())
    if os.path.exists(f'{ROOM}/has-no-answer'):
        print('run=no-answer proved=no', file=sys.stderr)
        return 6
    print('run=ended status=2 runners=1 races=unchecked proved=no', file=sys.stderr)
    return 2


def main(words):
    return ci() if words[:1] == ['ci'] else try_unproved(words[1:])


if __name__ == '__main__':
    sys.exit(main(sys.argv[1:]))
'''


def write(path, text, is_program=False):
    os.makedirs(os.path.dirname(path), exist_ok=True)
    with open(path, 'w', encoding='utf-8') as it:
        it.write(text)
    if is_program:
        os.chmod(path, 0o755)


class Repository(unittest.TestCase):
    """A repository of three crates and one above them, with the launcher and the pretended kit."""

    def setUp(self):
        self.room = tempfile.mkdtemp(prefix='waveplan-test-')
        self.addCleanup(shutil.rmtree, self.room, ignore_errors=True)
        self.home, self.kit = f'{self.room}/home', f'{self.room}/kit'
        for name in ('waveplan', 'tools/prove', 'tools/sources', 'tools/keep-store', 'tools/endings.py',
                     'tools/gate/kit.py', 'tools/gate/left.py'):
            os.makedirs(os.path.dirname(f'{self.home}/{name}'), exist_ok=True)
            shutil.copy2(f'{HOME}/{name}', f'{self.home}/{name}')
        for name in ('tools/floor', 'tools/opinion'):
            shutil.copytree(f'{HOME}/{name}', f'{self.home}/{name}')
        write(f'{self.home}/HANDLES', 'Handles allowed: none.\n')
        write(f'{self.home}/crates.txt', '# lowest first\nlow:\nwaveplan: low\nwaves: low\nabove: low\n')
        for name, root in (('low', 'lib'), ('waveplan', 'main'), ('waves', 'main'), ('above', 'lib')):
            write(f'{self.home}/crates/{name}/src/{root}.rt', '')
        write(f'{self.kit}/rt', PRETENDED_KIT, is_program=True)
        write(f'{self.kit}/rt-plant-bodies', '')
        # (without what a machine adds to Python, which takes longer to start than the scripts take)
        write(f'{self.kit}/python3', f'#!/bin/sh\nexec {sys.executable} -S "$@"\n', is_program=True)
        write(f'{self.room}/KIT-ID', f'{kit.IDENTITIES[0]}\n')
        write(f'{self.kit}/seconds', '0.5')
        write(f'{self.kit}/try-seconds', '0')
        write(f'{self.room}/words.txt', 'words of a file\n')

    def start(self, *words, **where):
        """Starts the launcher as the head of a session. `where` has what differs in the environment, None for what
        isn't set."""
        how = {'cwd': self.room, 'stdin': subprocess.DEVNULL, 'stdout': subprocess.PIPE, 'stderr': subprocess.PIPE,
               'text': True}
        usual = {**os.environ, 'PATH': f'{self.kit}:{os.environ["PATH"]}', 'XDG_CACHE_HOME': f'{self.room}/cache',
                 'HOME': self.room}
        where = {name: text for name, text in {**usual, **where}.items() if text is not None}
        return subprocess.Popen([f'{self.home}/waveplan', *words], env=where, start_new_session=True, **how)

    def call(self, *words, **where):
        """What a call writes, what it tells, and its status."""
        called = self.start(*words, **where)
        out, told = called.communicate(timeout=60)
        return out, told, called.returncode

    def program(self, text):
        """Puts a script in the place of the proved programs of these sources."""
        digest = subprocess.run([f'{self.home}/tools/sources'], stdout=subprocess.PIPE, text=True, check=True).stdout
        for name in ('waveplan', 'waves'):
            write(f'{self.home}/out/{name}', text, is_program=True)
            write(f'{self.home}/out/{name}.sources', digest)

    def proofs(self):
        """How many proofs were begun."""
        try:
            with open(f'{self.kit}/proofs', encoding='utf-8') as it:
                return len(it.readlines())
        except OSError:
            return 0

    def wait(self):
        self.call('--prove')


class Launching(Repository):
    """What the launcher answers, while the program is being proved and from then on."""

    def test_a_first_answer_is_unproved_and_says_so(self):
        out, told, status = self.call('plan', '--layout', 'words.txt')
        self.assertEqual((out, status), ('unproved words of a file\n', 2))
        self.assertIn('unproved build', told)
        self.assertIn('0 of 3 crates so far, after 0 min 0', told)
        self.assertIn('--prove', told)
        self.wait()

    def test_a_run_with_a_store_waits_for_the_proof(self):
        write(f'{self.kit}/seconds', '0')
        for words in (('--store', '1'), ('--store=1',), ('--store', '+1'), ('--store=2',), ('--store', '0', '--store=1')):
            write(f'{self.home}/crates/low/src/lib.rt', f'// {words}\n')
            out, told, status = self.call('plan', '--layout', 'words.txt', *words)
            self.assertEqual((out, status), (f'proved plan --layout words.txt {" ".join(words)}\n', 6))
            self.assertIn('waiting for the proof', told)
            self.assertNotIn('unproved', told)

    def test_a_run_with_a_store_waits_for_a_proof_that_is_running(self):
        first = self.start('plan', '--layout', 'words.txt')
        out, told, status = self.call('plan', '--layout', 'words.txt', '--store', '1')
        self.assertEqual((out, status), ('proved plan --layout words.txt --store 1\n', 6))
        self.assertEqual(first.communicate(timeout=60)[0], 'unproved words of a file\n')
        self.assertEqual(self.proofs(), 1)

    def test_a_run_with_a_store_has_no_answer_where_the_proof_fails(self):
        write(f'{self.kit}/fails', '')
        for _ in range(2):
            out, told, status = self.call('plan', '--layout', 'words.txt', '--store', '1')
            self.assertEqual((out, status), ('', 70))
            self.assertIn('fn waveplan::main: not proved', told)

    def test_without_the_store_the_first_answer_is_unproved(self):
        for words in (('--store', '0'), ('--store=0',)):
            out, told, status = self.call('plan', '--layout', 'words.txt', *words)
            self.assertEqual((out, status), ('unproved words of a file\n', 2))
            self.wait()
            write(f'{self.home}/crates/low/src/lib.rt', f'// {words}\n')
        self.wait()

    def test_from_the_proof_on_the_proved_program_answers(self):
        out, told, status = self.call('--prove')
        self.assertEqual((out, status), ('', 0))
        for line in ('low is proved, 1 of 3 crates', 'waveplan is proved, 2 of 3 crates',
                     'waves is proved, 3 of 3 crates', 'proved and built'):
            self.assertIn(line, told)
        self.assertEqual(self.call('plan', '--layout', 'words.txt'), ('proved plan --layout words.txt\n', '', 6))
        self.assertEqual(self.proofs(), 1)

    def test_help_and_the_version_are_told_without_a_run(self):
        for word in ('--help', '-h', 'help'):
            out, told, status = self.call(word)
            self.assertEqual((told, status), ('', 0))
            for text in ('usage: waveplan plan', '2000000', 'most orders that a cart takes', '[--units NUMBER]', '40000000', '[--rules 0-1]',
                         '[--pickers 0-100]', '[--root 0-1]', '[--store 0-1]', 'waveplan.store', 'docs/FORMATS.md',
                         'waveplan waves --layout', '--wave 1-64', '[--open FILE]', '[--journal FILE]', '[--most 1-500]',
                         '[--desk 1-8]', '[--effort 0-1000]'):
                self.assertIn(text, out)
        out, told, status = self.call('--version')
        self.assertEqual((told, status), ('', 0))
        self.assertRegex(out, '^waveplan .*\n$')
        self.assertEqual(self.proofs(), 0)

    def test_the_first_word_waves_asks_for_the_program_waves(self):
        out, told, status = self.call('waves', '--open', 'words.txt', '--journal=words.txt')
        self.assertEqual((out, status), ('unproved words of a file\nunproved words of a file\n', 2))
        self.assertIn('unproved build', told)
        with open(f'{self.kit}/tried', encoding='utf-8') as it:
            self.assertEqual(it.read(), 'waves\n')
        self.wait()
        self.assertEqual(self.call('waves', '--wave', '2'), ('proved by waves: waves --wave 2\n', '', 6))
        self.assertEqual(self.call('plan', 'waves'), ('proved plan waves\n', '', 6))
        self.assertEqual(self.proofs(), 1)

    def test_waves_has_no_store(self):
        self.wait()
        out, told, status = self.call('waves', '--store', '1')
        self.assertEqual((out, status), ('proved by waves: waves --store 1\n', 6))
        self.assertEqual([it for it in os.listdir(self.room) if it.startswith('waveplan.store')], [])

    def test_one_program_alone_is_proved_again_with_the_other(self):
        self.wait()
        os.remove(f'{self.home}/out/waves')
        self.assertEqual(self.call('--prove')[2], 0)
        self.assertEqual(self.proofs(), 2)
        self.assertEqual(self.call('waves')[0], 'proved by waves: waves\n')

    def test_bad_words_are_followed_by_the_usage(self):
        self.program('#!/bin/sh\necho refused words bad-words\nexit 1\n')
        out, told, status = self.call('plan')
        self.assertEqual((out, status), ('refused words bad-words\n', 1))
        self.assertIn('usage: waveplan plan', told)

    def test_a_proof_has_more_lanes_than_there_are_processors(self):
        self.wait()
        with open(f'{self.kit}/proofs', encoding='utf-8') as it:
            self.assertEqual(it.read(), '3 lanes\n')

    def test_two_calls_at_once_have_one_proof(self):
        calls = [self.start('plan', '--layout', 'words.txt') for _ in range(2)]
        for it in calls:
            out, _ = it.communicate(timeout=60)
            self.assertEqual((out, it.returncode), ('unproved words of a file\n', 2))
        self.wait()
        self.assertEqual(self.proofs(), 1)

    def test_two_that_wait_have_one_proof(self):
        calls = [self.start('--prove') for _ in range(2)]
        told = [it.communicate(timeout=60)[1] for it in calls]
        self.assertEqual([it.returncode for it in calls], [0, 0])
        self.assertEqual(self.proofs(), 1)
        self.assertTrue(all('waveplan is proved' in it or 'is running already' in it for it in told))

    def test_a_proof_that_fails_is_told_at_the_next_call(self):
        write(f'{self.kit}/fails', '')
        self.call('plan', '--layout', 'words.txt')
        for _ in range(100):
            if os.path.isfile(f'{self.room}/cache/waveplan{self.home.replace("/", "-")}/failed'):
                break
            time.sleep(0.1)
        out, told, status = self.call('plan', '--layout', 'words.txt')
        self.assertEqual((out, status), ('', 70))
        self.assertIn('fn waveplan::main: not proved', told)
        self.assertEqual(self.proofs(), 1)

    def test_after_a_change_a_failed_proof_is_begun_again(self):
        write(f'{self.kit}/fails', '')
        self.assertEqual(self.call('--prove')[2], 70)
        os.remove(f'{self.kit}/fails')
        write(f'{self.home}/crates/low/src/lib.rt', '// changed\n')
        self.assertEqual(self.call('plan', '--layout', 'words.txt')[2], 2)
        self.wait()
        self.assertEqual(self.call('plan')[0], 'proved plan\n')

    def test_a_program_of_other_sources_is_not_run(self):
        self.wait()
        write(f'{self.home}/crates/low/src/lib.rt', '// changed\n')
        write(f'{self.kit}/fails', '')
        self.assertEqual(self.call('plan', '--layout', 'words.txt')[0], 'unproved words of a file\n')
        self.assertEqual(self.call('--prove')[2], 70)
        self.assertEqual(self.call('plan', '--layout', 'words.txt')[0], '')

    def test_edits_crates_above_and_times_need_no_proof(self):
        self.wait()
        write(f'{self.home}/crates/low/edits/wrong.edit', 'file: src/lib.rt\n')
        write(f'{self.home}/crates/above/src/lib.rt', '// changed\n')
        os.utime(f'{self.home}/crates/low/src/lib.rt')
        self.assertEqual(self.call('plan')[0], 'proved plan\n')

    def test_a_source_that_looks_old_is_seen(self):
        self.wait()
        write(f'{self.home}/crates/low/src/lib.rt', '// changed\n')
        os.utime(f'{self.home}/crates/low/src/lib.rt', (1, 1))
        self.assertEqual(self.call('plan', '--layout', 'words.txt')[0], 'unproved words of a file\n')
        self.wait()

    def test_where_the_proof_ends_first_the_proved_program_answers(self):
        write(f'{self.kit}/try-seconds', '30')
        began = time.monotonic()
        out, told, status = self.call('plan', '--layout', 'words.txt')
        self.assertEqual((out, status), ('proved plan --layout words.txt\n', 6))
        self.assertLess(time.monotonic() - began, 25)

    def test_a_device_waits_for_the_proof(self):
        os.mkfifo(f'{self.room}/pipe')
        out, told, _ = self.call('plan', '--layout=pipe')
        self.assertEqual(out, 'proved plan --layout=pipe\n')
        self.assertIn('waiting for the proof', told)

    def test_where_the_unproved_build_has_no_answer_the_proof_is_waited_for(self):
        write(f'{self.kit}/has-no-answer', '')
        out, told, _ = self.call('plan', '--layout', 'words.txt')
        self.assertEqual(out, 'proved plan --layout words.txt\n')
        self.assertIn('waiting for the proof', told)

    def test_a_file_that_is_not_there_stays_so(self):
        out, _, status = self.call('plan', '--layout', 'src', '--stock=nothing')
        self.assertEqual((out, status), ('', 2))
        self.wait()

    def test_a_word_that_only_looks_like_a_file_is_kept(self):
        write(f'{self.room}/plan', 'no words\n')
        options = ('--capacity', '--units', '--rules', '--pickers', '--root')
        out, _, _ = self.call('plan', *(word for option in options for word in (option, 'words.txt')))
        self.assertEqual(out, '')
        self.wait()


NOBODY = ['setpriv', '--reuid', '65534', '--regid', '65534', '--clear-groups']


@unittest.skipIf(not shutil.which('setpriv') or os.geteuid(), 'it needs root, which becomes nobody')
class OtherUser(Repository):
    """A clone that belongs to another user."""

    def setUp(self):
        super().setUp()
        os.chmod(self.room, 0o755)
        os.makedirs(f'{self.room}/cache', exist_ok=True)
        os.chmod(f'{self.room}/cache', 0o777)
        os.chmod(self.kit, 0o777)
        os.remove(f'{self.kit}/python3')
        if self.as_nobody('python3', '-c', '').returncode:
            self.skipTest('nobody has no python3')

    def as_nobody(self, *words):
        where = {'PATH': f'{self.kit}:/usr/local/bin:/usr/bin:/bin', 'XDG_CACHE_HOME': f'{self.room}/cache',
                 'HOME': self.room}
        return subprocess.run([*NOBODY, *words], cwd=self.room, env=where, capture_output=True, text=True, timeout=60)

    def test_sources_that_cannot_be_written_are_proved_in_the_cache(self):
        self.assertEqual(self.as_nobody(f'{self.home}/waveplan', '--prove').returncode, 0)
        self.assertEqual(self.as_nobody(f'{self.home}/waveplan', 'plan').stdout, 'proved plan\n')
        self.assertFalse(os.path.exists(f'{self.home}/out'))

    def test_a_proved_program_is_run_by_whoever_can_read_it(self):
        self.wait()
        os.chmod(f'{self.room}/cache', 0o700)
        ran = self.as_nobody(f'{self.home}/waveplan', 'plan')
        self.assertEqual((ran.stdout, ran.stderr, ran.returncode), ('proved plan\n', '', 6))
        self.assertEqual(self.as_nobody(f'{self.home}/waveplan', '--prove').returncode, 0)
        self.assertEqual(self.proofs(), 1)


class Signals(Repository):
    """Signals to the launcher alone, and to its whole group as a terminal sends them."""

    def setUp(self):
        super().setUp()
        write(f'{self.kit}/try-seconds', '30')

    def tries(self):
        """The numbers of the processes that have made a first answer."""
        if not os.path.exists(f'{self.kit}/tools'):
            return []
        with open(f'{self.kit}/tools', encoding='utf-8') as it:
            return it.read().split()

    def ended(self, run, number, to_group, after, tries=0):
        """What a run has told that gets a signal once it has told the text `after` and so many processes have begun a
        first answer, and its status."""
        told = ''
        while after not in told:
            line = run.stderr.readline()
            self.assertTrue(line, told)
            told += line
        while len(self.tries()) < tries and run.poll() is None:
            time.sleep(0.05)
        time.sleep(0.3)
        (os.killpg if to_group else os.kill)(run.pid, number)
        began = time.monotonic()
        told += run.communicate(timeout=60)[1]
        self.assertLess(time.monotonic() - began, 20)
        return told, run.returncode

    def test_a_first_answer_is_ended_and_its_proof_goes_on(self):
        write(f'{self.kit}/seconds', '2')
        for tries, number, to_group, due in ((1, signal.SIGINT, True, 130), (2, signal.SIGTERM, False, 143)):
            run = self.start('plan', '--layout', 'words.txt')
            told, status = self.ended(run, number, to_group, 'unproved build', tries)
            self.assertEqual(status, due)
            self.assertNotRegex(told, 'Traceback|no answer|plain')
            write(f'{self.home}/crates/above/src/lib.rt', told)
        self.assertEqual([os.path.exists(f'/proc/{number}') for number in self.tries()], [False, False])
        self.wait()
        self.assertEqual((self.proofs(), self.call('plan')[0]), (1, 'proved plan\n'))

    def test_who_waits_for_a_proof_is_ended_and_the_proof_goes_on(self):
        write(f'{self.kit}/seconds', '2')
        self.ended(self.start('plan', '--layout', 'words.txt'), signal.SIGINT, False, 'unproved build')
        for words, number, to_group, due in ((['--prove'], signal.SIGINT, True, 130),
                                             (['plan', '--store', '1'], signal.SIGTERM, False, 143)):
            told, status = self.ended(self.start(*words), number, to_group, 'running already')
            self.assertEqual(status, due)
            self.assertNotIn('Traceback', told)
        self.wait()
        self.assertEqual(self.proofs(), 1)

    def test_a_proof_of_its_own_is_ended(self):
        write(f'{self.kit}/seconds', '1')
        for number, to_group, due in ((signal.SIGINT, True, 130), (signal.SIGTERM, False, 143)):
            told, status = self.ended(self.start('--prove'), number, to_group, 'low is proved')
            self.assertEqual(status, due)
            self.assertNotIn('Traceback', told)
        write(f'{self.kit}/seconds', '0')
        self.assertNotIn('running already', self.call('--prove')[1])

    def test_a_signal_to_the_launcher_reaches_the_program(self):
        self.program('#!/bin/bash\ntrap "echo got INT; exit 3" INT\ntrap "echo got TERM; exit 3" TERM\n'
                     'echo begun >&2\nwhile :; do sleep 0.1; done\n')
        for number, to_group, due in ((signal.SIGINT, True, 130), (signal.SIGINT, False, 130),
                                      (signal.SIGTERM, False, 143)):
            run = self.start('plan')
            self.assertEqual(run.stderr.readline(), 'begun\n')
            (os.killpg if to_group else os.kill)(run.pid, number)
            out, _ = run.communicate(timeout=60)
            self.assertEqual((out.splitlines()[0], run.returncode), (f'got {signal.Signals(number).name[3:]}', due))

    def test_a_program_that_a_signal_stops_is_told(self):
        self.program('#!/bin/sh\nkill -SEGV $$\n')
        self.assertEqual(self.call('plan'), ('', 'waveplan: the program was stopped by signal 11\n', 139))


class Lacking(Repository):
    """What is told, in one sentence, where something is missing, before anything is begun."""

    def lacks(self, due, *words, **where):
        """Tests that a call says one sentence, and has begun nothing."""
        before = sorted(os.listdir(self.room))
        out, told, status = self.call(*(words or ('plan', '--layout', 'words.txt')), **where)
        self.assertEqual((out, status, len(told.splitlines())), ('', 70, 1), told)
        self.assertRegex(told, due)
        self.assertEqual((sorted(os.listdir(self.room)), self.proofs()), (before, 0))

    def path_with(self, *names):
        """A path with these commands alone."""
        folder = f'{self.room}/bin'
        os.makedirs(folder)
        for name in names:
            write(f'{folder}/{name}', f'#!/bin/sh\nexec {shutil.which(name, path="/usr/bin:/bin")} "$@"\n',
                  is_program=True)
        return folder

    def test_the_kit(self):
        for words in (('plan',), ('plan', '--store', '1'), ('--prove',)):
            self.lacks('there is no rt on the path.*README', *words, PATH='/usr/bin:/bin')

    def test_another_kit(self):
        write(f'{self.room}/KIT-ID', 'rattle-kit-12 logic 0\n')
        self.lacks(f'is rattle-kit-12 logic 0, and the program is proved by {kit.known()}: .*path')

    def test_python(self):
        usual = ('env', 'bash', 'cat', 'cut', 'dirname', 'find', 'readlink', 'sha256sum', 'sort', 'xargs', 'sed',
                 'mktemp', 'tail', 'iconv', 'rm', 'sleep')
        path = self.path_with(*usual)
        self.lacks('no python3 on the path.*install Python 3.8', PATH=path)
        self.program('#!/bin/sh\necho proved "$@"\nexit 6\n')
        self.assertEqual(self.call('plan', PATH=path), ('proved plan\n', '', 6))
        out, told, _ = self.call('plan', '--store', '1', PATH=path)
        self.assertEqual((out, len(told.splitlines())), ('proved plan --store 1\n', 1))
        self.assertIn('python3 is missing here', told)

    def test_a_home(self):
        self.lacks('neither HOME nor XDG_CACHE_HOME is set', HOME=None, XDG_CACHE_HOME=None)
        self.program('#!/bin/sh\necho proved "$@"\nexit 6\n')
        self.assertEqual(self.call('plan', HOME=None, XDG_CACHE_HOME=None), ('proved plan\n', '', 6))

    def test_a_home_that_can_be_written(self):
        self.lacks(r'words.txt/.cache/.* can not be written \(Not a directory\): set XDG_CACHE_HOME',
                   HOME=f'{self.room}/words.txt', XDG_CACHE_HOME=None)


class Released(unittest.TestCase):
    """The launcher of a release, where there are bash and env alone: no command of the core utilities, no sources."""

    def setUp(self):
        self.room = tempfile.mkdtemp(prefix='waveplan-test-')
        self.addCleanup(shutil.rmtree, self.room, ignore_errors=True)
        write(f'{self.room}/RELEASE', f'version 1.0.0\ncommit {"0123456789" * 4}\n'
              'kit rattle-kit-13f logic dac8208d650f15bf\ngate 9 passed, 0 failed\n')
        write(f'{self.room}/bin/waveplan', '#!/bin/bash\necho proved "$@"\n[ "$1" != nothing ]\n', is_program=True)
        write(f'{self.room}/bin/waves', '#!/bin/bash\necho proved by waves: "$@"\n', is_program=True)
        shutil.copy2(f'{HOME}/waveplan', self.room)
        os.makedirs(f'{self.room}/path')
        os.symlink(shutil.which('bash'), f'{self.room}/path/bash')

    def call(self, *words, program='waveplan'):
        ran = subprocess.run([f'{self.room}/{program}', *words], cwd=self.room, env={'PATH': f'{self.room}/path'},
                             capture_output=True, text=True, timeout=60)
        return ran.stdout, ran.stderr, ran.returncode

    def test_the_program_answers_at_once(self):
        self.assertEqual(self.call('plan', '--layout', 'x'), ('proved plan --layout x\n', '', 0))
        self.assertEqual(self.call('waves', '--most', '1'), ('proved by waves: waves --most 1\n', '', 0))
        out, told, status = self.call('nothing')
        self.assertEqual((out, status), ('proved nothing\n', 1))
        self.assertTrue(told.startswith('usage: waveplan plan'))

    def test_it_says_which_release_it_is(self):
        due = 'waveplan 1.0.0, proved, commit 012345678901, kit rattle-kit-13f logic dac8208d650f15bf\n'
        self.assertEqual(self.call('--version'), (due, '', 0))
        self.assertEqual(self.call('--prove')[::2], ('', 0))
        self.assertIn('usage: waveplan plan', self.call('--help')[0])

    def test_a_run_with_a_store_says_what_is_left_out(self):
        out, told, status = self.call('plan', '--store', '1')
        self.assertEqual((out, status), ('proved plan --store 1\n', 0))
        self.assertIn('python3 is missing here', told)

    def test_a_release_that_is_not_whole(self):
        for mode, name in (('plan', 'waveplan'), ('waves', 'waves')):
            os.remove(f'{self.room}/bin/{name}')
            out, told, status = self.call(mode)
            self.assertEqual((out, status), ('', 70))
            self.assertIn(f'bin/{name} is missing', told)
            self.assertIn('unpack it again', told)

    def on_a_terminal(self, **where):
        """A run whose standard error is a terminal, and this terminal."""
        ours, theirs = os.openpty()
        where = {'PATH': f'{self.room}/path', **where}
        run = subprocess.Popen([f'{self.room}/waveplan', 'plan'], stdout=subprocess.PIPE, stderr=theirs, env=where)
        os.close(theirs)
        return run, ours

    def told_on(self, run, terminal):
        """What a run of seven seconds has told on its terminal."""
        self.assertEqual((run.communicate(timeout=60)[0], run.returncode), (b'done\n', 6))
        try:
            return os.read(terminal, 1000).decode()
        except OSError:
            return ''
        finally:
            os.close(terminal)

    def test_a_long_run_tells_its_time_on_a_terminal_alone(self):
        write(f'{self.room}/bin/waveplan', f'#!/bin/bash\n{shutil.which("sleep")} 7\necho done\nexit 6\n',
              is_program=True)
        telling, quiet = self.on_a_terminal(), self.on_a_terminal(WAVEPLAN_QUIET='1')
        self.assertRegex(self.told_on(*telling), r'^waveplan: it has run for [5-9] seconds\r\n')
        self.assertEqual(self.told_on(*quiet), '')


# It stands for the program: it adds a record to the store, for as long as the file `seconds` says, and locks the store
# where there is a file `locks`.
PRETENDED_PROGRAM = """#!/usr/bin/env python3
import fcntl, os, sys, time
NAME = 'waveplan.store'
STATUS = int(open('status').read()) if os.path.exists('status') else 0
if STATUS:
    print('refused')
    sys.exit(STATUS)
with open(NAME, 'a+b') as it:
    if os.path.exists('locks'):
        try:
            fcntl.flock(it, fcntl.LOCK_EX | fcntl.LOCK_NB)
        except BlockingIOError:
            print('store fault')
            sys.exit(7)
    it.seek(0)
    old = it.read()[:-1]
    time.sleep(float(open('seconds').read()) if os.path.exists('seconds') else 0)
    it.truncate(0)
    it.write(old + b'\\1\\0\\0\\0\\2a\\n\\0')
print('planned', len(old) // 7)
"""
RECORD = b'\1\0\0\0\2a\n'


class Storing(Repository):
    """Runs over a store."""

    def setUp(self):
        super().setUp()
        self.program(PRETENDED_PROGRAM)
        self.words = ('plan', '--layout', 'l', '--stock', 's', '--orders', 'o', '--capacity', '2', '--store', '1',
                      '--desks', 'desks.csv')
        self.desks('1,release,W1')

    def desks(self, *lines):
        write(f'{self.room}/desks.csv', '\n'.join(['desk,command,arguments', *lines, '']))

    def run_stored(self):
        return self.call(*self.words)

    def content(self, name):
        with open(f'{self.room}/waveplan.store{name}', 'rb') as it:
            return it.read()

    def kept(self):
        return sorted(it for it in os.listdir(self.room) if it.startswith('waveplan.store'))

    def test_the_store_is_kept_as_it_was_before_a_run(self):
        for number in range(3):
            self.desks(f'1,release,W{number}')
            self.assertEqual(self.run_stored(), (f'planned {number}\n', '', 0))
            self.assertEqual(self.content('.before'), RECORD * number + b'\0' if number else b'')
        self.assertEqual(self.kept(), ['waveplan.store', 'waveplan.store.before', 'waveplan.store.desks'])

    def test_a_run_that_is_refused_leaves_what_was_kept(self):
        self.run_stored()
        self.desks('1,release,W2')
        self.run_stored()
        write(f'{self.room}/status', '2')
        self.desks('1,release,W3')
        self.assertEqual(self.run_stored(), ('refused\n', '', 2))
        self.assertEqual(self.content('.before'), RECORD + b'\0')
        os.remove(f'{self.room}/status')
        self.assertEqual(self.run_stored(), ('planned 2\n', '', 0))

    def test_a_desk_file_that_is_given_twice_is_told(self):
        self.run_stored()
        out, told, status = self.run_stored()
        self.assertEqual((out, status, len(told.splitlines())), ('planned 1\n', 0, 1))
        self.assertIn('what was received counts twice', told)

    def test_the_day_is_seen_by_a_heading_alone(self):
        self.run_stored()
        commands = '1,release,W1'
        for lines, due in (((), ''), ((), ''), ((commands,), 'counts twice')):
            self.desks(*lines)
            told = self.run_stored()[1]
            self.assertIn(due, told)
            self.assertEqual(bool(due), bool(told))

    def test_on_a_terminal_it_asks(self):
        self.run_stored()
        for answer, due in ((b'n\n', 130), (b'\n', 130), (b'y\n', 0)):
            ours, theirs = os.openpty()
            where = {**os.environ, 'XDG_CACHE_HOME': f'{self.room}/cache', 'HOME': self.room}
            run = subprocess.Popen([f'{self.home}/waveplan', *self.words], cwd=self.room, env=where, stdin=theirs,
                                   stdout=subprocess.PIPE, stderr=theirs)
            os.write(ours, answer)
            out, _ = run.communicate(timeout=60)
            self.assertEqual((run.returncode, out), (due, b'' if due else b'planned 1\n'))
            self.assertIn('Go on? [y/N]', os.read(ours, 1000).decode())
            os.close(ours)
            os.close(theirs)

    def test_another_file_of_that_name_is_told_and_kept(self):
        write(f'{self.room}/waveplan.store', 'a letter\n')
        self.assertIn('are no record of a store: this run empties it', self.run_stored()[1])
        self.assertEqual(self.content('.before'), b'a letter\n')

    def test_two_runs_at_once_go_one_after_the_other(self):
        write(f'{self.room}/seconds', '0.5')
        for locks in (False, True):
            if locks:
                write(f'{self.room}/locks', '')
            runs_at_once = [self.start(*self.words) for _ in range(2)]
            outs = sorted(it.communicate(timeout=60)[0] for it in runs_at_once)
            self.assertEqual([it.returncode for it in runs_at_once], [0, 0])
            self.assertEqual(outs, [f'planned {2 * locks}\n', f'planned {2 * locks + 1}\n'])

    def lock_for(self, seconds):
        """Another program that has locked the store."""
        text = ('import fcntl, time; it = open("waveplan.store", "ab"); fcntl.flock(it, fcntl.LOCK_EX); '
                f'print("locked", flush=True); time.sleep({seconds})')
        other = subprocess.Popen([sys.executable, '-S', '-c', text], cwd=self.room, stdout=subprocess.PIPE)
        other.stdout.readline()
        self.addCleanup(other.communicate)
        self.addCleanup(other.kill)

    def test_a_store_that_is_locked_is_waited_for(self):
        write(f'{self.room}/locks', '')
        self.lock_for(1.5)
        out, told, status = self.run_stored()
        self.assertEqual((out, status), ('planned 0\n', 0))
        self.assertIn('another run uses waveplan.store: waiting for it', told)

    def shell(self, redirected):
        """The launcher on the words, with its streams as a shell has redirected them."""
        text = f'exec "$0" "$@" {redirected}'
        return subprocess.Popen(['sh', '-c', text, f'{self.home}/waveplan', *self.words], cwd=self.room, text=True,
                                stdin=subprocess.DEVNULL, stdout=subprocess.PIPE, stderr=subprocess.PIPE,
                                env={**os.environ, 'XDG_CACHE_HOME': f'{self.room}/cache', 'HOME': self.room})

    def test_what_is_told_never_comes_to_stand_in_the_output(self):
        self.run_stored()
        for redirected in ('2>&-', '2>/dev/full'):
            out, _ = self.shell(redirected).communicate(timeout=60)
            self.assertRegex(out, '^planned [0-9]+\n$')

    def test_after_ten_seconds_it_ends_with_7_and_says_so(self):
        self.lock_for(60)
        began, on_a_full_disk = time.monotonic(), self.shell('>/dev/full')
        out, told, status = self.run_stored()
        self.assertEqual((out, status), ('store fault\n', 7))
        self.assertTrue(9 < time.monotonic() - began < 20)
        on_a_full_disk.communicate(timeout=60)
        self.assertEqual(on_a_full_disk.returncode, 4)
        self.assertIn('another run has used waveplan.store for ten seconds', told)
        self.assertEqual(self.kept(), ['waveplan.store'])

    def test_a_failing_disk_is_not_waited_for(self):
        write(f'{self.room}/status', '7')
        self.assertEqual(self.run_stored(), ('refused\n', '', 7))

    def test_a_run_that_is_killed_leaves_no_lock(self):
        write(f'{self.room}/seconds', '30')
        run = self.start(*self.words)
        time.sleep(1)
        os.killpg(run.pid, signal.SIGKILL)
        run.communicate()
        os.remove(f'{self.room}/seconds')
        self.desks('1,release,W2')
        self.assertEqual(self.run_stored()[::2], ('planned 0\n', 0))

    def test_words_that_are_refused_keep_nothing(self):
        self.call('plan', '--store', '1')
        self.assertNotIn('waveplan.store.before', self.kept())
