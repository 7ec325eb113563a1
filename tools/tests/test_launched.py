"""Tests of the launcher around the program itself, over a store: what is kept beside it, and runs at once."""

import fcntl
import shutil
import subprocess
import sys
import unittest
from pathlib import Path

import runs
from opinion import stores

sys.path.append(str(runs.TOOLS / 'hostile'))
import shared_stores
from trial import LIMIT

WORDS = ['plan', *(word for name in runs.FILES for word in ('--' + name.split('.')[0], name)), '--capacity', '2',
         '--store', '1']
SMALLEST = {'layout.json': '{"version":1,"aisles":1,"slots":1,"pitch":2,"clearance":1,"spacing":5,"depot":1}',
            'stock.csv': 'location,article,on_hand\n1-1-L,A,5\n', 'orders.csv': 'order,article,quantity\nO1,A,2\n'}
HEADING = 'desk,command,arguments\n'
TWELVE = [b'%d 1 receive 1-1-L A %d -> received\n' % (number, number + 1) for number in range(12)]


def commands_of(entries):
    """The desk file with the commands of these entries."""
    return HEADING + ''.join(','.join(it.decode().split(' -> ')[0].split(' ')[1:]) + '\n' for it in entries)


class Launched(unittest.TestCase):
    """Runs of the launcher of a release, in a folder with the files of a day."""

    def setUp(self):
        room = Path(runs.shelf().name, self.id())
        self.home = runs.put(room / 'home', {'RELEASE': 'version 1.0.0\n'})
        self.folder = runs.put(room / 'day', {**SMALLEST, 'desks.csv': HEADING})
        shutil.copy2(runs.TOP / 'waveplan', self.home)
        (self.home / 'tools').symlink_to(runs.TOOLS)
        (self.home / 'bin').mkdir()
        (self.home / 'bin' / 'waveplan').symlink_to(runs.PROGRAM)

    @unittest.skipUnless(runs.WAVES, 'the program waves is not named')
    def test_the_first_word_waves_calls_the_program_waves(self):
        (self.home / 'bin' / 'waves').symlink_to(runs.WAVES)
        words = [word for name in runs.FILES[:3] for word in ('--' + name.split('.')[0], name)]
        words = [str(self.home / 'waveplan'), 'waves', *words, '--wave', '2', '--capacity', '2']
        done = subprocess.run(words, cwd=self.folder, stdin=subprocess.DEVNULL, stdout=subprocess.PIPE,
                              stderr=subprocess.PIPE, timeout=60)
        self.assertEqual((0, b''), (done.returncode, done.stderr))
        self.assertTrue(done.stdout.startswith(b'desks\ndesk,command,arguments\n1,submit,W.1,'))
        done = subprocess.run([*words, '--store', '1'], cwd=self.folder, stdin=subprocess.DEVNULL,
                              stdout=subprocess.PIPE, stderr=subprocess.PIPE, timeout=60)
        self.assertEqual((1, b'refused words bad-words\n'), (done.returncode, done.stdout))
        self.assertIn(b'waveplan waves --layout FILE', done.stderr)

    def start(self):
        return subprocess.Popen([str(self.home / 'waveplan'), *WORDS], cwd=self.folder, stdin=subprocess.DEVNULL,
                                stdout=subprocess.PIPE, stderr=subprocess.PIPE)

    def call(self, desks=HEADING):
        """What a run of this desk file writes, what it tells, and its status."""
        runs.put(self.folder, {'desks.csv': desks})
        run = self.start()
        out, told = run.communicate(timeout=60)
        return out, told.decode(), run.returncode

    def content(self, ending=''):
        return Path(self.folder, stores.NAME + ending).read_bytes()

    def opinion(self, answer):
        """The second opinion on the answer of the run before, which finds the store by itself."""
        words = [word for name in runs.FILES for word in ('--' + name.split('.')[0], str(self.folder / name))]
        return runs.script('second-opinion', *words, '--capacity', '2', '--store', '1', '-', given=answer,
                           folder=self.folder)

    def test_a_changed_mark_is_told_and_the_store_before_it_is_kept(self):
        whole = stores.file_of(TWELVE)
        self.assertEqual(self.call(commands_of(TWELVE))[1:], ('', 0))
        self.assertEqual(self.content(), whole)
        for mark in (b'\0', b'\2', b'0'):
            at = len(stores.file_of(TWELVE[:1])) - 1
            changed = whole[:at] + mark + whole[at + 1:]
            runs.put(self.folder, {stores.NAME: changed})
            out, told, status = self.call()
            self.assertEqual(status, 0)
            self.assertIn('no record begins behind entry 0 of waveplan.store, where %d bytes stand: something else has '
                          'changed the file' % (len(whole) - at), told)
            self.assertEqual((self.content(), self.content('.before')), (stores.file_of(TWELVE[:1]), changed))
            judged = self.opinion(out)
            self.assertEqual(judged.status, 0, judged.output + judged.errors)
            self.assertIn('right: 1 entries, 1 of them stored before', judged.output)
        runs.put(self.folder, {stores.NAME: self.content('.before')[:at] + stores.OPEN + changed[at + 1:]})
        self.assertTrue(self.call()[0].startswith(shared_stores.output_of(TWELVE)))

    def test_what_a_crash_leaves_is_not_told(self):
        record = stores.file_of(TWELVE[1:2])[1:]
        for left in (b'', b'\0', b'\7', b'\0' + record, b'\0' + record[:9], b'\0' + record[:9] + bytes(10)):
            runs.put(self.folder, {stores.NAME: stores.file_of(TWELVE[:1])[:-1] + left})
            self.assertEqual(self.call()[1:], ('', 0))
            self.assertEqual(self.content(), stores.file_of(TWELVE[:1]))

    def test_a_changed_length_is_told(self):
        whole = bytearray(stores.file_of(TWELVE))
        whole[len(stores.file_of(TWELVE[:1]))] = 9
        runs.put(self.folder, {stores.NAME: bytes(whole)})
        self.assertIn('no record begins behind entry 0 of waveplan.store', self.call()[1])
        self.assertEqual(self.content('.before'), bytes(whole))

    def test_two_runs_at_once_go_one_after_the_other(self):
        runs.put(self.folder, {'desks.csv': commands_of(TWELVE[:1])})
        both = [self.start() for _ in range(2)]
        outputs = [it.communicate(timeout=60)[0] for it in both]
        self.assertEqual([it.returncode for it in both], [0, 0])
        due = [TWELVE[0], TWELVE[0].replace(b'0', b'1', 1)]
        self.assertEqual(stores.records(self.content()), due)
        for count, output in enumerate(sorted(outputs, key=len), 1):
            self.assertTrue(output.startswith(shared_stores.output_of(due[:count])))

    def test_a_run_of_the_program_alone_is_waited_for(self):
        runs.put(self.folder, shared_stores.DAY)
        held, reading = shared_stores.held_run(runs.PROGRAM, self.folder)
        launched = self.start()
        self.assertIn(b'another run uses waveplan.store', launched.stderr.readline())
        with open(reading, 'rb') as it:
            it.read()
        self.assertEqual(held.wait(LIMIT), 0)
        out, _ = launched.communicate(timeout=60)
        self.assertEqual(launched.returncode, 0)
        self.assertEqual(stores.records(self.content()), shared_stores.received(4))
        self.assertTrue(out.startswith(shared_stores.output_of(shared_stores.received(4))))

    def test_behind_a_closed_output_all_entries_are_stored(self):
        runs.put(self.folder, {'desks.csv': commands_of(TWELVE)})
        for closed in ('>&-', '<&- >&-', '>&- 2>&-', '<&- >&- 2>&-'):
            words = ['sh', '-c', 'exec "$0" "$@" %s' % closed, str(self.home / 'waveplan'), *WORDS]
            ran = subprocess.run(words, cwd=self.folder, stdout=subprocess.PIPE, stderr=subprocess.PIPE, timeout=60)
            self.assertEqual((ran.returncode, ran.stdout), (4, b''), closed)
            self.assertEqual(self.content(), stores.file_of(TWELVE), closed)
            self.assertEqual(self.content('.before'), b'', closed)
            (self.folder / stores.NAME).unlink()

    def test_no_lock_of_the_store_is_left(self):
        self.call(commands_of(TWELVE))
        with open(self.folder / stores.NAME, 'ab') as it:
            fcntl.flock(it, fcntl.LOCK_EX | fcntl.LOCK_NB)


if __name__ == '__main__':
    unittest.main()
