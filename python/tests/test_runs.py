"""Runs beside each other, runs that are ended, and files that change while a run reads them."""
import fcntl
import os
import random
import signal
import subprocess
import time

from sounder import files

from . import common
from .common import PRODUCT, RECORD, SLOW_NAMES, Case, changed_command, ended, expected_of, gapped, plain, session_of, wait_until

SLOW = changed_command(SLOW_NAMES)


class RunCase(Case):
    def fed(self, *words, content=b'', **options):
        """Starts a run that reads the pipe `fifo`; answers it and the pipe, when the run has begun to read and content is written."""
        # A new one each time: what a run before has left unread would come first.
        if os.path.exists(self.at('fifo')):
            os.remove(self.at('fifo'))
        os.mkfifo(self.at('fifo'))
        process = self.start(*words, **options)
        fifo = open(self.at('fifo'), 'wb', buffering=0)
        self.addCleanup(fifo.close)
        fifo.write(content)
        return process, fifo

    def half_way(self, out='out', **options):
        """A run that has written products, and waits for more."""
        process, fifo = self.fed(*common.WORDS, '-o', out, 'fifo', content=plain(600), **options)
        wait_until(lambda: any(os.path.getsize(self.at(name)) for name in self.unfinished()), 'products of the first piece')
        return process, fifo

    def took(self, *words, program):
        """How long a run takes, and how long from when it has made a file."""
        began = time.monotonic()
        process = self.start(*words, program=program)
        wait_until(lambda: self.unfinished() or process.poll() is not None, 'a file')
        made = time.monotonic()
        self.assertEqual(ended(process).status, 0)
        for name in ('out', 'out.json'):
            os.remove(self.at(name))
        return time.monotonic() - began, time.monotonic() - made

    def assert_all_gone(self, process):
        """No process of the run is left."""
        self.assertEqual(session_of(process), [])

    def assert_honest(self, out, *expected):
        """Products and page are there and belong together, or there is no page. Products that are there are whole; answers whose."""
        if os.path.exists(self.at(out + '.json')):
            return self.assert_belong(out, *expected)
        if not os.path.exists(self.at(out)):
            return None
        self.assertTrue(any(self.contents(out) == one.products for one in expected), 'products that are not whole')


class Beside(RunCase):
    """Two runs at one time."""

    def test_two_runs_on_one_name(self):
        """With two tables: products and page belong together, whichever run is the last; both runs say that they are done."""
        self.put('scans.bin', gapped())
        self.put('other.bin', common.table(2))
        self.put('third.bin', common.table(3))
        both, found = (expected_of(gapped()), expected_of(gapped(), table_seed=2)), set()
        for number in range(24):
            # On a disk where each name takes its time, and as it is.
            program = SLOW if number % 4 else common.COMMAND
            # Results of before are of neither run: what is whole would not be made again. Every third time there are none.
            self.assertEqual(self.here('calibrate', '--table', 'third.bin', '--bias', 'bias.bin', '-o', 'out', 'scans.bin')[0], 0)
            if number % 3 == 0:
                os.remove(self.at('out'))
                os.remove(self.at('out.json'))
            runs = []
            for name in ('table.bin', 'other.bin')[::-1 if number % 2 else 1]:
                runs.append(self.start('calibrate', '--table', name, '--bias', 'bias.bin', '-o', 'out', 'scans.bin', program=program))
                # In the first two rounds one run has ended before the other begins, so that each is the last once.
                if number < 2:
                    runs[-1].wait(common.PATIENCE)
            for ran in map(ended, runs):
                self.assertEqual((ran.status, len(ran.lines)), (0, 1), ran)
            found.add(self.assert_belong('out', *both).table)
            self.assertEqual(self.names(), ['bias.bin', 'other.bin', 'out', 'out.json', 'scans.bin', 'table.bin', 'third.bin'])
        self.assertEqual(len(found), 2, 'one of the runs was always the last')

    def test_one_that_fails_leaves_the_other(self):
        """A run that fails takes nothing from one that does not."""
        self.put('scans.bin', gapped())
        for _ in range(3):
            process, fifo = self.half_way('out')
            self.assertEqual(self.sounder(*common.WORDS, '-o', 'out', 'nowhere').status, 1)
            self.assertEqual(self.sounder('calibrate', '--table', 'bias.bin', '--bias', 'bias.bin', '-o', 'out', 'scans.bin').status, 1)
            fifo.close()
            self.assertEqual(ended(process).status, 0)
            self.assert_whole('out', expected_of(plain(600)), ['fifo'])

    def test_the_same_part_twice(self):
        self.put('scans.bin', gapped())
        self.assertEqual(self.here(*common.WORDS, '--part', '2/2', '-o', 'part-2', 'scans.bin')[0], 0)
        for number in range(6):
            runs = [self.start(*common.WORDS, '--part', '1/2', '-o', 'part-1', 'scans.bin', program=SLOW if number % 2 else common.COMMAND)
                    for _ in range(2)]
            for ran in map(ended, runs):
                self.assertEqual(ran.status, 0, ran)
            self.assert_whole('part-1', expected_of(gapped()), ['scans.bin'], (1, 2))
            self.assertEqual(self.here('join', '-o', 'out', 'part-1', 'part-2')[0], 0)
            self.assert_whole('out', expected_of(gapped()), ['scans.bin'])
            for name in ('part-1', 'part-1.json', 'out', 'out.json'):
                os.remove(self.at(name))

    def test_all_parts_at_once(self):
        """In a folder where runs that were killed have left much, which each of them removes."""
        self.put('scans.bin', gapped())
        old = time.time() - 3_600
        for number in range(1_500):
            os.utime(self.at(self.put(f'.sounder-{number:016x}.part', b'')), (old, old))
        runs = [self.start(*common.WORDS, '--part', f'{number}/4', '-o', f'part-{number}', 'scans.bin') for number in (1, 2, 3, 4)]
        for ran in map(ended, runs):
            self.assertEqual(ran.status, 0, ran)
        self.assertEqual(self.unfinished(), [])
        self.assertEqual(self.here('join', '-o', 'out', *(f'part-{number}' for number in (1, 2, 3, 4)))[0], 0)
        self.assert_whole('out', expected_of(gapped()), ['scans.bin'])


class Replaced(RunCase):
    """Files that are replaced or written over while a run goes on."""

    def test_tables(self):
        """All products are by the table and the bias file that were read first, and the page names these."""
        for replace in (lambda name, content: (self.put('new', content), os.replace(self.at('new'), self.at(name))), self.put):
            for name, content in (('table.bin', common.table(2)), ('bias.bin', common.bias(2))):
                self.put('table.bin', common.table())
                self.put('bias.bin', common.bias())
                process, fifo = self.half_way()
                replace(name, content)
                fifo.write(plain(600, 700))
                fifo.close()
                self.assertEqual(ended(process).status, 0)
                self.assert_whole('out', expected_of(plain(1_200)), ['fifo'])

    def changed(self, change, words, status=1, **options):
        """A file of the archive that is changed before its turn comes."""
        self.put('scans.bin', gapped())
        process, fifo = self.fed(*common.WORDS, '-o', 'out', 'fifo', 'scans.bin', content=plain(3, 5_000), **options)
        change()
        fifo.close()
        ran = ended(process)
        self.assertEqual((ran.status, len(ran.lines)), (status, 1), ran)
        self.assertTrue(ran.lines[0].startswith('sounder: scans.bin: '), ran)
        self.assertIn(words, ran.lines[0])
        self.assertEqual([name for name in self.names() if name not in ('bias.bin', 'fifo', 'scans.bin', 'table.bin')], [])

    def test_archives_before_their_turn(self):
        def append():
            with open(self.at('scans.bin'), 'ab') as file:
                file.write(b'more')

        def overwrite():
            with open(self.at('scans.bin'), 'r+b') as file:
                file.write(b'\0')

        def replace():
            self.put('new', gapped())
            os.replace(self.at('new'), self.at('scans.bin'))
        for change in (append, overwrite, replace, lambda: os.truncate(self.at('scans.bin'), 5_000),
                       lambda: self.put('scans.bin', gapped()[:-1])):
            self.changed(change, 'it has changed since the run began')
        self.changed(lambda: os.remove(self.at('scans.bin')), 'No such file')

    def stopped(self):
        """A run that is stopped while it reads a large file, part of whose products are written."""
        self.put('large.bin', plain(1_000) + bytes(19_000 * RECORD))
        process = self.start(*common.WORDS, '--jobs', '1', '-o', 'out', 'large.bin')
        wait_until(lambda: any(os.path.getsize(self.at(name)) for name in self.unfinished()), 'products of the first piece')
        os.kill(process.pid, signal.SIGSTOP)
        # One that has come to the end already is no run to try this with.
        if not os.path.exists(self.at('out')):
            return process
        self._end(process)
        for name in set(self.names()) - {'bias.bin', 'table.bin'}:
            os.remove(self.at(name))
        return self.stopped()

    def test_archives_while_they_are_read(self):
        """The moment is certain: the run gets no further while its products are not taken."""
        given = plain(1_000) * 8

        def append(file):
            file.seek(0, os.SEEK_END)
            file.write(b'more')

        def overwrite(file):
            file.seek(-100, os.SEEK_END)
            file.write(b'\0')
        for change, words in ((append, 'it has changed'), (overwrite, 'it has changed'),
                              (lambda file: file.truncate(0), 'it ends at offset'),
                              (lambda file: file.truncate(3_000 * RECORD), 'it ends at offset')):
            self.put('scans.bin', given)
            process = self.start(*common.WORDS, '--jobs', '1', 'scans.bin', stdout=subprocess.PIPE)
            process.stdout.read(PRODUCT)
            with open(self.at('scans.bin'), 'r+b') as file:
                change(file)
            ran = ended(process)
            self.assertEqual((ran.status, len(ran.lines)), (1, 1), ran)
            self.assertTrue(ran.lines[0].startswith('sounder: scans.bin: '), ran)
            self.assertIn(words, ran.lines[0])
            self.assertEqual(self.names(), ['bias.bin', 'scans.bin', 'table.bin'])

    def test_results_of_archives_that_change(self):
        """With -o: nothing is left."""
        def grow():
            with open(self.at('large.bin'), 'ab') as file:
                file.write(b'x')
        for change in (grow, lambda: os.truncate(self.at('large.bin'), 19_000 * RECORD), lambda: os.utime(self.at('large.bin'))):
            process = self.stopped()
            change()
            os.kill(process.pid, signal.SIGCONT)
            ran = ended(process)
            self.assertEqual((ran.status, len(ran.lines)), (1, 1), ran)
            self.assertTrue(ran.lines[0].startswith('sounder: large.bin: '), ran)
            self.assertEqual(self.names(), ['bias.bin', 'large.bin', 'table.bin'])


class Signals(RunCase):
    """A signal that ends a run is told, and nothing is left."""

    def test_half_way(self):
        for number in (signal.SIGTERM, signal.SIGHUP, signal.SIGINT):
            process, fifo = self.half_way()
            os.kill(process.pid, number)
            ran = ended(process)
            self.assertEqual((ran.status, ran.lines), (-number, [f'sounder: ended by {number.name}']), ran)
            self.assert_all_gone(process)
            self.assertEqual(self.names(), ['bias.bin', 'fifo', 'table.bin'])
            fifo.close()
            process, fifo = self.fed(*common.WORDS, '-o', 'out', 'fifo', content=plain(600))
            fifo.close()
            self.assertEqual(ended(process).status, 0)
            self.assert_whole('out', expected_of(plain(600)), ['fifo'])
            os.remove(self.at('out'))
            os.remove(self.at('out.json'))

    def test_wherever_a_run_waits(self):
        """For the other end of a pipe, for a table, for a reader of its products."""
        os.mkfifo(self.at('fifo'))
        os.mkfifo(self.at('table'))
        self.put('scans.bin', plain(4_000))
        for words, waits in (((*common.WORDS, '-o', 'out', 'fifo'), lambda: self.unfinished()),
                             (('calibrate', '--table', 'table', '--bias', 'bias.bin', '-o', 'out', 'fifo'), None),
                             ((*common.WORDS, 'scans.bin'), None)):
            process = self.start(*words, stdout=subprocess.PIPE)
            if waits:
                wait_until(waits, 'a file')
            elif 'scans.bin' in words:
                process.stdout.read(1)
            else:
                # The library is loaded before the table is read.
                wait_until(lambda: b'libstation' in common.contents(f'/proc/{process.pid}/maps'), 'the library')
                time.sleep(0.1)
            os.kill(process.pid, signal.SIGTERM)
            self.assertEqual(process.wait(common.PATIENCE), -signal.SIGTERM, words)
            self.assertEqual(process.stderr.read(), b'sounder: ended by SIGTERM\n')
            self.assert_all_gone(process)
            self.assertEqual(self.unfinished(), [])

    def test_while_another_program_holds_the_folder(self):
        """Names are given by one run at a time, and one that waits for its turn can be ended too."""
        self.put('scans.bin', gapped())
        turn = os.open(self.at(files.TURN_NAME), os.O_RDWR | os.O_CREAT)
        self.addCleanup(os.close, turn)
        fcntl.flock(turn, fcntl.LOCK_EX)
        process = self.start(*common.WORDS, '-o', 'out', 'scans.bin')
        wait_until(lambda: len(self.unfinished()) == 2, 'products and page')
        time.sleep(0.1)
        self.assertIsNone(process.poll())
        os.kill(process.pid, signal.SIGTERM)
        ran = ended(process)
        self.assertEqual((ran.status, ran.lines), (-signal.SIGTERM, ['sounder: ended by SIGTERM']), ran)
        self.assertEqual(self.names(), [files.TURN_NAME, 'bias.bin', 'scans.bin', 'table.bin'])

    def test_under_a_lock_on_the_folder(self):
        """Whoever starts a run holds a lock on the folder of its results, as `flock FOLDER sounder ..` does."""
        self.put('scans.bin', gapped())
        folder = os.open(self.folder, os.O_RDONLY)
        self.addCleanup(os.close, folder)
        fcntl.flock(folder, fcntl.LOCK_EX)
        self.assertEqual(ended(self.start(*common.WORDS, '-o', 'out', 'scans.bin')).status, 0)
        self.assert_whole('out', expected_of(gapped()), ['scans.bin'])

    def test_at_any_moment(self):
        """Also while results get their names: both are there, whole, or neither is."""
        self.put('scans.bin', gapped(1_200, 2))
        words, programs = (*common.WORDS, '-o', 'out', 'scans.bin'), (common.COMMAND, SLOW)
        expected, rng, done = expected_of(gapped(1_200, 2)), random.Random(6), []
        most = [self.took(*words, program=program)[1] * 1.3 for program in programs]
        for number in range(40):
            process = self.start(*words, program=programs[number % 2])
            wait_until(lambda: self.unfinished() or os.path.exists(self.at('out')), 'a file')
            # The first signal comes at once, and the second behind the end.
            if number == 1:
                os.waitid(os.P_PID, process.pid, os.WEXITED | os.WNOWAIT)
            elif number > 1:
                time.sleep(rng.uniform(0, most[number % 2]))
            ending = rng.choice((signal.SIGTERM, signal.SIGHUP, signal.SIGINT))
            os.kill(process.pid, ending)
            ran = ended(process)
            self.assertIn(ran.status, (0, -ending), ran)
            counts, told = f'out: {expected.counts()}', f'sounder: ended by {ending.name}'
            self.assertIn(ran.lines, ([counts], [told], [counts, told]) if ran.status else ([counts],), ran)
            done.append(ran.status == 0)
            self.assertEqual(self.unfinished(), [])
            there = [os.path.exists(self.at(name)) for name in ('out', 'out.json')]
            self.assertEqual(len(set(there)), 1, there)
            if there[0]:
                self.assert_whole('out', expected, ['scans.bin'])
                os.remove(self.at('out'))
                os.remove(self.at('out.json'))
            else:
                self.assertNotEqual(ran.status, 0)
        self.assertEqual(set(done), {False, True}, 'the moments are all on one side')

    def test_ignored(self):
        """What is ignored, as SIGHUP under nohup and SIGINT in the background of a script, stays so."""
        for number in (signal.SIGHUP, signal.SIGINT, signal.SIGTERM):
            process, fifo = self.half_way(program=common.prepared(f'signal.signal({int(number)}, signal.SIG_IGN)'))
            os.kill(process.pid, number)
            time.sleep(0.02)
            os.kill(process.pid, number)
            fifo.close()
            self.assertEqual(ended(process).status, 0)
            self.assert_whole('out', expected_of(plain(600)), ['fifo'])
            os.remove(self.at('out'))

    def test_two_at_once(self):
        for _ in range(3):
            process, _ = self.half_way()
            os.kill(process.pid, signal.SIGSTOP)
            for number in (signal.SIGTERM, signal.SIGHUP, signal.SIGINT):
                os.kill(process.pid, number)
            os.kill(process.pid, signal.SIGCONT)
            ran = ended(process)
            self.assertLess(ran.status, 0)
            self.assertEqual(len(ran.lines), 1, ran)
            self.assertEqual(self.names(), ['bias.bin', 'fifo', 'table.bin'])

    def test_before_a_run_waits(self):
        """A signal that wakes nobody, as one does that comes just before the call that waits: here another thread takes it."""
        program = changed_command('''
import signal, threading
def late():
    while not [name for name in os.listdir('.') if name.endswith('.part')]:
        time.sleep(0.01)
    time.sleep(0.1)
    signal.pthread_kill(threading.get_ident(), signal.SIGTERM)
threading.Thread(target=late, daemon=True).start()''')
        os.mkfifo(self.at('fifo'))
        ran = ended(self.start(*common.WORDS, '-o', 'out', 'fifo', program=program))
        self.assertEqual((ran.status, ran.lines), (-signal.SIGTERM, ['sounder: ended by SIGTERM']), ran)
        self.assertEqual(self.names(), ['bias.bin', 'fifo', 'table.bin'])

    def test_a_run_that_waits_for_long(self):
        """Nothing ends a run that nobody ends."""
        process, fifo = self.half_way()
        time.sleep(1.3)
        fifo.write(plain(600, 700))
        fifo.close()
        ran = ended(process)
        self.assertEqual((ran.status, ran.lines), (0, [f'out: {expected_of(plain(1_200)).counts()}']), ran)
        self.assert_whole('out', expected_of(plain(1_200)), ['fifo'])

    def test_while_a_run_fails(self):
        """A signal while the files of a run that has failed are removed: they are all removed."""
        self.put('scans.bin', gapped())
        os.mkdir(self.at('folder'))
        program = changed_command('''
unlink = os.unlink
def slowly(*words, **folder):
    os.kill(os.getpid(), 15)
    time.sleep(0.01)
    unlink(*words, **folder)
os.unlink = slowly''')
        with self.unchanged():
            ran = ended(self.start(*common.WORDS, '-o', 'out', 'scans.bin', 'folder', program=program))
        self.assertEqual(ran.status, -signal.SIGTERM, ran)
        self.assertEqual(ran.lines[-1], 'sounder: ended by SIGTERM')
        self.assertFalse([line for line in ran.lines if not line.startswith('sounder: ')], ran)

    def test_behind_the_end(self):
        """A run that is done has its status."""
        self.put('scans.bin', gapped())
        program = changed_command('main = command.main\ncommand.main = lambda: (main(), os.kill(os.getpid(), 15), time.sleep(0.01))[0]')
        ran = ended(self.start(*common.WORDS, '-o', 'out', 'scans.bin', program=program))
        self.assertEqual((ran.status, ran.lines), (0, [f'out: {expected_of(gapped()).counts()}']), ran)

    def test_joins(self):
        """A run that joins, too."""
        self.put('scans.bin', gapped())
        self.assertEqual(self.here(*common.WORDS, '-o', 'part', 'scans.bin')[0], 0)
        before = self.names()
        slow = changed_command('files.os.fsync = lambda *_: time.sleep(30)')
        process = self.start('join', '-o', 'out', 'part', program=slow)
        wait_until(self.unfinished, 'a file')
        time.sleep(0.05)
        os.kill(process.pid, signal.SIGTERM)
        ran = ended(process)
        self.assertEqual((ran.status, ran.lines), (-signal.SIGTERM, ['sounder: ended by SIGTERM']), ran)
        self.assertEqual(self.names(), before)


class Killed(RunCase):
    """kill -9: what has the name of a result is whole, and the next run is right."""

    def test_at_any_moment(self):
        """At first there are no results, and later those of another table."""
        self.put('scans.bin', gapped(1_200, 2))
        self.put('other.bin', common.table(2))
        new, old = expected_of(gapped(1_200, 2)), expected_of(gapped(1_200, 2), table_seed=2)
        words, programs = (*common.WORDS, '-o', 'out', 'scans.bin'), (common.COMMAND, SLOW)
        rng, found = random.Random(7), set()
        most = [self.took(*words, program=program)[0] * 1.2 for program in programs]
        for number in range(40):
            process = self.start(*words, program=programs[number % 2])
            # The first moment is before a file is there, the second behind the end, the third while the files are written.
            if number == 1:
                process.wait(common.PATIENCE)
            elif number == 2:
                wait_until(self.unfinished, 'a file')
            elif number > 2:
                time.sleep(rng.uniform(0.3, 1) * most[number % 2])
            process.kill()
            ended(process)
            self.assert_honest('out', new, old)
            found.add((os.path.exists(self.at('out')), os.path.exists(self.at('out.json')), bool(self.unfinished())))
            if number % 4 == 0:
                self.assertEqual(self.here(*words)[0], 0)
                self.assertTrue(self.contents('out') == new.products)
                self.assertEqual(self.page('out'), new.page(['scans.bin']))
            for name in self.unfinished() + [name for name in ('out', 'out.json') if os.path.exists(self.at(name))]:
                os.remove(self.at(name))
            if number > 20:
                self.assertEqual(self.here('calibrate', '--table', 'other.bin', '--bias', 'bias.bin', '-o', 'out', 'scans.bin')[0], 0)
        self.assertGreaterEqual(len(found), 3, 'the moments are all on one side')

    def test_what_is_left_goes_once_it_is_old(self):
        process, fifo = self.half_way()
        process.kill()
        ended(process)
        fifo.close()
        left = self.unfinished()
        self.assertEqual(len(left), 2)
        self.put('scans.bin', gapped())
        # What is new may belong to a run that is about to hold it.
        self.assertEqual(self.here(*common.WORDS, '-o', 'out', 'scans.bin')[0], 0)
        self.assertEqual(self.unfinished(), left)
        old = time.time() - 120
        for name in left:
            os.utime(self.at(name), (old, old))
        self.assertEqual(self.here(*common.WORDS, '-o', 'other', 'scans.bin')[0], 0)
        self.assertEqual(self.unfinished(), [])
        self.assert_whole('out', expected_of(gapped()), ['scans.bin'])

    def test_what_a_run_holds_stays(self):
        """However old it looks: its run may wait for records."""
        process, fifo = self.half_way()
        old = time.time() - 7_200
        for name in self.unfinished():
            os.utime(self.at(name), (old, old))
        self.put('scans.bin', gapped())
        self.assertEqual(self.sounder(*common.WORDS, '-o', 'other', 'scans.bin').status, 0)
        self.assertEqual(len(self.unfinished()), 2)
        fifo.write(plain(600, 700))
        fifo.close()
        self.assertEqual(ended(process).status, 0)
        self.assert_whole('out', expected_of(plain(1_200)), ['fifo'])
        self.assert_whole('other', expected_of(gapped()), ['scans.bin'])

    def test_files_of_others_stay(self):
        """Only what a run could have left is removed."""
        self.put('scans.bin', gapped())
        old = time.time() - 7_200
        for name in ('.sounder-x.part', 'sounder-0123456789abcdef.part', '.sounder-0123456789abcdef.part.txt', 'out.part',
                     '.sounder-0123456789ABCDEF.part'):
            os.utime(self.at(self.put(name, b'mine')), (old, old))
        os.mkdir(self.at('.sounder-0123456789abcdef.part'))
        os.symlink('scans.bin', self.at('.sounder-1123456789abcdef.part'))
        with self.unchanged(but=('out', 'out.json')):
            self.assertEqual(self.here(*common.WORDS, '-o', 'out', 'scans.bin')[0], 0)
