"""Where results may stand, and what is left where they cannot be written: nothing."""
import json
import os
import stat
import subprocess
import threading
import unittest
from unittest import mock

from . import common
from .common import COMMAND, PRODUCT, Case, expected_of, gapped, plain

# A shell script that mounts a small file system where only it sees it, runs a command, and then lists what is there.
MOUNTED = '''mount -t tmpfs -o "$1" none "$2" || exit 77
folder=$2 listed=$3
shift 3
"$@"
status=$?
ls -A "$folder" >"$listed"
exit $status'''


class PlaceCase(Case):
    def setUp(self):
        super().setUp()
        self.put('scans.bin', gapped())
        self.expected = expected_of(gapped())

    def refused(self, out, words, *names, named=None, **options):
        """A run that may not write there: status 1, one line that names the place, and nothing has changed."""
        with self.unchanged():
            status, said = self.here(*common.WORDS, '-o', out, *(names or ('scans.bin',)), **options)
        self.assertEqual((status, len(said)), (1, 1), said)
        self.assertIn(words, said[0])
        self.assertIn(named or out, said[0])

    def made(self, out, real=None, page=None):
        """A run that writes there."""
        status, said = self.here(*common.WORDS, '-o', out, 'scans.bin')
        self.assertEqual(status, 0, said)
        self.assertEqual(self.contents(real or out), self.expected.products)
        self.assertEqual(json.loads(self.contents(page or out + '.json')), self.expected.page(['scans.bin']))
        self.assertEqual(self.unfinished(), [])


class Places(PlaceCase):
    def test_missing_folders(self):
        self.refused('nowhere/out', 'No such file')
        self.refused('scans.bin/out', 'Not a directory')

    def test_folders(self):
        os.mkdir(self.at('folder'))
        os.mkdir(self.at('out.json'))
        self.refused('folder', 'left as it is')
        self.refused('out', 'left as it is')
        self.refused('.', 'left as it is', named=self.folder)
        self.refused('', 'left as it is', named=self.folder)
        self.refused('/', 'left as it is')
        # A file in the folder is no trouble.
        self.made('folder/out')

    def test_pipes(self):
        """What is a pipe stays one, and nothing waits for its other end."""
        os.mkfifo(self.at('fifo'))
        os.mkfifo(self.at('out.json'))
        self.refused('fifo', 'left as it is')
        self.refused('out', 'left as it is')
        # Also where a page says that a pipe has nothing.
        self.put('fifo.json', json.dumps(expected_of(b'').page(['empty.bin'])).encode())
        self.put('empty.bin', b'')
        self.refused('fifo', 'left as it is', 'empty.bin')

    def test_devices(self):
        """A device is never replaced. Only root could, and for root it is one of the test's own."""
        place = '/dev/null'
        if os.geteuid() == 0:
            place = self.at('device')
            try:
                os.mknod(place, stat.S_IFCHR | 0o666, os.makedev(1, 3))
            except OSError:
                self.skipTest('no device can be made here')
        self.refused(place, 'left as it is')
        os.symlink(place, self.at('link'))
        self.refused('link', 'left as it is', named=place)
        os.symlink(place, self.at('out.json'))
        self.refused('out', 'left as it is', named=place)

    def test_names_that_are_too_long(self):
        """Of results whose page can have no name there are neither products nor page."""
        self.refused('x' * 300, 'File name too long')
        self.refused('x' * 252, 'File name too long')
        self.made('x' * 250)

    def test_unwritable_folders(self):
        if os.geteuid() == 0:
            self.skipTest('root may write everywhere')
        os.mkdir(self.at('folder'), 0o555)
        self.refused('folder/out', 'Permission denied')

    def test_links(self):
        """Products go to the file behind a link, which stays a link."""
        os.mkdir(self.at('folder'))
        self.put('folder/real', expected_of(plain(8)).products)
        os.symlink('folder/real', self.at('link'))
        os.symlink('folder/new', self.at('dangling'))
        os.symlink('link', self.at('twice'))
        self.made('link', 'folder/real')
        self.made('dangling', 'folder/new')
        self.made('twice', 'folder/real')
        for name in ('link', 'dangling', 'twice'):
            self.assertTrue(os.path.islink(self.at(name)))
        os.symlink('nowhere/x', self.at('astray'))
        self.refused('astray', 'No such file')
        os.symlink('loop', self.at('loop'))
        self.refused('loop', '')
        os.symlink('folder/page', self.at('out.json'))
        self.made('out', page='folder/page')
        self.assertTrue(os.path.islink(self.at('out.json')))

    def test_a_file_of_before(self):
        """Is replaced as a whole: who has it open keeps what it was."""
        self.put('out', expected_of(plain(8)).products)
        self.put('out.json', b'before')
        with open(self.at('out'), 'rb') as before:
            self.made('out')
            self.assertEqual(before.read(), expected_of(plain(8)).products)

    def test_a_folder_that_is_gone(self):
        """A run in a folder that was removed: its results have no place."""
        os.mkdir(self.at('gone'))
        script = 'cd "$1" && rmdir "$1" && shift && exec "$@"'
        words = ('calibrate', '--table', self.at('table.bin'), '--bias', self.at('bias.bin'), '-o', 'out', self.at('scans.bin'))
        ran = subprocess.run(['sh', '-c', script, 'sh', self.at('gone'), *COMMAND, *words], stderr=subprocess.PIPE, timeout=common.PATIENCE)
        self.assertEqual((ran.returncode, ran.stderr), (1, b'sounder: out: no file can be made there: No such file or directory\n'))

    def test_what_is_no_result(self):
        """A raw archive that a pattern of the shell puts behind -o is left, and so is a file with the name of the page."""
        self.put('day1.bin', plain(8))
        self.refused('day1.bin', 'left as it is')
        self.put('day1.bin.json', b'{"mine": 1}')
        self.refused('day1.bin', 'left as it is')
        self.put('other.json', b'{"mine": 1}')
        self.refused('other', 'this is no page of products', named='other.json')
        # Products whose run was killed before their page had its name, and an empty file.
        self.put('out', expected_of(plain(8)).products)
        self.made('out')
        self.put('empty', b'')
        self.made('empty')

    def test_a_page_that_leads_to_the_products(self):
        os.symlink('out', self.at('out.json'))
        self.refused('out', 'leads to the same file')

    def test_no_name_of_a_file(self):
        self.refused('nowhere/', 'no name of a file')

    def test_a_folder_that_is_moved(self):
        """Results go to the folder that it was, whatever stands in its place."""
        os.mkdir(self.at('folder'))
        os.mkfifo(self.at('fifo'))
        process = self.start(*common.WORDS, '-o', 'folder/out', 'fifo')
        with open(self.at('fifo'), 'wb') as fifo:
            os.rename(self.at('folder'), self.at('moved'))
            os.mkdir(self.at('folder'))
            self.put('folder/out.json', b'of others')
            fifo.write(gapped())
        self.assertEqual(common.ended(process).status, 0)
        self.assertEqual(self.contents('moved/out'), self.expected.products)
        self.assertEqual(os.listdir(self.at('folder')), ['out.json'])

    def test_rights(self):
        """Results have the rights that new files have."""
        before = os.umask(0o027)
        self.addCleanup(os.umask, before)
        self.made('out')
        for name in ('out', 'out.json'):
            self.assertEqual(stat.S_IMODE(os.stat(self.at(name)).st_mode), 0o640)


class Disk(PlaceCase):
    """Results are on the disk before they have their names."""

    def events(self, *words):
        """What a run brings to the disk and names, in order: the kind, and of a file its inode and size."""
        found = []

        def synced(descriptor, call=os.fsync):
            status = os.fstat(descriptor)
            found.append(('folder',) if stat.S_ISDIR(status.st_mode) else ('synced', status.st_ino, status.st_size))
            return call(descriptor)

        def named(source, place, call=os.rename, **folders):
            status = os.stat(source, dir_fd=folders.get('src_dir_fd'))
            page = os.path.lexists(self.at('out.json'))
            found.append(('named', os.path.basename(place), status.st_ino, status.st_size, page))
            return call(source, place, **folders)
        with mock.patch('os.fsync', synced), mock.patch('os.fdatasync', synced), mock.patch('os.rename', named), \
                mock.patch('os.replace', named):
            status, said = self.here(*words)
        self.assertEqual(status, 0, said)
        return found

    def ordered(self, *words):
        found = self.events(*words)
        names = [event for event in found if event[0] == 'named']
        self.assertEqual([event[1] for event in names], ['out', 'out.json'], 'the products have their name first')
        self.assertEqual([event[4] for event in names], [False, False], 'an older page stands beside newer products')
        for event in names:
            self.assertIn(('synced', *event[2:4]), found[:found.index(names[0])], 'all is on the disk before the first name')
            self.assertEqual(found[found.index(event) + 1], ('folder',), 'a name is on the disk before the next one')
        self.assertEqual([os.stat(self.at(name)).st_ino for name in ('out', 'out.json')], [event[2] for event in names])

    def test_order(self):
        self.ordered(*common.WORDS, '-o', 'out', 'scans.bin')
        # With results of before.
        self.put('scans.bin', plain(8))
        self.ordered(*common.WORDS, '-o', 'out', 'scans.bin')
        self.assertEqual(self.here(*common.WORDS, '-o', 'part', 'scans.bin')[0], 0)
        os.remove(self.at('out'))
        self.ordered('join', '-o', 'out', 'part')

    def test_failures(self):
        """A disk that fails when all is to be brought to it: status 1, nothing new, and what was there before is whole or has no page."""
        before = expected_of(plain(8))
        self.put('other.bin', plain(8))
        for name, at in (('fsync', 1), ('fsync', 2), ('rename', 1), ('rename', 2), ('fsync', 3), ('unlink', 1)):
            with self.subTest(name=name, at=at):
                self.assertEqual(self.here(*common.WORDS, '-o', 'out', 'other.bin')[0], 0)
                calls, real = iter(range(1, 100)), getattr(os, name)

                def failing(*words, **options):
                    if next(calls) == at:
                        raise OSError(5, 'Input/output error')
                    return real(*words, **options)
                with mock.patch('os.' + name, failing):
                    status, said = self.here(*common.WORDS, '-o', 'out', 'scans.bin')
                self.assertEqual((status, said), (1, ['sounder: out: Input/output error']))
                self.assertEqual(self.unfinished(), [])
                self.assertIn(self.contents('out'), (before.products, self.expected.products))
                if os.path.exists(self.at('out.json')):
                    self.assert_belong('out', before)


class Inputs(PlaceCase):
    """No input is written over, whatever name it has."""

    def test_inputs(self):
        os.mkdir(self.at('folder'))
        for name in ('table.bin', 'bias.bin', 'scans.bin'):
            os.link(self.at(name), self.at('hard-' + name))
            os.symlink(name, self.at('soft-' + name))
            for out in (name, './' + name, 'folder/../' + name, self.at(name), 'hard-' + name, 'soft-' + name):
                with self.subTest(out=out):
                    self.refused(out, 'would be written')

    def test_pages(self):
        """Where the page would stand."""
        for name in ('table.bin', 'bias.bin', 'scans.bin'):
            for place in (os.link, os.symlink):
                place(self.at(name), self.at('out.json'))
                self.refused('out', 'would be written')
                os.remove(self.at('out.json'))
        os.rename(self.at('table.bin'), self.at('out.json'))
        with self.unchanged():
            self.assertEqual(self.here('calibrate', '--table', 'out.json', '--bias', 'bias.bin', '-o', 'out', 'scans.bin')[0], 1)

    def test_standard_input(self):
        """A file that is read as standard input is an input too."""
        os.link(self.at('scans.bin'), self.at('hard'))
        os.link(self.at('scans.bin'), self.at('out.json'))
        for out in ('scans.bin', 'hard', 'out'):
            with self.unchanged(), open(self.at('scans.bin'), 'rb') as scans:
                ran = self.sounder(*common.WORDS, '-o', out, '-', stdin=scans)
            self.assertEqual((ran.status, len(ran.lines)), (1, 1), ran)
            self.assertIn('would be written', ran.lines[0])

    def test_standard_output(self):
        """An archive that is standard output too is not written to."""
        with self.unchanged(), open(self.at('scans.bin'), 'ab') as scans:
            ran = self.sounder(*common.WORDS, 'scans.bin', stdout=scans)
        self.assertEqual((ran.status, len(ran.lines)), (1, 1), ran)
        self.assertIn('would be written', ran.lines[0])

    def test_later_files(self):
        for names in (('scans.bin', 'other.bin'), ('other.bin', 'scans.bin')):
            self.put('other.bin', plain(3))
            self.refused('other.bin', 'would be written', *names)


class Full(PlaceCase):
    """A disk that is full: status 1, the name, and nothing is left."""

    def limited(self, size, out='out', words=common.WORDS, names=('scans.bin',)):
        program = common.prepared(f'resource.setrlimit(resource.RLIMIT_FSIZE, ({size}, {size}))')
        return self.sounder(*words, '-o', out, *names, program=program)

    def test_files_that_may_not_grow(self):
        products = len(self.expected.products)
        for size in (0, 1, 100, PRODUCT, products // 2, products - 1):
            with self.subTest(size=size), self.unchanged():
                ran = self.limited(size)
                self.assertEqual((ran.status, ran.lines), (1, ['sounder: out: products cannot be written: File too large']), ran)
        self.assertEqual(self.limited(products).status, 0)
        self.assert_whole('out', self.expected, ['scans.bin'])

    def test_pages_that_may_not_grow(self):
        """No product, and a page that has no room."""
        self.put('rest.bin', b'x')
        with self.unchanged():
            ran = self.limited(100, names=('rest.bin',))
        self.assertEqual((ran.status, ran.lines), (1, ['sounder: out: File too large']), ran)

    def test_results_of_before_stay(self):
        self.put('other.bin', plain(3))
        self.assertEqual(self.here(*common.WORDS, '-o', 'out', 'other.bin')[0], 0)
        with self.unchanged():
            self.assertEqual(self.limited(PRODUCT * 4).status, 1)

    def test_joins(self):
        for number in (1, 2):
            self.assertEqual(self.here(*common.WORDS, '--part', f'{number}/2', '-o', f'part-{number}', 'scans.bin')[0], 0)
        with self.unchanged():
            ran = self.limited(PRODUCT * 40, words=('join',), names=('part-1', 'part-2'))
        self.assertEqual((ran.status, ran.lines), (1, ['sounder: out: products cannot be written: File too large']), ran)

    def test_memory(self):
        """Pieces and threads that have no room in memory."""
        for size in (100_000_000, 150_000_000):
            with self.unchanged(but=('out', 'out.json')):
                program = common.prepared(f'resource.setrlimit(resource.RLIMIT_AS, ({size}, {size}))')
                ran = self.sounder(*common.WORDS, '--jobs', '40', '-o', 'out', 'scans.bin', program=program)
            if ran.status == 0:
                self.assert_whole('out', self.expected, ['scans.bin'])
                continue
            self.assertEqual((ran.status, len(ran.lines)), (1, 1), ran)
            self.assertRegex(ran.lines[0], '^sounder: (there is (too little memory|no memory for 43 pieces: .*)|the system has no room for 42 threads: .*)$')
            self.assertFalse(os.path.exists(self.at('out')))

    def test_threads(self):
        calls, start = iter(range(3)), threading.Thread.start

        def failing(thread):
            if next(calls) == 2:
                raise RuntimeError("can't start new thread")
            start(thread)
        with mock.patch('threading.Thread.start', failing):
            self.refused('out', 'take fewer with --jobs', named='--jobs')

    def mounted(self, options, *words):
        """Runs the command with a small file system at the folder `disk`; answers the run and what is left there."""
        os.makedirs(self.at('disk'), exist_ok=True)
        script = ['sh', '-c', MOUNTED, 'sh', options, self.at('disk'), self.at('listed'), *COMMAND]
        for way in ('-m', '-rm'):
            ran = self.sounder(*words, program=['unshare', way, *script])
            if os.path.exists(self.at('listed')):
                left = self.contents('listed').decode().split()
                os.remove(self.at('listed'))
                return ran, left
        raise unittest.SkipTest('no file system can be mounted here')

    def test_a_small_disk(self):
        """Too small for the products, or for the page behind them."""
        pages = -(-len(self.expected.products) // 4_096)
        for size in (4, 40, 4 * pages - 4):
            ran, left = self.mounted(f'size={size}k', *common.WORDS, '-o', 'disk/out', 'scans.bin')
            self.assertEqual((ran.status, ran.lines), (1, ['sounder: disk/out: products cannot be written: No space left on device']), ran)
            self.assertEqual(left, [])
        ran, left = self.mounted(f'size={4 * pages}k', *common.WORDS, '-o', 'disk/out', 'scans.bin')
        self.assertEqual((ran.status, ran.lines), (1, ['sounder: disk/out: No space left on device']), ran)
        self.assertEqual(left, [])
        ran, left = self.mounted(f'size={4 * pages + 8}k', *common.WORDS, '-o', 'disk/out', 'scans.bin')
        self.assertEqual((ran.status, left), (0, ['out', 'out.json']), ran)

    def test_a_disk_without_room_for_names(self):
        """The folder itself and the products take the two files that there may be."""
        ran, left = self.mounted('size=9m,nr_inodes=2', *common.WORDS, '-o', 'disk/out', 'scans.bin')
        self.assertEqual((ran.status, ran.lines, left), (1, ['sounder: disk/out: no file can be made there: No space left on device'], []), ran)

    def test_a_disk_that_may_not_be_written(self):
        ran, left = self.mounted('ro', *common.WORDS, '-o', 'disk/out', 'scans.bin')
        self.assertEqual((ran.status, len(ran.lines), left), (1, 1, []), ran)
        self.assertTrue(ran.lines[0].startswith('sounder: disk/out: '), ran)
        self.assertIn('Read-only file system', ran.lines[0])
