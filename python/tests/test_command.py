"""The command's words, its messages, its standard streams, and names with any characters."""
import json
import os
import pty
import re
import select
import shutil
import subprocess
import time
from unittest import mock

from sounder import library

from . import common
from .common import RECORD, Case, expected_of, gapped, plain, record, sample

# A name for every kind of trouble: characters of the shell, a line of its own, what looks like an option, bytes that are no text.
NAMES = ('a b', "it's $(x) \"y\" *", 'a\nsounder: out: records 1 products 1 refused 0', '-x', '--table=x', '-1', '--', '\udcff\udc80', 'é',
         'tab\there', '\x1b[2J', ' ', 'x ', '\u2028')


def closed(*streams):
    """The command with streams that are closed."""
    return common.prepared('\n'.join(f'os.close({stream})' for stream in streams))


def ended_pipe():
    """A pipe whose reader has gone."""
    reader, writer = os.pipe()
    os.close(reader)
    return writer


class Usage(Case):
    """Wrong words: status 2, and nothing is written."""

    def wrong(self, words, *arguments):
        with self.unchanged():
            status, said = self.here(*arguments)
        self.assertEqual(status, 2, (arguments, said))
        self.assertIn(words, said[-1])
        self.assertTrue(re.match(r'sounder( [a-z]+)?: ', said[-1]), said)

    def test_commands(self):
        self.wrong('a command is needed')
        self.wrong('invalid choice', 'calibrat')
        self.wrong('unrecognized arguments: --verbose', 'calibrate', '--table', 't', '--bias', 'b', '--verbose')
        self.wrong('--table', 'calibrate')
        self.wrong('--bias', 'calibrate', '--table', 'table.bin')
        self.wrong('--table', 'calibrate', '--bias', 'bias.bin', '-o', 'out')
        self.wrong('-o', 'join', 'part')
        self.wrong('PART', 'join', '-o', 'out')
        self.wrong('-o', *common.WORDS, '-o')
        self.wrong('--table', 'calibrate', '--table', '--bias', 'bias.bin')
        self.wrong('TABLE', 'check')
        self.wrong('unrecognized', 'check', 'a', 'b', 'c')
        # Options are not shortened: a later one could take the short form.
        self.wrong('--table', 'calibrate', '--tab', 'table.bin', '--bias', 'bias.bin')

    def test_jobs(self):
        for word in ('0', '-1', 'abc', '', '1.5', '1025', '99999', ' 1', '1 ', '1_0', '0x1', '+1', '\u0661', '1\n'):
            with self.subTest(word=word):
                self.wrong('is not a number from 1 to 1024', *common.WORDS, f'--jobs={word}', '-o', 'out', 'scans.bin')

    def test_part(self):
        for word in ('0/1', '2/1', '1/0', '0/0', '1', '/', '1/', '/1', 'a/b', '1/2/3', '-1/2', '1/ 2', '', '1/1000000000', '1.0/2', '1\\2',
                     '1/2\n'):
            with self.subTest(word=word):
                self.wrong('is not K/N with K from 1 to N', *common.WORDS, f'--part={word}', '-o', 'out', 'scans.bin')

    def test_part_of_what_has_no_end(self):
        self.put('scans.bin', plain(3))
        for names in (('-',), ('scans.bin', '-')):
            self.wrong('--part needs files', *common.WORDS, '--part', '1/2', '-o', 'out', *names)
        self.wrong('an archive is needed', *common.WORDS, '--part', '1/2', '-o', 'out')
        self.wrong('an archive is needed', *common.WORDS, '-o', 'out')
        self.wrong('standard input can be read once', *common.WORDS, '-o', 'out', '-', '-')
        self.wrong('--part needs -o OUT', *common.WORDS, '--part', '1/2', 'scans.bin')
        self.wrong('--part needs -o OUT', *common.WORDS, '--part', '1/2', '-o', '-', 'scans.bin')
        os.mkfifo(self.at('fifo'))
        with self.unchanged():
            status, said = self.here(*common.WORDS, '--part', '1/2', '-o', 'out', 'scans.bin', 'fifo')
        self.assertEqual((status, len(said)), (1, 1), said)
        self.assertIn('fifo', said[0])

    def test_as_a_command(self):
        """The same from the shell, with what is said on standard error."""
        for words in ((), ('calibrat',), (*common.WORDS, '--jobs', '0', '-o', 'out', 'scans.bin'),
                      (*common.WORDS, '--part', '1/2', '-o', 'out')):
            with self.unchanged():
                ran = self.sounder(*words)
            self.assertEqual((ran.status, ran.output), (2, b''), ran)
            self.assertTrue(ran.errors.endswith(b'\n'))

    def test_words_that_are_not_understood_stay_in_their_line(self):
        with self.unchanged():
            ran = self.sounder(*common.WORDS, '-o', 'out', '-x\nsounder:fake', '--y\udcff')
        self.assertEqual(ran.status, 2)
        self.assertEqual([line.partition(' ')[0] for line in ran.lines], ['usage:', 'sounder:'], ran)
        self.assertIn(r'-x\nsounder:fake', ran.lines[-1])


class Help(Case):
    def test_help(self):
        for words, named in (((), ('calibrate', 'join', 'check')),
                             (('calibrate',), ('--table', '--bias', '--jobs', '--part', '-o', 'ARCHIVE')),
                             (('join',), ('PART', '-o')), (('check',), ('TABLE', 'BIAS'))):
            for help_word in ('--help', '-h'):
                ran = self.sounder(*words, help_word)
                self.assertEqual((ran.status, ran.errors), (0, b''), ran)
                self.assertTrue(ran.output.startswith(b'usage: sounder'))
                for name in named:
                    self.assertIn(name.encode(), ran.output)

    def test_version(self):
        ran = self.sounder('--version')
        version = common.contents(os.path.join(common.ROOT, 'VERSION'))
        self.assertEqual((ran.status, ran.output, ran.errors), (0, b'sounder ' + version, b''))
        self.assertEqual(library.version_words(library.VERSION_NUMBER).encode() + b'\n', version)

    def test_what_cannot_be_written(self):
        for word in ('--help', '--version'):
            for streams in ({'stdout': open('/dev/full', 'wb')}, {'stdout': ended_pipe()}, {'program': closed(1)}):
                ran = self.sounder(word, **streams)
                self.assertEqual((ran.status, len(ran.lines)), (1, 1), ran)
                self.assertTrue(ran.lines[0].startswith('sounder: standard output: '), ran)
                if hasattr(streams.get('stdout'), 'close'):
                    streams['stdout'].close()
                elif 'stdout' in streams:
                    os.close(streams['stdout'])

    def test_from_the_shell(self):
        """The file itself is a command."""
        ran = subprocess.run([os.path.join(common.ROOT, 'tools', 'sounder'), '--version'], stdout=subprocess.PIPE, timeout=common.PATIENCE)
        self.assertEqual((ran.returncode, ran.stdout[:8]), (0, b'sounder '))

    def test_through_a_link(self):
        """The command finds its package through a link, and takes nothing from the folder where it is run."""
        os.symlink(os.path.join(common.ROOT, 'tools', 'sounder'), self.at('command'))
        for name in ('json.py', 'sounder.py', 'argparse.py', 'hashlib.py'):
            self.put(name, b'raise SystemExit(7)')
        ran = subprocess.run([*common.COMMAND[:2], self.at('command'), '--version'], cwd=self.folder, stdout=subprocess.PIPE,
                             env={**os.environ, 'PYTHONPATH': self.folder}, timeout=common.PATIENCE)
        self.assertEqual((ran.returncode, ran.stdout[:8]), (0, b'sounder '))


class Installed(Case):
    """The command in bin/, the package and the library in lib/."""

    def setUp(self):
        super().setUp()
        self.prefix = self.at('a prefix')
        package, library = (os.path.join(self.prefix, 'lib', *words) for words in (('sounder', 'python', 'sounder'), ('libstation.so.6',)))
        os.makedirs(os.path.join(self.prefix, 'bin'))
        shutil.copytree(os.path.join(common.PACKAGE, 'sounder'), package, ignore=shutil.ignore_patterns('__pycache__'))
        shutil.copy(os.path.join(common.ROOT, 'tools', 'sounder'), os.path.join(self.prefix, 'bin'))
        shutil.copy(os.path.join(common.ROOT, 'target', 'lib', 'libstation.so.6'), library)
        self.library = library
        self.program = [*common.COMMAND[:2], os.path.join(self.prefix, 'bin', 'sounder')]

    def files(self):
        return sorted(os.path.join(folder, name) for folder, _, names in os.walk(self.prefix) for name in names)

    def test_run(self):
        before = self.files()
        self.put('scans.bin', gapped())
        ran = self.sounder(*common.WORDS, '-o', 'out', 'scans.bin', program=self.program)
        self.assertEqual(ran.status, 0, ran)
        self.assert_whole('out', expected_of(gapped()), ['scans.bin'])
        self.assertEqual(self.files(), before, 'a run writes nothing beside the package')

    def test_without_a_library(self):
        """Then the loader's own places are asked, and where they have none, this is told."""
        os.remove(self.library)
        ran = self.sounder('--version', program=self.program)
        if ran.status == 0:
            self.skipTest('a library is installed here')
        self.assertEqual((ran.status, ran.output, len(ran.lines)), (1, b'', 1), ran)
        self.assertTrue(ran.lines[0].startswith('sounder: the library libstation.so.6 cannot be loaded ('), ran)


class Streams(Case):
    """Closed, full and ended streams. With -o OUT standard output has no part, and what cannot be shown ends nothing."""

    def setUp(self):
        super().setUp()
        self.put('scans.bin', gapped())
        self.expected = expected_of(gapped())
        self.full = open('/dev/full', 'r+b', buffering=0)
        self.addCleanup(self.full.close)
        self.ended, self.unwritable = ended_pipe(), os.open('/dev/null', os.O_RDONLY)
        for stream in (self.ended, self.unwritable):
            self.addCleanup(os.close, stream)

    def test_with_a_file(self):
        for streams in ({}, {'stdout': self.full}, {'stdout': self.ended}, {'program': closed(1)}, {'stderr': self.full},
                        {'stderr': self.ended}, {'program': closed(2)}, {'program': closed(0)}, {'program': closed(0, 1, 2)},
                        {'program': closed(1, 2)}, {'program': closed(0, 2)}):
            with self.subTest(streams=streams):
                ran = self.sounder(*common.WORDS, '-o', 'out', 'scans.bin', **streams)
                self.assertEqual(ran.status, 0, ran)
                self.assertFalse(ran.output)
                self.assert_whole('out', self.expected, ['scans.bin'])
                if 'stderr' not in streams and 'program' not in streams:
                    self.assertEqual(ran.lines, [f'out: {self.expected.counts()}'])
                for name in ('out', 'out.json'):
                    os.remove(self.at(name))

    def test_with_standard_output(self):
        for streams in ({'stderr': self.full}, {'stderr': self.ended}, {'program': closed(2)}, {'program': closed(0)}):
            with self.subTest(streams=streams):
                ran = self.sounder(*common.WORDS, 'scans.bin', **streams)
                self.assertEqual((ran.status, ran.output == self.expected.products), (0, True), ran)

    def test_standard_output_that_cannot_be_written(self):
        for streams, words in (({'stdout': self.full}, 'No space left'), ({'stdout': self.ended}, 'Broken pipe'),
                               ({'program': closed(1)}, 'Bad file descriptor'), ({'stdout': self.unwritable}, 'Bad file descriptor')):
            with self.subTest(streams=streams), self.unchanged():
                ran = self.sounder(*common.WORDS, 'scans.bin', **streams)
                self.assertEqual((ran.status, len(ran.lines)), (1, 1), ran)
                self.assertTrue(ran.lines[0].startswith('sounder: standard output: '), ran)
                self.assertIn(words, ran.lines[0])

    def test_many_products_to_a_reader_that_goes(self):
        """A reader that takes a little and goes, while many pieces are on their way."""
        self.put('scans.bin', plain(4_000))
        with self.unchanged():
            process = self.start(*common.WORDS, 'scans.bin', stdout=subprocess.PIPE)
            process.stdout.read(100_000)
            process.stdout.close()
            process.stdout = None
            ran = common.ended(process)
        self.assertEqual((ran.status, ran.lines), (1, ['sounder: standard output: Broken pipe']), ran)

    def test_standard_input_that_cannot_be_read(self):
        folder = os.open(self.folder, os.O_RDONLY)
        self.addCleanup(os.close, folder)
        null = os.open('/dev/null', os.O_WRONLY)
        self.addCleanup(os.close, null)
        for streams in ({'program': closed(0)}, {'stdin': folder}, {'stdin': null}, {'program': closed(0, 1)}):
            for out in (('-o', 'out', '-'), ()):
                with self.subTest(streams=streams, out=out), self.unchanged():
                    ran = self.sounder(*common.WORDS, *out, **streams)
                    self.assertEqual(ran.status, 1, ran)
                    # A folder ends Python itself, in its own words.
                    if streams.get('stdin') != folder:
                        self.assertEqual(len(ran.lines), 1, ran)
                        self.assertTrue(ran.lines[0].startswith('sounder: standard input: '), ran)

    def test_failures_that_cannot_be_told(self):
        """The status says it all the same."""
        for streams in ({'stderr': self.full}, {'stderr': self.ended}, {'program': closed(2)}, {'program': closed(1, 2)}):
            with self.subTest(streams=streams), self.unchanged():
                self.assertEqual(self.sounder(*common.WORDS, '-o', 'out', 'nowhere', **streams).status, 1)
                self.assertEqual(self.sounder(*common.WORDS, '--jobs', '0', **streams).status, 2)
                self.assertEqual(self.sounder('nothing', **streams).status, 2)


class Tables(Case):
    """A table or bias file that is missing or refused: status 1, its name and why, and nothing is left."""

    def told(self, begin, *names):
        for archive in names or ('scans.bin',):
            with self.unchanged():
                status, said = self.here(*common.WORDS, '-o', 'out', archive)
            self.assertEqual((status, len(said)), (1, 1), said)
            self.assertTrue(said[0].startswith(f'sounder: {begin}'), said)

    def setUp(self):
        super().setUp()
        self.put('scans.bin', gapped())
        self.put('empty.bin', b'')

    def test_missing(self):
        os.remove(self.at('bias.bin'))
        self.told('bias.bin: No such file', 'scans.bin', 'empty.bin')
        os.remove(self.at('table.bin'))
        self.told('table.bin: No such file', 'scans.bin', 'empty.bin')

    def test_an_empty_archive_needs_them_too(self):
        os.remove(self.at('table.bin'))
        with self.unchanged():
            self.assertEqual(self.sounder(*common.WORDS, '-o', 'out', 'empty.bin').status, 1)
            self.assertEqual(self.sounder(*common.WORDS).status, 1)

    def test_folders(self):
        os.remove(self.at('table.bin'))
        os.mkdir(self.at('table.bin'))
        self.told('table.bin: Is a directory')

    def test_refused(self):
        table, bias = self.contents('table.bin'), self.contents('bias.bin')
        for content, number in ((b'', 1), (table[:-1], 1), (table + b'\0', 1), (table * 900, 1), (b'\0' + table[1:], 2),
                                (sample('refused/table.bin'), 3), (sample('refused_shelves/table.bin'), 3)):
            self.put('table.bin', content)
            # Whatever the bias file is: the table is opened first.
            for other in (bias, b'', sample('refused_bias/bias.bin')):
                self.put('bias.bin', other)
                self.told(f'table.bin: refused with {number}: {library.WORDS[number]}', 'scans.bin', 'empty.bin')
        self.put('table.bin', table)
        for content, number in ((b'', 1), (table, 1), (bias + b'\0', 1), (bytes(8_451), 2), (sample('refused_bias/bias.bin'), 3)):
            self.put('bias.bin', content)
            self.told(f'bias.bin: refused with {number}: {library.WORDS[number]}', 'scans.bin', 'empty.bin')

    def test_out_is_not_looked_at(self):
        """Results of before stay, and are not called whole, where the table is refused."""
        self.assertEqual(self.here(*common.WORDS, '-o', 'out', 'scans.bin')[0], 0)
        self.put('table.bin', sample('refused/table.bin'))
        self.told('table.bin: refused with 3')

    def test_no_library(self):
        """A library that is not there: in clear words, and nothing is left that hinders the next try."""
        for place in (self.at('nowhere.so'), self.at('scans.bin')):
            with self.unchanged():
                ran = self.sounder(*common.WORDS, '-o', 'out', 'scans.bin', env={**os.environ, 'SOUNDER_LIBRARY': place})
            self.assertEqual((ran.status, len(ran.lines)), (1, 1), ran)
            self.assertTrue(ran.lines[0].startswith(f'sounder: the library {place} cannot be loaded'), ran)
        self.assertEqual(self.sounder(*common.WORDS, '-o', 'out', 'scans.bin').status, 0)
        self.assert_whole('out', expected_of(gapped()), ['scans.bin'])


class Archives(Case):
    """Archives that cannot be read: told before the first record, and nothing is left."""

    def test_missing(self):
        self.put('scans.bin', gapped())
        for name, words in (('nowhere', 'No such file'), ('scans.bin/x', 'Not a directory'), ('', 'No such file'),
                            ('x' * 300, 'File name too long'), ('.', 'Is a directory')):
            with self.unchanged():
                status, said = self.here(*common.WORDS, '-o', 'out', 'scans.bin', name)
            self.assertEqual((status, len(said)), (1, 1), said)
            self.assertIn(words, said[0])
            self.assertTrue(said[0].startswith(f'sounder: {name or repr(name)}: '), said)

    def test_links(self):
        self.put('scans.bin', gapped())
        os.symlink('scans.bin', self.at('link'))
        os.symlink('loop', self.at('loop'))
        os.symlink('nowhere', self.at('dangling'))
        for name in ('loop', 'dangling'):
            with self.unchanged():
                self.assertEqual(self.here(*common.WORDS, '-o', 'out', name)[0], 1)
        self.assertEqual(self.here(*common.WORDS, '-o', 'out', 'link')[0], 0)
        self.assert_whole('out', expected_of(gapped()), ['link'])


class Terminal(Case):
    """How far a run is shows on a terminal alone; the line of counts always."""

    def on_terminal(self, *words, stdout=False, send=None):
        """Runs the command with a terminal as standard error, or as standard output; answers the status and what the terminal got."""
        leader, follower = pty.openpty()
        self.addCleanup(os.close, leader)
        process = self.start(*words, **({'stdout': follower} if stdout else {'stderr': follower}))
        os.close(follower)
        if send:
            send()
        shown = b''
        while select.select([leader], [], [], common.PATIENCE)[0]:
            try:
                shown += os.read(leader, 65_536)
            except OSError:
                break
        return common.ended(process), shown

    def test_progress(self):
        os.mkfifo(self.at('fifo'))
        given = plain(1_200)

        def send():
            with open(self.at('fifo'), 'wb', buffering=0) as fifo:
                for begin in (0, 512, 1_024):
                    fifo.write(given[begin * RECORD:(begin + 512) * RECORD])
                    time.sleep(0.25)
        ran, shown = self.on_terminal(*common.WORDS, '-o', 'out', 'fifo', send=send)
        self.assertEqual(ran.status, 0, shown)
        self.assertRegex(shown, rb'\r(512|1024|1200) records')
        # Behind the last carriage return there is nothing but the line of counts.
        self.assertEqual(shown.replace(b'\r\n', b'\n').split(b'\r')[-1], f'out: {expected_of(given).counts()}\n'.encode())

    def test_progress_of_files(self):
        """Of files it is known how many records there are."""
        self.put('scans.bin', plain(3))
        os.mkfifo(self.at('fifo'))
        process = self.start(*common.WORDS, '-o', 'out', 'scans.bin', 'scans.bin')
        self.assertEqual(common.ended(process).lines, ['out: records 6 products 3 refused 3: 3 with 6'])
        with mock.patch.object(common.command.os, 'isatty', lambda descriptor: True), \
                mock.patch.object(common.command.Progress, 'line', autospec=True) as line, \
                mock.patch.object(common.command.time, 'monotonic', iter(range(1_000)).__next__):
            status, said = self.here(*common.WORDS, '-o', 'other', 'scans.bin', piece=1)
        self.assertEqual((status, said), (0, ['other: records 3 products 3 refused 0']))
        self.assertEqual([call.args[1] for call in line.call_args_list if call.args[1]], [f'{count} of 3 records' for count in (1, 2, 3)])

    def test_no_progress_elsewhere(self):
        os.mkfifo(self.at('fifo'))
        process = self.start(*common.WORDS, '-o', 'out', 'fifo')
        with open(self.at('fifo'), 'wb', buffering=0) as fifo:
            for _ in range(2):
                fifo.write(plain(512))
                time.sleep(0.25)
        ran = common.ended(process)
        self.assertEqual((ran.status, ran.lines), (0, ['out: records 1024 products 512 refused 512: 512 with 6']), ran)

    def test_failures_on_a_terminal(self):
        ran, shown = self.on_terminal(*common.WORDS, '-o', 'out', 'nowhere')
        self.assertEqual((ran.status, shown), (1, b'sounder: nowhere: No such file or directory\r\n'))

    def test_no_products_on_a_terminal(self):
        self.put('scans.bin', plain(3))
        for words in ((), ('-o', '-')):
            with self.unchanged():
                ran, shown = self.on_terminal(*common.WORDS, *words, 'scans.bin', stdout=True)
            self.assertEqual((ran.status, shown), (2, b''), ran)
            self.assertEqual(ran.lines, ['sounder: products are not written to a terminal: name a file with -o OUT'])


class Names(Case):
    """Files with any name. Messages stay readable, and each stays in its line."""

    def one_line(self, said, begin=''):
        self.assertEqual(len(said), 1, said)
        self.assertTrue(said[0].replace('\n', '').isprintable() and '\n' not in said[0], said)
        self.assertTrue(said[0].startswith(begin), said)

    def test_names(self):
        for name in NAMES:
            with self.subTest(name=name):
                os.mkdir(self.at('names'))
                table, bias, scans = (name + end for end in (' table', ' bias', ' scans'))
                for own, content in ((table, common.table()), (bias, common.bias()), (scans, gapped())):
                    self.put(os.path.join('names', own), content)
                given = ('calibrate', '--table=' + table, '--bias=' + bias)
                here = dict(folder=self.at('names'))
                status, said = common.here(*given, '-o' + (name if name != '--' else './--'), '--', scans, **here)
                self.assertEqual(status, 0, said)
                self.one_line(said)
                out = os.path.join('names', name)
                self.assert_whole(out, expected_of(gapped()), [scans], table_name=table, bias_name=bias)
                # Once more: it is there. The name as a path serves too.
                status, said = common.here(*given, '-o', './' + name, './' + scans, **here)
                self.assertEqual(status, 0, said)
                self.one_line(said)
                parts = []
                for number in (1, 2):
                    parts.append(f'./{name} part {number}')
                    status, said = common.here(*given, '--part', f'{number}/2', '-o', parts[-1], '--', scans, **here)
                    self.assertEqual(status, 0, said)
                status, said = common.here('join', '-o', f'./{name} joined', *parts, **here)
                self.assertEqual(status, 0, said)
                self.one_line(said)
                self.assertEqual(self.contents(out + ' joined.json'), self.contents(out + '.json'))
                # What fails, with this name in the message.
                for words in ((*given, '-o', 'out', './' + name + '/x'), ('calibrate', '--table=./nowhere' + name, '--bias=' + bias),
                              ('calibrate', '--table=' + table, '--bias=./nowhere' + name), (*given, '-o', f'./{table}', '--', scans),
                              (*given, '-o', f'./{name}/out', '--', scans), ('join', '-o', 'out', parts[1]),
                              ('join', '-o', 'out', './nowhere' + name), ('join', '-o', parts[0], *parts)):
                    status, said = common.here(*words, **here)
                    self.assertEqual(status, 1, (words, said))
                    self.one_line(said, 'sounder: ')
                # Of a refused table the lines behind the first say what is wrong.
                status, said = common.here('calibrate', '--table=' + bias, '--bias=' + bias, **here)
                line, *further = said[0].split('\n')
                self.assertEqual((status, len(said)), (1, 1), said)
                self.one_line([line], 'sounder: ')
                self.assertEqual(further, ['  the length is at least 1,405 bytes, and must be 1,404'])
                shutil.rmtree(self.at('names'))

    def test_as_a_command(self):
        """The same through the words of a command, where bytes that are no text come in."""
        for name in NAMES[2:4] + NAMES[6:8] + NAMES[10:11]:
            with self.subTest(name=name):
                self.put(name, gapped())
                ran = self.sounder(*common.WORDS, '-oout', '--', name)
                self.assertEqual((ran.status, len(ran.lines)), (0, 1), ran)
                # A run that finds this whole would leave the name.
                os.remove(self.at('out'))
                self.assertEqual(os.fsencode(self.page('out')['archive'][0]['name']), os.fsencode(name))
                ran = self.sounder(*common.WORDS, '--', name)
                self.assertEqual((ran.status, len(ran.lines)), (0, len(expected_of(gapped()).ranges()) + 1), ran)
                for line in ran.lines[:-1]:
                    self.assertRegex(line, r'^[^\n]+: records? \d+( to \d+)? offset \d+ refused \d$')
                os.remove(self.at(name))
                # Also where the language of messages is the plain one.
                for given in ({}, {'env': {**os.environ, 'LC_ALL': 'C'}}):
                    ran = self.sounder(*common.WORDS, '-oout', '--', name, **given)
                    self.assertEqual((ran.status, len(ran.lines)), (1, 1), ran)
                    self.assertTrue(ran.lines[0].isprintable())

    def test_two_dashes(self):
        """As a word of an option they may be a name or be refused, as Python's own reader of words has it."""
        self.put('scans.bin', gapped())
        for words in ((*common.WORDS, '-o--', 'scans.bin'), ('calibrate', '--table=--', '--bias', 'bias.bin', '-o', 'out', 'scans.bin'),
                      ('join', '-o--', 'out')):
            ran = self.sounder(*words)
            self.assertIn(ran.status, (0, 1, 2), ran)
            self.assertTrue(ran.lines[-1].startswith(('sounder: ', '--: ')) and len(ran.lines) == 1, ran)

    def test_dash(self):
        """Only among archives and behind -o is - a stream; elsewhere it is a file's name."""
        self.put('-', gapped())
        ran = self.sounder(*common.WORDS, '-o', './-.out', './-')
        self.assertEqual(ran.status, 0, ran)
        self.assert_whole('-.out', expected_of(gapped()), ['./-'])
        for words in (('calibrate', '--table', '-', '--bias', 'bias.bin'), ('calibrate', '--table', 'table.bin', '--bias', '-')):
            os.remove(self.at('-'))
            ran = self.sounder(*words)
            self.assertEqual((ran.status, ran.lines), (1, ['sounder: -: No such file or directory']), ran)
            self.put('-', b'')
            ran = self.sounder(*words)
            self.assertTrue(ran.lines[0].startswith('sounder: -: refused with 1'), ran)
        ran = self.sounder('join', '-o', 'joined', '-')
        self.assertEqual((ran.status, ran.lines), (1, ['sounder: -.json: No such file or directory']), ran)
        # Joined products have a page, which standard output has not.
        self.assertEqual(self.sounder('join', '-o', '-', './-.out').status, 0)
        self.assertEqual(self.contents('-'), expected_of(gapped()).products)

    def test_pages_are_plain(self):
        """A page is ASCII, whatever the names are."""
        for name in NAMES:
            self.put(name, record(NAMES.index(name)))
            self.assertEqual(self.here(*common.WORDS, '-o', 'out', '--', name)[0], 0)
            self.assertEqual(json.loads(self.contents('out.json').decode('ascii'))['archive'][0]['name'], name)
