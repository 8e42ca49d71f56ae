"""What the tests have in common: tables, bias files and archives, what one run over all records gives, and runs of the command."""
import contextlib
import functools
import hashlib
import json
import os
import random
import re
import shutil
import signal
import struct
import subprocess
import sys
import tempfile
import time
import unittest
from itertools import groupby
from unittest import mock

from sounder import archive, command, files

ROOT = os.path.dirname(os.path.dirname(os.path.dirname(os.path.abspath(__file__))))
PACKAGE = os.path.join(ROOT, 'python')
COMMAND = [sys.executable, '-IS', os.path.join(ROOT, 'tools', 'sounder')]
RECORD, PRODUCT = 4_648, 8_706
LAST_NUMBER = 2**32 - 1
# How long anything may take that takes no time unless something is wrong.
PATIENCE = 300


def memory():
    """A folder in memory, where there is a large one: every run brings its results to the disk. None is the usual folder for such files."""
    try:
        room = os.statvfs('/dev/shm')
    except OSError:
        return None
    return '/dev/shm' if os.access('/dev/shm', os.W_OK) and room.f_bavail * room.f_frsize > 2**31 else None


MEMORY = memory()

os.environ.pop('SOUNDER_LIBRARY', None)


def contents(name):
    with open(name, 'rb') as file:
        return file.read()


def put(name, content):
    with open(name, 'wb') as file:
        file.write(content)


def sample(name):
    return contents(os.path.join(ROOT, 'samples', name))


def sum_of(content):
    return hashlib.sha256(content).hexdigest()


# ---- Tables, bias files, records


@functools.lru_cache(None)
def table(seed=1):
    """Every age has a weight, so that each record of a window counts, and the five TNL of each channel differ, so that shelves count."""
    rng, made = random.Random(seed), bytearray(sample('table.bin'))
    made[3:19] = bytes([8, 7, 6, 5, 4, 3, 2, 1] * 2)
    made[19:22] = bytes([20, 20, 20])
    for at in range(748, len(made), 6):
        made[at:at + 2] = struct.pack('>h', rng.randint(-8_192, 8_192))
    return bytes(made)


@functools.lru_cache(None)
def bias(seed=1):
    rng = random.Random(seed)
    return b'\x13\x21\x00' + b''.join(struct.pack('>hh', rng.randint(-4_096, 4_096), rng.randint(-32_768, 32_767)) for _ in range(22 * 96))


@functools.lru_cache(None)
def bodies():
    """Records that differ in their counts and shelf temperatures."""
    rng, scan, made = random.Random(3), sample('scans.bin'), []
    for _ in range(40):
        body = bytearray(scan)
        body[405:4_629] = struct.pack('>2112H', *(rng.choices(range(10_000, 20_001), k=2_112)))
        body[4_632:] = struct.pack('>4i', *(rng.randint(-300_000, 300_000) for _ in range(4)))
        for channel in range(22):
            warm, cold = rng.randint(19_000, 20_000), rng.randint(9_000, 10_000)
            body[47 + 8 * channel:55 + 8 * channel] = warm.to_bytes(2, 'big') * 4
            body[226 + 8 * channel:234 + 8 * channel] = cold.to_bytes(2, 'big') * 4
        made.append(bytes(body))
    return made


def record(number, at=None, wrong_tag=False):
    """A record with a number; `at` says which counts it has, and else the number does."""
    body = bodies()[(number if at is None else at) % len(bodies())]
    return body[:3] + number.to_bytes(4, 'big') + (b'\0' if wrong_tag else b'\2') + body[8:]


def plain(count, first=100):
    """Records without a fault."""
    return b''.join(record(first + at) for at in range(count))


@functools.lru_cache(None)
def gapped(count=60, seed=1):
    """Records with gaps, and some with numbers from before or with a wrong tag; behind them a shorter rest."""
    rng, number, made = random.Random(seed), 0, []
    for at in range(count):
        number += rng.choice([1, 1, 1, 1, 2, 3, 6, 7, 8, 9, 30])
        shown = number - rng.choice([0, 1, 8]) if rng.random() < 0.2 else number
        made.append(record(max(shown, 0), at, rng.random() < 0.1))
    return b''.join(made) + made[0][:100]


def drawn(rng):
    """A small archive, files of records whose numbers rise, fall, repeat, leap and end, so that every kind of boundary occurs."""
    number, made = rng.choice([0, 0, 5, 1_000, 2**31 - 10, LAST_NUMBER - 20]), []
    for at in range(rng.choice([0, 1, 2, 7, 8, 15, 40, 40, 60])):
        number += rng.choice([1] * 12 + [0, 2, 3, 6, 7, 8, 30, -1, -2, -8])
        number = min(max(number, 0), LAST_NUMBER)
        # Now and then one that is far too high, or the last one there is: behind it nothing is accepted.
        shown = rng.choice([number] * 150 + [min(number + 1_000, LAST_NUMBER), LAST_NUMBER])
        repeated = rng.choice([1] * 60 + [9, 300])
        made += [record(shown, at + more, rng.random() < 0.06) for more in range(repeated)]
        if rng.random() < 0.02:
            made.append(record(LAST_NUMBER, at, wrong_tag=True))
    cuts = sorted(rng.randint(0, len(made)) for _ in range(rng.choice([0, 0, 1, 3])))
    parts = [b''.join(made[begin:end]) for begin, end in zip([0, *cuts], [*cuts, len(made)])]
    return [part + record(number + 1 & LAST_NUMBER)[:rng.choice([0, 0, 1, 100, RECORD - 1])] for part in parts]


# ---- What one run gives


class Expected:
    """What one run of the programs gives: of files one after the other, whose shorter rests are refused and change nothing."""

    def __init__(self, table_bytes, bias_bytes, parts):
        self.table, self.bias, self.parts = table_bytes, bias_bytes, parts
        whole = b''.join(part[:len(part) // RECORD * RECORD] for part in parts)
        self.products, lines = one_run(table_bytes, bias_bytes, whole)
        # Of each record its file, its place there, and its number or None; the answer to it.
        self.records, self.answers, lines = [], [], iter(lines)
        for file, part in enumerate(parts):
            for at in range(-(-len(part) // RECORD)):
                words = next(lines).split() if (at + 1) * RECORD <= len(part) else ['refused', '4']
                self.answers.append(int(words[1]) if words[0] == 'refused' else 0)
                self.records.append((file, at, None if words[0] == 'refused' else int(words[1])))
        assert next(lines, None) is None

    def bounds(self, part):
        number, of = part
        return len(self.records) * (number - 1) // of, len(self.records) * number // of

    def products_of(self, part):
        low, high = self.bounds(part)
        first, behind = (self.answers[:place].count(0) * PRODUCT for place in (low, high))
        return self.products[first:behind]

    def reached(self, place):
        """Place and number of the accepted records of the last seven numbers before a place."""
        accepted = [[at, number] for at, (_, _, number) in enumerate(self.records[:place]) if number is not None]
        return [pair for pair in accepted if pair[1] + 7 > accepted[-1][1]]

    def ranges(self, part=(1, 1)):
        low, high = self.bounds(part)
        made = []
        for (file, answer), row in groupby(range(low, high), lambda place: (self.records[place][0], self.answers[place])):
            first, *_, last = [self.records[place][1] for place in row] * 2
            if answer:
                made.append({'file': file, 'first': first, 'last': last, 'offset': first * RECORD, 'number': answer})
        return made

    def page(self, names, part=(1, 1), table_name='table.bin', bias_name='bias.bin'):
        """The page of a run over files with these names."""
        low, high = self.bounds(part)
        products, answers = self.products_of(part), self.answers[low:high]
        return {
            'form': 1, 'version': contents(os.path.join(ROOT, 'VERSION')).decode().strip(),
            'table': {'name': table_name, 'sha256': sum_of(self.table)}, 'bias': {'name': bias_name, 'sha256': sum_of(self.bias)},
            'archive': [{'name': name, 'bytes': len(content), 'sha256': sum_of(content)} for name, content in zip(names, self.parts)],
            'part': {'number': part[0], 'of': part[1]}, 'before': self.reached(low), 'after': self.reached(high), 'records': high - low,
            'products': {'number': len(products) // PRODUCT, 'bytes': len(products), 'sha256': sum_of(products)},
            'refusals': {str(answer): answers.count(answer) for answer in sorted(set(answers)) if answer}, 'refused': self.ranges(part),
        }

    def counts(self):
        """The line of counts."""
        refused = [answer for answer in self.answers if answer]
        by_number = ', '.join(f'{refused.count(answer)} with {answer}' for answer in sorted(set(refused)))
        counted = f'records {len(self.answers)} products {self.answers.count(0)} refused {len(refused)}'
        return f'{counted}: {by_number}' if refused else counted


def one_run(table_bytes, bias_bytes, records):
    """The products and the lines of the two programs."""
    with tempfile.TemporaryDirectory(dir=MEMORY) as folder:
        put(os.path.join(folder, 'table.bin'), table_bytes)
        put(os.path.join(folder, 'bias.bin'), bias_bytes)
        products, lines = (
            subprocess.run([os.path.join(ROOT, 'target', 'bin', name)], cwd=folder, input=records, stdout=subprocess.PIPE,
                           stderr=subprocess.DEVNULL, check=True, timeout=PATIENCE).stdout for name in ('calibrate', 'listing'))
    return products, lines.decode().splitlines()


@functools.lru_cache(None)
def expected_of(*parts, table_seed=1):
    """The same, kept for further tests."""
    return Expected(table(table_seed), bias(), parts)


# ---- Runs of the command


WORDS = ('calibrate', '--table', 'table.bin', '--bias', 'bias.bin')


class Ran:
    """A run that has ended: its status (below 0 the signal that ended it), standard output, and the lines of standard error."""

    def __init__(self, status, output, errors):
        self.status, self.output, self.errors = status, output, errors
        self.lines = errors.decode('utf-8', 'surrogateescape').splitlines() if errors is not None else []

    def __repr__(self):
        return f'status {self.status}, {len(self.output or b"")} bytes of output, {self.errors}'


def sounder(*words, program=COMMAND, **options):
    """Runs the command."""
    given = {'stdin': subprocess.DEVNULL, 'stdout': subprocess.PIPE, 'stderr': subprocess.PIPE, 'timeout': PATIENCE, **options}
    if 'input' in given:
        del given['stdin']
    ran = subprocess.run([*program, *words], **given)
    return Ran(ran.returncode, ran.stdout, ran.stderr)


def start(*words, program=COMMAND, **options):
    """Starts the command, as a session of its own."""
    given = {'stdin': subprocess.DEVNULL, 'stdout': subprocess.DEVNULL, 'stderr': subprocess.PIPE, 'start_new_session': True, **options}
    return subprocess.Popen([*program, *words], **given)


def ended(process):
    """Waits for a run to end."""
    output, errors = process.communicate(timeout=PATIENCE)
    return Ran(process.returncode, output, errors)


def prepared(lines):
    """The command as a process that first runs these lines of Python, which close streams or set limits and signals."""
    return [sys.executable, '-ISc', 'import os, resource, signal, sys\nfor number in (signal.SIGPIPE, signal.SIGXFSZ):\n'
            f'    signal.signal(number, signal.SIG_DFL)\n{lines}\nos.execv(sys.argv[1], sys.argv[1:])', *COMMAND]


def changed_command(change):
    """The command with lines of Python that are run before it, in which `files` is the package's module."""
    return [sys.executable, '-ISc', f'import os, random, sys, time\nsys.dont_write_bytecode = True\nsys.path.insert(0, {PACKAGE!r})\n'
            f'from sounder import archive, command, files\n{change}\nsys.exit(command.main())']


# A disk on which a name takes its time.
SLOW_NAMES = '''
def slow(call):
    def slowly(*words, **options):
        time.sleep(random.uniform(0, 0.03))
        return call(*words, **options)
    return slowly
os.rename, os.replace, os.link, os.unlink = map(slow, (os.rename, os.replace, os.link, os.unlink))'''


def here(*words, piece=None, folder=None):
    """Runs the command in this process, with pieces of so many records; answers its status and what it says."""
    said, before = [], os.getcwd()
    with mock.patch.object(command, 'say', said.append), mock.patch.object(archive, 'PIECE', piece or archive.PIECE):
        try:
            if folder:
                os.chdir(folder)
            return command.run(list(words)), said
        except SystemExit as end:
            return end.code, said
        finally:
            files.drop_unfinished()
            os.chdir(before)


def wait_until(holds, what):
    """Waits until something holds, which it does soon."""
    end = time.monotonic() + PATIENCE
    while not (found := holds()):
        if time.monotonic() > end:
            raise AssertionError(f'this does not come: {what}')
        time.sleep(0.002)
    return found


def session_of(process):
    """The processes, also those that nobody has waited for yet, of the session that a run began."""
    found = []
    for name in filter(str.isdigit, os.listdir('/proc')):
        with contextlib.suppress(OSError):
            # The session stands behind the name in brackets, the state, the parent and the group.
            if int(contents(f'/proc/{name}/stat').rpartition(b')')[2].split()[3]) == process.pid:
                found.append(int(name))
    return found


class Case(unittest.TestCase):
    """A test in a folder of its own, with a table and a bias file."""

    def setUp(self):
        self.folder = tempfile.mkdtemp(dir=MEMORY, prefix='sounder-test-')
        self.addCleanup(shutil.rmtree, self.folder, ignore_errors=True)
        self.put('table.bin', table())
        self.put('bias.bin', bias())
        # A run in this process that waits for ever ends too.
        self.addCleanup(signal.signal, signal.SIGALRM, signal.signal(signal.SIGALRM, self._too_long))
        self.addCleanup(signal.alarm, signal.alarm(PATIENCE))

    @staticmethod
    def _too_long(*_):
        raise AssertionError(f'this takes longer than {PATIENCE} s')

    def at(self, name):
        return os.path.join(self.folder, name)

    def put(self, name, content):
        put(self.at(name), content)
        return name

    def contents(self, name):
        return contents(self.at(name))

    def page(self, name):
        return json.loads(self.contents(name + '.json'))

    def here(self, *words, piece=None):
        return here(*words, piece=piece, folder=self.folder)

    def sounder(self, *words, **options):
        return sounder(*words, cwd=self.folder, **options)

    def start(self, *words, **options):
        """Starts the command; what is left of it when the test ends is killed."""
        process = start(*words, cwd=self.folder, **options)
        self.addCleanup(self._end, process)
        return process

    @staticmethod
    def _end(process):
        # Of one that has ended already the number may be another's by now.
        if process.poll() is None:
            os.killpg(process.pid, signal.SIGKILL)
        for stream in (process.stdin, process.stdout, process.stderr):
            if stream:
                with contextlib.suppress(OSError):
                    stream.close()
        process.wait()

    def names(self):
        return sorted(os.listdir(self.folder))

    def unfinished(self):
        """Files that a run has not named yet."""
        return [name for name in self.names() if re.fullmatch(r'\.sounder-.*\.part', name)]

    @contextlib.contextmanager
    def unchanged(self, but=()):
        """What happens inside changes no file of the folder: no name, no kind, no byte."""
        def seen():
            found = {}
            for name in set(self.names()) - set(but):
                status = os.lstat(self.at(name))
                kept = self.contents(name) if os.path.isfile(self.at(name)) else None
                found[name] = (status.st_mode, status.st_ino, status.st_rdev, kept)
            return found
        before = seen()
        yield
        self.assertEqual(seen().keys(), before.keys())
        self.assertEqual(seen(), before)

    def assert_whole(self, out, expected, names, part=(1, 1), **page):
        """The products and the page are those of one run, and nothing is left that is unfinished."""
        self.assertTrue(self.contents(out) == expected.products_of(part), f'{out} has other products')
        self.assertEqual(self.page(out), expected.page(names, part, **page))
        self.assertEqual(self.unfinished(), [])

    def assert_belong(self, out, *expected):
        """Products and page are whole, and of one and the same run; answers which of the runs it is."""
        page, products = self.page(out), self.contents(out)
        self.assertEqual((page['products']['bytes'], page['products']['sha256']), (len(products), sum_of(products)))
        found = [one for one in expected if sum_of(one.table) == page['table']['sha256'] and one.products == products]
        self.assertEqual(len(found), 1, 'the products are those of no run')
        return found[0]
