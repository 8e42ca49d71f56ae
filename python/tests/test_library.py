"""Every function of the library through the package, against the numbers of docs/RULES.md, and every refusal."""
import ctypes
import mmap
import os
import re
import subprocess
import sys
import threading
import unittest
from array import array
from unittest import mock

from sounder import library
from sounder.library import Library, Missing, Refusal

from . import common
from .common import PRODUCT, RECORD, ROOT, Case, contents, expected_of, gapped, sample, sum_of

STATE = 12_576
VERSION = contents(os.path.join(ROOT, 'VERSION')).decode().strip()
# The bench thermometers: R_PAM, R0, alpha, delta, beta.
BENCH = (2_000_000, 2_000_000, 3_850_000, 1_500_000, 0)
BENCH_PRODUCT = '890d218f1c3b34ecc73994ec7d8c4c0f65d8fd15fa1d3ec1c3b8df3b961391b6'
FRESH_STATE = 'ccbaff48d56a3e591666d6cd0fb0560e1e3518a69341e8f494a5d5d61de16229'
BENCH_STATE = 'ac5b29f9f7f8cebc5a152d23c88abbbb2df80d00ae835064fff60b90158ac710'
# Of the count behind a temperature after the bench scan: docs/RULES.md, section 20.
COUNTS = {0: None, 11_165: None, 11_166: 10_000, 11_167: None, 11_276: None, 11_277: 10_001, 565_283: 14_999, 565_394: 15_000,
          565_395: None, 565_505: 15_001, 1_395_236: 22_500, 1_395_237: None, 16_777_216: None, 4_294_967_295: None}


class LibraryCase(unittest.TestCase):
    def setUp(self):
        self.library = Library()
        self.table, self.bias, self.scan = sample('table.bin'), sample('bias.bin'), sample('scans.bin')

    def state(self, scan=True):
        """A fresh state, or the one after the bench scan."""
        state = bytearray(STATE)
        self.library.fresh(self.table, self.bias, state)
        if scan:
            self.library.feed(state, self.scan, bytearray(PRODUCT))
        return state

    def refused(self, operation, number, call, *words):
        """The call is refused, and no buffer among its words is changed."""
        before = [bytes(word) for word in words if isinstance(word, (bytes, bytearray))]
        with self.assertRaises(Refusal) as raised:
            call(*words)
        refusal = raised.exception
        self.assertEqual((refusal.operation, refusal.number), (operation, number))
        self.assertEqual(refusal.words, library.WORDS[number])
        self.assertEqual(str(refusal), f'{operation} is refused with {number}: {refusal.words}')
        self.assertEqual([bytes(word) for word in words if isinstance(word, (bytes, bytearray))], before)

    def fed(self, records, lengths=None, rooms=None, answers=None, table=None, bias=None, buffers=None):
        """One call of feed_all on records one after the other; answers the answers and the buffers."""
        lengths = array('I', [RECORD] * (len(records) // RECORD)) if lengths is None else lengths
        rooms = array('I', [PRODUCT] * len(lengths)) if rooms is None else rooms
        buffers = bytearray(sum(rooms)) if buffers is None else buffers
        answers = bytearray(len(lengths)) if answers is None else answers
        self.library.feed_all(table or self.table, bias or self.bias, records, lengths, buffers, rooms, answers)
        return list(answers), bytes(buffers)


class Known(LibraryCase):
    """Known values."""

    def test_constants(self):
        header = contents(os.path.join(ROOT, 'include', 'sounder.h')).decode()
        for name, value in re.findall(r'SOUNDER_([A-Z_]+) = ([0-9]+)', header):
            self.assertEqual(getattr(library, name), int(value), name)
        self.assertEqual(library.VERSION_NUMBER, int(re.search('SOUNDER_VERSION_NUMBER ([0-9]+)', header).group(1)))

    def test_every_function_is_there(self):
        header = re.sub(r'/\*.*?\*/', '', contents(os.path.join(ROOT, 'include', 'sounder.h')).decode(), flags=re.DOTALL)
        names = re.findall(r'\bsounder_(\w+)\(', header)
        self.assertIn('count_behind', names)
        for name in names:
            self.assertTrue(callable(getattr(self.library, name)), name)

    def test_version_and_state_size(self):
        self.assertEqual(library.version_words(self.library.version()), VERSION)
        self.assertEqual(self.library.state_size(), STATE)

    def test_open(self):
        self.assertIsNone(self.library.open(self.table))
        self.assertIsNone(self.library.open_bias(self.bias))

    def test_thermometer(self):
        for count, t in ((20_000, 0), (20_079, 4_140)):
            self.assertEqual(self.library.thermometer(*BENCH, 20_000, 0, count), t)
        # Each of the eight numbers has its own place.
        for words, t in (((*BENCH, 20_000, 0, 19_000), -52_310),
                         ((4_000_000, 3_999_999, 5_000_000, 2_000_000, 500_000, 65_535, 7, 60_000), -67_610),
                         ((1_000, 1_001, 3_000_000, 0, 0, 30_000, 20_000, 29_000), -137_761),
                         ((2_000_000, 2_000_000, 3_908_300, 1_480_000, 110_000, 50_000, 100, 41_000), -184_989)):
            self.assertEqual(self.library.thermometer(*words), t, words)

    def test_feed_all(self):
        answers, product = self.fed(self.scan)
        self.assertEqual((answers, sum_of(product)), ([0], BENCH_PRODUCT))
        feeds = sample('feeds.bin')
        answers, products = self.fed(feeds, array('I', [RECORD] * 3 + [100]))
        self.assertEqual(answers, [0, 6, 0, 4])
        self.assertEqual(products[:PRODUCT] + products[2 * PRODUCT:3 * PRODUCT], sample('products.bin'))
        self.assertEqual(products[PRODUCT:2 * PRODUCT] + products[3 * PRODUCT:], bytes(2 * PRODUCT))

    def test_feed_all_of_an_archive(self):
        expected = expected_of(gapped())
        answers, buffers = self.fed(gapped(), array('I', [RECORD] * 60 + [100]), table=common.table(), bias=common.bias())
        self.assertEqual(answers, expected.answers)
        products = [buffers[at * PRODUCT:(at + 1) * PRODUCT] for at, answer in enumerate(answers) if answer == 0]
        self.assertEqual(b''.join(products), expected.products)

    def test_feed_all_of_nothing(self):
        self.assertEqual(self.fed(b'', array('I')), ([], b''))

    def test_states(self):
        self.assertEqual(sum_of(self.state(scan=False)), FRESH_STATE)
        state, product = self.state(scan=False), bytearray(b'x' * (PRODUCT + 3))
        self.assertIsNone(self.library.feed(state, self.scan, product))
        self.assertEqual(sum_of(state), BENCH_STATE)
        self.assertEqual((sum_of(product[:PRODUCT]), product[PRODUCT:]), (BENCH_PRODUCT, b'xxx'))

    def test_states_go_on(self):
        """Through states a run gives what one call gives, and what is behind a state stays."""
        expected, state, products = expected_of(gapped()), bytearray(STATE) + b'behind', b''
        self.library.fresh(common.table(), common.bias(), state)
        for at, answer in enumerate(expected.answers):
            one, record = bytearray(PRODUCT), gapped()[at * RECORD:(at + 1) * RECORD]
            if answer:
                self.refused('the record', answer, self.library.feed, state, record, one)
            else:
                self.library.feed(state, record, one)
                products += one
        self.assertEqual(products, expected.products)
        self.assertEqual(state[STATE:], b'behind')

    def test_counts_behind(self):
        state = self.state()
        for channel in (1, 15, 16, 22):
            for wanted, count in COUNTS.items():
                self.assertEqual(self.library.count_behind(state, channel, wanted), count, (channel, wanted))
        self.assertEqual(sum_of(state), BENCH_STATE)

    def test_threads_share_a_library(self):
        expected, found = self.fed(gapped(), array('I', [RECORD] * 60 + [100])), []
        threads = [threading.Thread(target=lambda: found.append(self.fed(gapped(), array('I', [RECORD] * 60 + [100])))) for _ in range(8)]
        for thread in threads:
            thread.start()
        for thread in threads:
            thread.join()
        self.assertEqual(found, [expected] * 8)


class Refusals(LibraryCase):
    """Each refusal by its number; nothing is written."""

    def test_tables(self):
        for content, number in ((b'', 1), (self.table[:-1], 1), (self.table + b'\0', 1), (b'\0' + self.table[1:], 2),
                                (self.table[:741] + b'\x12' + self.table[742:], 2), (sample('refused/table.bin'), 3),
                                (sample('refused_shelves/table.bin'), 3)):
            self.refused('the table', number, self.library.open, content)
            self.refused('the table', number, self.library.fresh, content, b'', bytearray(STATE))
            words = (content, b'', self.scan, array('I', [RECORD]), bytearray(PRODUCT), array('I', [PRODUCT]), bytearray(b'\7'))
            self.refused('the table', number, self.library.feed_all, *words)

    def test_bias_files(self):
        for content, number in ((b'', 1), (self.bias[:-1], 1), (self.bias + b'\0', 1), (b'\0' + self.bias[1:], 2),
                                (sample('refused_bias/bias.bin'), 3)):
            self.refused('the bias file', number, self.library.open_bias, content)
            self.refused('the bias file', number, self.library.fresh, self.table, content, bytearray(STATE))
            self.refused('the bias file', number, self.library.fresh, self.table, content, bytearray(3))
            words = (self.table, content, self.scan, array('I', [RECORD]), bytearray(PRODUCT), array('I', [PRODUCT]), bytearray(b'\7'))
            self.refused('the bias file', number, self.library.feed_all, *words)

    def test_records(self):
        state, room = self.state(), bytearray(PRODUCT)
        for record, number in ((b'', 4), (self.scan[:-1], 4), (self.scan + b'\0', 4), (b'\0' + self.scan[1:], 5), (self.scan, 6)):
            self.refused('the record', number, self.library.feed, state, record, room)
            self.assertEqual(self.fed(self.scan + record, array('I', [RECORD, len(record)]))[0], [0, number])
        above = self.scan[:6] + b'\x08' + self.scan[7:]
        self.refused('the record', 7, self.library.feed, state, above, bytearray(PRODUCT - 1))
        self.refused('the record', 7, self.library.feed, state, above, bytearray())
        self.assertEqual(self.fed(self.scan, rooms=array('I', [PRODUCT - 1]))[0], [7])
        self.assertEqual(sum_of(state), BENCH_STATE)

    def test_thermometers(self):
        self.refused('the thermometer', 8, self.library.thermometer, 999, *BENCH[1:], 20_000, 0, 20_000)
        self.refused('the thermometer', 8, self.library.thermometer, *BENCH[:4], 500_001, 20_000, 0, 20_000)
        self.refused('the thermometer', 8, self.library.thermometer, *[2**32 - 1] * 5, 0, 0, 0)
        self.refused('the thermometer', 9, self.library.thermometer, *BENCH, 20_000, 20_000, 20_000)
        self.refused('the thermometer', 10, self.library.thermometer, *BENCH, 20_000, 0, 65_535)
        self.refused('the thermometer', 10, self.library.thermometer, *BENCH, 20_000, 5, 4)

    def test_counts(self):
        for channel in (0, 23, 2**32 - 1):
            self.refused('the count behind a temperature', 11, self.library.count_behind, self.state(), channel, 565_394)
        self.refused('the count behind a temperature', 12, self.library.count_behind, self.state(scan=False), 1, 565_394)
        state = bytearray(STATE)
        self.library.fresh(self.table, self.bias, state)
        self.library.feed(state, self.scan[:47] + bytes(176) + self.scan[223:], bytearray(PRODUCT))
        self.refused('the count behind a temperature', 12, self.library.count_behind, state, 1, 565_394)

    def test_states(self):
        self.refused('the state', 254, self.library.fresh, self.table, self.bias, bytearray(STATE - 1))
        self.refused('the state', 254, self.library.fresh, self.table, self.bias, bytearray())
        for state in (bytearray(), bytearray(STATE), self.state()[:-1], bytearray(b'1') + self.state()[1:]):
            self.refused('the state', 254, self.library.feed, state, self.scan, bytearray(PRODUCT))
            self.refused('the state', 254, self.library.count_behind, state, 1, 565_394)

    def test_feeds_that_are_not_made(self):
        """From where lengths, records or buffers end the answer is 255."""
        two = array('I', [RECORD, RECORD])
        records = self.scan + self.scan[:6] + b'\x08' + self.scan[7:]
        self.assertEqual(self.fed(records, two, answers=bytearray(4))[0], [0, 0, 255, 255])
        self.assertEqual(self.fed(records[:-1], two)[0], [0, 255])
        self.assertEqual(self.fed(records, two, array('I', [PRODUCT]))[0], [0, 255])
        self.assertEqual(self.fed(records, two, buffers=bytearray(2 * PRODUCT - 1))[0], [0, 255])
        self.assertEqual(self.fed(records, array('I', [2**32 - 1, RECORD]), array('I', [PRODUCT] * 2), buffers=bytearray(9))[0], [255, 255])

    def test_words(self):
        self.assertEqual(set(library.WORDS), {*range(1, 13), 254, 255})
        self.assertEqual(len(set(library.WORDS.values())), len(library.WORDS))
        for words in library.WORDS.values():
            self.assertTrue(words.isprintable() and words)
        self.assertEqual(str(Refusal('the table', 99)), 'the table is refused with 99: no answer of the rules')


class Buffers(LibraryCase):
    """Whatever has the buffer protocol serves; what is written stays within its buffer."""

    def readable(self, content):
        """The same bytes in buffers of every kind."""
        mapped = mmap.mmap(-1, len(content))
        mapped[:] = content
        wide = memoryview(bytearray(b'front' + content + b'behind'))
        yield content
        yield bytearray(content)
        yield memoryview(content)
        yield memoryview(bytearray(content))
        yield wide[5:5 + len(content)]
        yield wide.toreadonly()[5:5 + len(content)]
        yield memoryview(b'front' + content)[5:]
        yield mapped
        yield memoryview(mapped).toreadonly()
        yield array('B', content)
        yield (ctypes.c_uint8 * len(content)).from_buffer_copy(content)
        if len(content) % 4 == 0:
            yield array('i', content)
            yield memoryview(content).cast('B', (4, len(content) // 4))

    def test_what_is_read(self):
        for table in self.readable(self.table):
            self.assertIsNone(self.library.open(table))
        for bias in self.readable(self.bias):
            self.assertIsNone(self.library.open_bias(bias))
        for record in self.readable(self.scan):
            state, product = self.state(scan=False), bytearray(PRODUCT)
            self.library.feed(state, record, product)
            self.assertEqual((sum_of(product), sum_of(state)), (BENCH_PRODUCT, BENCH_STATE))
        for state in self.readable(bytes(self.state())):
            self.assertEqual(self.library.count_behind(state, 22, 565_394), 15_000)

    def test_a_file_that_is_mapped(self):
        with open(os.path.join(ROOT, 'samples', 'table.bin'), 'rb') as file, mmap.mmap(file.fileno(), 0, access=mmap.ACCESS_READ) as mapped:
            self.assertIsNone(self.library.open(mapped))

    def test_what_is_written(self):
        """Parts of larger buffers, between bytes that stay."""
        for kind in (bytearray, lambda content: memoryview(bytearray(content)), lambda content: array('B', content), self.mapped):
            state, product, answers = kind(b's' * (STATE + 20)), kind(b'p' * (PRODUCT + 20)), kind(b'a' * 30)
            part = slice(10, -10)
            self.library.fresh(self.table, self.bias, memoryview(state)[part])
            self.assertEqual(sum_of(memoryview(state)[part]), FRESH_STATE)
            self.library.feed_all(self.table, self.bias, self.scan, array('I', [RECORD]), memoryview(product)[part], array('I', [PRODUCT]),
                                  memoryview(answers)[10:11])
            self.assertEqual(sum_of(memoryview(product)[part]), BENCH_PRODUCT)
            self.assertEqual(bytes(memoryview(answers)), b'a' * 10 + b'\0' + b'a' * 19)
            memoryview(product)[part] = bytes(PRODUCT)
            self.library.feed(memoryview(state)[part], self.scan, memoryview(product)[part])
            self.assertEqual((sum_of(memoryview(product)[part]), sum_of(memoryview(state)[part])), (BENCH_PRODUCT, BENCH_STATE))
            for whole, byte in ((state, b's'), (product, b'p')):
                self.assertEqual(bytes(memoryview(whole)[:10]) + bytes(memoryview(whole)[-10:]), byte * 20)

    @staticmethod
    def mapped(content):
        made = mmap.mmap(-1, len(content))
        made[:] = content
        return made

    def test_a_buffer_is_free_again(self):
        state, product = self.state(scan=False), bytearray(PRODUCT)
        self.library.feed(state, bytearray(self.scan), product)
        state.append(0)
        product.clear()

    def test_lengths(self):
        for lengths in (array('I', [RECORD]), memoryview(array('I', [RECORD])).toreadonly(), memoryview(array('I', [1, RECORD, 2]))[1:2],
                        memoryview(RECORD.to_bytes(4, sys.byteorder)).cast('I')):
            rooms, answers = array('I', [PRODUCT]), bytearray(1)
            self.library.feed_all(self.table, self.bias, self.scan, lengths, bytearray(PRODUCT), rooms, answers)
            self.assertEqual(list(answers), [0])


class WrongKinds(LibraryCase):
    """What is no buffer or no number is told as such."""

    def test_what_is_read(self):
        sparse = memoryview(self.table * 2)[::2]
        for wrong in ('table.bin', None, 5, 1.5, [1, 2], [], {}, object(), sparse, type):
            for call in (self.library.open, self.library.open_bias, lambda word: self.library.fresh(word, self.bias, bytearray(STATE)),
                         lambda word: self.library.fresh(self.table, word, bytearray(STATE)),
                         lambda word: self.library.feed(self.state(), word, bytearray(PRODUCT)),
                         lambda word: self.library.count_behind(word, 1, 1)):
                with self.assertRaises((TypeError, ValueError)):
                    call(wrong)

    def test_what_is_written(self):
        state, one = bytes(self.state()), array('I', [RECORD])
        for wrong in (b'x' * STATE, memoryview(bytearray(STATE)).toreadonly(), 'x' * STATE, None, 5, memoryview(bytearray(2 * STATE))[::2],
                      self.table, b''):
            for call in (lambda: self.library.fresh(self.table, self.bias, wrong),
                         lambda: self.library.feed(wrong, self.scan, bytearray(PRODUCT)),
                         lambda: self.library.feed(bytearray(state), self.scan, wrong),
                         lambda: self.library.feed_all(self.table, self.bias, self.scan, one, wrong, one, bytearray(1)),
                         lambda: self.library.feed_all(self.table, self.bias, self.scan, one, bytearray(PRODUCT), one, wrong)):
                with self.assertRaises((TypeError, ValueError)):
                    call()
        self.assertEqual(sum_of(state), BENCH_STATE)

    def test_lengths(self):
        for wrong in ([RECORD], (RECORD,), bytes(4), array('H', [RECORD, 0]), array('Q', [RECORD]), array('i', [RECORD]), array('f', [1.0]),
                      None, RECORD, '4648', memoryview(array('I', [RECORD] * 4))[::2],
                      memoryview(array('I', [RECORD])).cast('B').cast('i')):
            for lengths, rooms in ((wrong, array('I', [PRODUCT])), (array('I', [RECORD]), wrong)):
                with self.assertRaises((TypeError, ValueError)):
                    self.library.feed_all(self.table, self.bias, self.scan, lengths, bytearray(PRODUCT), rooms, bytearray(1))

    def test_numbers(self):
        good = (*BENCH, 20_000, 0, 20_000)
        for at, most in enumerate([2**32] * 5 + [2**16] * 3):
            for wrong in (-1, most, 2**64, 1.5, 20_000.0, '5', b'5', None, [], float('nan')):
                with self.assertRaises((TypeError, ValueError), msg=(at, wrong)):
                    self.library.thermometer(*good[:at], wrong, *good[at + 1:])
        for wrong in (-1, 2**32, 2**64, 1.5, 1.0, '1', None, []):
            with self.assertRaises((TypeError, ValueError)):
                self.library.count_behind(self.state(), wrong, 565_394)
            with self.assertRaises((TypeError, ValueError)):
                self.library.count_behind(self.state(), 1, wrong)

    def test_numbers_of_other_kinds(self):
        """Whatever Python takes as a whole number is one."""
        class Number:
            def __index__(self):
                return 20_079
        self.assertEqual(self.library.thermometer(*BENCH, 20_000, 0, Number()), 4_140)
        self.assertEqual(self.library.count_behind(self.state(), True, 565_394), 15_000)

    def test_missing_words(self):
        for call in (self.library.open, self.library.fresh, self.library.feed, self.library.feed_all, self.library.thermometer):
            with self.assertRaises(TypeError):
                call()


class Missed(Case):
    """A library that is not there, is none, or is of another version."""

    def built(self, code, *options):
        """A small library of C."""
        self.put('small.c', code.encode())
        name = self.at(f'small-{len(self.names())}.so')
        subprocess.run([os.environ.get('CC', 'cc'), '-shared', '-fPIC', self.at('small.c'), *options, '-o', name], check=True)
        return name

    def missed(self, place, *words):
        with mock.patch.dict(os.environ, SOUNDER_LIBRARY=place), self.assertRaises(Missing) as raised:
            Library()
        for word in words:
            self.assertIn(word, str(raised.exception))
        self.assertTrue(str(raised.exception).isprintable())

    def test_none(self):
        self.missed(self.at('nowhere.so'), 'nowhere.so', 'cannot be loaded', 'SOUNDER_LIBRARY')
        for name in ('a\nsounder: b', 'a b', '\udcff', '-'):
            self.missed(self.at(name), 'cannot be loaded', self.folder)
        self.missed('libnone-of-this-name.so', 'libnone-of-this-name.so cannot be loaded')

    def test_no_library(self):
        self.missed(self.at('table.bin'), 'table.bin', 'cannot be loaded')
        self.missed(self.at(self.put('empty.so', b'')), 'empty.so', 'cannot be loaded')
        self.missed(self.folder, 'cannot be loaded')

    def test_another_library(self):
        self.missed(self.built('int other(void) { return 1; }'), 'is not the library of the sounder calibrator')
        # The version is right, and the functions are not there.
        alone = self.built(f'unsigned sounder_version(void) {{ return {library.VERSION_NUMBER}; }}')
        self.missed(alone, 'is not the library of the sounder calibrator')

    def test_another_version(self):
        for number, words in ((50_909, '5.9.9'), (70_000, '7.0.0'), (0, '0.0.0'), (4_294_967_295, '429496.72.95')):
            self.missed(self.built(f'unsigned sounder_version(void) {{ return {number}u; }}'), f'is version {words}', f'needs {VERSION}')
        later = library.VERSION_NUMBER + 1
        with mock.patch.object(library, 'VERSION_NUMBER', later), self.assertRaises(Missing) as raised:
            Library()
        self.assertIn(f'is version {VERSION}, and this package needs {library.version_words(later)}', str(raised.exception))

    def test_a_later_version_serves(self):
        folder = os.path.join(ROOT, 'target', 'lib')
        options = '-L' + folder, '-Wl,--no-as-needed', '-lstation', '-Wl,-rpath,' + folder
        name = self.built('unsigned sounder_version(void) { return 60207u; }', *options)
        with mock.patch.dict(os.environ, SOUNDER_LIBRARY=name):
            self.assertEqual(Library().version(), 60_207)
            self.assertIsNone(Library().open(sample('table.bin')))

    def test_the_named_one_alone(self):
        """Where SOUNDER_LIBRARY names one, no other is taken; where it is empty, that of the checkout is."""
        ran = common.sounder('--version', env={**os.environ, 'SOUNDER_LIBRARY': self.at('nowhere.so')})
        self.assertEqual((ran.status, ran.output), (1, b''))
        self.assertEqual(len(ran.lines), 1, ran)
        self.assertTrue(ran.lines[0].startswith('sounder: '), ran)
        self.assertIn('nowhere.so', ran.lines[0])
        ran = common.sounder('--version', env={**os.environ, 'SOUNDER_LIBRARY': ''})
        self.assertEqual((ran.status, ran.output), (0, f'sounder {VERSION}\n'.encode()))
