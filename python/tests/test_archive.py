"""Archives in pieces and in parts: the products, refusals and pages of one run."""
import os
import random
import subprocess
from unittest import mock

from sounder.library import Library

from . import common
from .common import PRODUCT, RECORD, Case, Expected, drawn, expected_of, gapped, one_run, plain, record, sample, sum_of

SIZES = (1, 2, 7, 20, 512)
JOBS = ('1', '2', '5')


class Generator(Case):
    """The archives tell a right command from a wrong one."""

    def test_bias_and_shelves_count(self):
        expected = expected_of(gapped())
        self.assertNotEqual(one_run(common.table(), sample('bias.bin'), gapped())[0], expected.products)
        still = b''.join(gapped()[at:at + RECORD - 16] + bytes(16) for at in range(0, 60 * RECORD, RECORD))
        self.assertNotEqual(one_run(common.table(), common.bias(), still)[0], expected.products)
        self.assertNotEqual(expected_of(gapped(), table_seed=2).products, expected.products)

    def test_every_age_counts(self):
        """A record with only six of the seven numbers before it has another product, whichever is missing."""
        before, own = [record(number) for number in range(100, 107)], record(107)
        product = one_run(common.table(), common.bias(), b''.join(before) + own)[0][-PRODUCT:]
        for missing in range(7):
            fewer = b''.join(before[:missing] + before[missing + 1:])
            self.assertNotEqual(one_run(common.table(), common.bias(), fewer + own)[0][-PRODUCT:], product, missing)

    def test_every_answer_occurs(self):
        answers = set(expected_of(gapped()).answers)
        self.assertEqual(answers, {0, 4, 5, 6})


class Pieces(Case):
    """Whatever the size of a piece and the number of threads, the bytes are those of one run."""

    def calibrated(self, parts, piece, jobs, expected):
        names = [self.put(f'scans-{number}.bin', part) for number, part in enumerate(parts)]
        for name in ('out', 'out.json'):
            if os.path.exists(self.at(name)):
                os.remove(self.at(name))
        status, said = self.here(*common.WORDS, '--jobs', jobs, '-o', 'out', *names, piece=piece)
        self.assertEqual((status, said), (0, [f'out: {expected.counts()}']))
        self.assert_whole('out', expected, names)

    def all_sizes(self, *parts):
        expected = expected_of(*parts)
        for piece in SIZES:
            for jobs in JOBS:
                with self.subTest(piece=piece, jobs=jobs):
                    self.calibrated(parts, piece, jobs, expected)
        return expected

    def test_gaps_and_refusals(self):
        self.assertEqual(self.all_sizes(gapped()).counts(), 'records 61 products 52 refused 9: 1 with 4, 6 with 5, 2 with 6')

    def test_more_records_than_a_piece_has(self):
        expected = expected_of(gapped(1_200, 2))
        for jobs in JOBS:
            self.calibrated([gapped(1_200, 2)], None, jobs, expected)

    def test_several_files(self):
        """The records of one file, in several: where a file ends within a record, both pieces of it are refused."""
        whole = gapped()
        for cuts in ((7 * RECORD, 30 * RECORD), (0, 0, RECORD), (7 * RECORD - 1, 31 * RECORD - 100, 50 * RECORD + 1)):
            ends = [*cuts, len(whole)]
            with self.subTest(cuts=cuts):
                self.all_sizes(*(whole[begin:end] for begin, end in zip([0, *cuts], ends)))

    def test_files_with_rests(self):
        rests = [content[:count * RECORD + rest] for content, count, rest in ((plain(20), 8, 1), (plain(20, 108), 3, RECORD - 1),
                                                                            (plain(20, 111), 0, 50), (plain(20, 111), 9, 0))]
        self.assertEqual(self.all_sizes(*rests).answers, [0] * 8 + [4] + [0] * 3 + [4] + [4] + [0] * 9)

    def test_one_file_cut_between_records_is_the_same_archive(self):
        whole, cut = expected_of(plain(30)), expected_of(plain(12), plain(18, 112))
        self.assertEqual(cut.products, whole.products)
        self.all_sizes(plain(12), plain(18, 112))

    def test_the_same_file_twice(self):
        self.put('scans.bin', plain(9))
        status, said = self.here(*common.WORDS, '-o', 'out', 'scans.bin', 'scans.bin', piece=7)
        self.assertEqual((status, said), (0, ['out: records 18 products 9 refused 9: 9 with 6']))
        self.assert_whole('out', expected_of(plain(9), plain(9)), ['scans.bin', 'scans.bin'])

    def test_nothing_and_little(self):
        for parts in ([b''], [b'', b''], [plain(1)], [b'x'], [b'', plain(1)[:100], b''], [plain(3)[:-1]]):
            with self.subTest(sizes=[len(part) for part in parts]):
                self.all_sizes(*parts)

    def test_many_with_one_number(self):
        """More records than the overlap has room for have a number that reaches the next piece."""
        numbers = [1, 2, 3, 4, 5, 6, 7] + [8] * 300 + [9, 10, 9, 9, 9, 9, 9, 9, 9, 9, 11] + [12] * 40 + [13, 14]
        self.all_sizes(b''.join(record(number, at) for at, number in enumerate(numbers)))

    def test_numbers_near_the_last(self):
        last = common.LAST_NUMBER
        numbers = [last - 9, last - 8, last - 2, last - 1, last, last, last - 3, last, 0, 1, last]
        self.assertEqual(self.all_sizes(b''.join(record(number, at) for at, number in enumerate(numbers))).answers, [0] * 5 + [6] * 6)

    def test_numbers_that_fall_at_a_boundary(self):
        for numbers in ([20, 9, 10, 25, 21, 24, 26], [9, 8, 7, 6, 5, 4, 3, 2, 1, 10, 2, 11], [5, 9, 7, 8, 10, 16, 17, 12, 18, 11, 19, 20],
                        [100, 1, 2, 3, 101, 102, 50, 103, 104, 105, 106, 107, 108]):
            self.all_sizes(b''.join(record(number, at) for at, number in enumerate(numbers)))

    def test_a_wrong_tag_hides_a_number(self):
        """The number of a record with a wrong tag counts for nothing, also at the end of a piece."""
        numbers = [1, 2, 3, 4, 5, 6, 900, 7, 8, 9, 10, 11, 12, 901, 13, 14]
        made = [record(number, at, wrong_tag=at % 7 == 6) for at, number in enumerate(numbers)]
        self.assertEqual(self.all_sizes(b''.join(made)).answers, [5 if at % 7 == 6 else 0 for at in range(16)])

    def test_drawn_archives(self):
        for seed in range(150):
            rng = random.Random(seed)
            parts = drawn(rng)
            piece, jobs = rng.choice([1, 2, 3, 5, 7, 8, 20, 64]), rng.choice(JOBS)
            with self.subTest(seed=seed, piece=piece, jobs=jobs):
                self.calibrated(parts, piece, jobs, Expected(common.table(), common.bias(), parts))

    def test_samples(self):
        for folder, counts in (('.', 'records 4 products 2 refused 2: 1 with 4, 1 with 6'), ('shelves', 'records 3 products 3 refused 0')):
            table, bias, feeds = (os.path.join(common.ROOT, 'samples', folder, name) for name in ('table.bin', 'bias.bin', 'feeds.bin'))
            status, said = self.here('calibrate', '--table', table, '--bias', bias, '-o', 'out', feeds)
            self.assertEqual((status, said), (0, [f'out: {counts}']))
            self.assertEqual(self.contents('out'), sample(folder + '/products.bin'))

    def test_the_page_is_these_bytes(self):
        self.put('table.bin', sample('table.bin'))
        self.put('bias.bin', sample('bias.bin'))
        self.put('feeds.bin', sample('feeds.bin'))
        self.assertEqual(self.here(*common.WORDS, '-o', 'out', 'feeds.bin')[0], 0)
        self.assertEqual(self.contents('out.json').decode('ascii'), '''{
 "form": 1,
 "version": "%s",
 "table": {"name": "table.bin", "sha256": "ca69ea90f36cabc7d6faff9838717b6d97aed6e5b17d646ffa5501a18a59a83e"},
 "bias": {"name": "bias.bin", "sha256": "e4f8a9545edccdfd1e4e33d29cd6a0ddbfde83554f20b95dc4414ad3934be555"},
 "archive": [{"name": "feeds.bin", "bytes": 14044, "sha256": "a528d0502bcbd7b2bf7371b258fa0fff8d6330e953018d25f0f0163382a0f214"}],
 "part": {"number": 1, "of": 1},
 "before": [],
 "after": [[0, 7], [2, 8]],
 "records": 4,
 "products": {"number": 2, "bytes": 17412, "sha256": "%s"},
 "refusals": {"4": 1, "6": 1},
 "refused": [
  {"file": 0, "first": 1, "last": 1, "offset": 4648, "number": 6},
  {"file": 0, "first": 3, "last": 3, "offset": 13944, "number": 4}]
}
''' % (common.contents(os.path.join(common.ROOT, 'VERSION')).decode().strip(), sum_of(sample('products.bin'))))


class Streams(Case):
    """Records from standard input, products to standard output."""

    def test_standard_input_and_output(self):
        expected = expected_of(gapped())
        for words, given in (((), {'input': gapped()}), (('-',), {'input': gapped()}), (('-o', '-', '-'), {'input': gapped()}),
                             ((self.put('scans.bin', gapped()),), {})):
            ran = self.sounder(*common.WORDS, *words, **given)
            self.assertEqual(ran.status, 0, ran)
            self.assertEqual(ran.output, expected.products)
            name = 'scans.bin' if words == ('scans.bin',) else 'standard input'
            self.assertEqual(ran.lines, [self.line(name, own) for own in expected.ranges()] + [f'standard output: {expected.counts()}'])
            self.assertEqual(self.names(), ['bias.bin', 'scans.bin', 'table.bin'])

    @staticmethod
    def line(name, own):
        records = f'record {own["first"]}' if own['first'] == own['last'] else f'records {own["first"]} to {own["last"]}'
        return f'{name}: {records} offset {own["offset"]} refused {own["number"]}'

    def test_between_files(self):
        """Standard input stands where it is named, and its name in the page is -."""
        parts = gapped(), plain(8, 2_000), plain(8, 2_008)
        names = [self.put('first.bin', parts[0]), '-', self.put('last.bin', parts[2])]
        ran = self.sounder(*common.WORDS, '-o', 'out', *names, input=parts[1])
        self.assertEqual(ran.status, 0, ran)
        self.assert_whole('out', expected_of(*parts), names)

    def test_behind_the_beginning(self):
        """A file as standard input begins where it stands."""
        self.put('scans.bin', b'head' + gapped())
        with open(self.at('scans.bin'), 'rb', buffering=0) as scans:
            scans.seek(4)
            ran = self.sounder(*common.WORDS, '-o', 'out', '-', stdin=scans)
        self.assertEqual(ran.status, 0, ran)
        self.assert_whole('out', expected_of(gapped()), ['-'])

    def test_a_pipe_that_pauses(self):
        """Products of what has come do not wait for more."""
        process = self.start(*common.WORDS, stdin=subprocess.PIPE, stdout=subprocess.PIPE)
        self.addCleanup(process.stdout.close)
        for number in range(3):
            process.stdin.write(plain(1, number + 1))
            process.stdin.flush()
            self.assertEqual(int.from_bytes(process.stdout.read(PRODUCT)[3:7], 'big'), number + 1)
        process.stdin.close()
        self.assertEqual(process.wait(common.PATIENCE), 0)

    def test_a_pipe_in_small_pieces(self):
        """Records are told apart by their length, however they arrive."""
        os.mkfifo(self.at('fifo'))
        process = self.start(*common.WORDS, '-o', 'out', 'fifo')
        rng, given, at = random.Random(5), gapped(), 0
        with open(self.at('fifo'), 'wb', buffering=0) as fifo:
            while at < len(given):
                size = rng.choice([1, 3, 4_647, 4_648, 4_649, 9_000])
                fifo.write(given[at:at + size])
                at += size
        self.assertEqual(common.ended(process).status, 0)
        self.assert_whole('out', expected_of(gapped()), ['fifo'])

    def test_more_files_than_can_be_open(self):
        names = [self.put(f'scan-{number}', record(number)) for number in range(1, 101)]
        few = common.prepared('resource.setrlimit(resource.RLIMIT_NOFILE, (40, 40))')
        ran = self.sounder(*common.WORDS, '-o', 'out', *names, program=few)
        self.assertEqual(ran.status, 0, ran)
        self.assert_whole('out', expected_of(*(record(number) for number in range(1, 101))), names)


class Damage(Case):
    """README's damaged archives, of twenty records in which the one at 46480 has the fault, and what the mended ones give."""

    def damaged(self, content, first, number, last, start):
        self.put('scans.bin', content)
        self.assertEqual(self.here(*common.WORDS, '-o', 'out', 'scans.bin', piece=6)[0], 0)
        page = self.page('out')
        refused = [(own['first'], own['last'], own['offset'], own['number']) for own in page['refused']]
        rest = [(19, 19, 19 * RECORD, last)] if last != number else []
        self.assertEqual(refused, [(first, 19 - len(rest), first * RECORD, number)] + rest)
        self.put('mended.bin', content[:46_480] + content[start:])
        self.assertEqual(self.here(*common.WORDS, '-o', 'mended', 'mended.bin', piece=6)[0], 0)
        nineteen = plain(20)[:46_480] + plain(20)[51_128:]
        self.assertEqual(self.contents('mended'), expected_of(nineteen).products)

    def test_a_lost_byte(self):
        """A byte of a shelf temperature, of an earth count and of a warm count."""
        for at, first in ((51_120, 11), (48_000, 10), (46_600, 10)):
            with self.subTest(at=at):
                self.damaged(plain(20)[:at] + plain(20)[at + 1:], first, 5, 4, 51_127)

    def test_a_number_too_high(self):
        content = plain(20)
        self.damaged(content[:46_483] + b'\xff\0\0\0' + content[46_487:], 11, 6, 6, 51_128)


class WrongAnswers(Case):
    """A library that does not do what it should: told with the record, and nothing is left."""

    def answered(self, change):
        """A run with a library whose answers are changed where products are asked for."""
        def feed_all(library, table, bias, records, lengths, buffers, rooms, answers, call=Library.feed_all):
            call(library, table, bias, records, lengths, buffers, rooms, answers)
            if len(rooms) > 1 and all(room == PRODUCT for room in rooms):
                change(answers)
        self.put('scans.bin', plain(30))
        with mock.patch.object(Library, 'feed_all', feed_all), self.unchanged():
            status, said = self.here(*common.WORDS, '--jobs', '1', '-o', 'out', 'scans.bin', piece=10)
        self.assertEqual((status, len(said)), (1, 1), said)
        return said[0]

    def test_answers_that_are_none(self):
        for answer in (7, 9, 255):
            def change(answers):
                answers[3] = answer
            self.assertEqual(self.answered(change), f'sounder: scans.bin: record 3 offset 13944: the library answers {answer}')

    def test_another_last_record(self):
        """A record that is accepted in one piece and refused where the next one begins."""
        def change(answers):
            if len(answers) > 10:
                answers[6] = 6
        self.assertTrue(self.answered(change).startswith('sounder: scans.bin: record 10 offset 46480: the records fed before it are '))


class Large(Case):
    def test_offsets_behind_two_gigabytes(self):
        """Accepted records and refusals behind 2^31 bytes, in an archive that takes no room: zeros are refused with 5."""
        places = [0, 1, 462_000, *range(462_020, 462_040), 462_600, 462_601]
        self.assertTrue(places[3] * RECORD < 2**31 < places[-3] * RECORD)
        with open(self.at('scans.bin'), 'wb') as file:
            for number, place in enumerate(places):
                file.seek(place * RECORD)
                file.write(record(number + 1))
            file.truncate(462_605 * RECORD + 17)
        with open(self.at('errors'), 'wb') as errors:
            process = self.start(*common.WORDS, '--jobs', '4', '-o', 'out', 'scans.bin', stderr=errors)
            _, status, used = os.wait4(process.pid, 0)
            process.returncode = os.waitstatus_to_exitcode(status)
        self.assertEqual(process.returncode, 0, self.contents('errors'))
        products = one_run(common.table(), common.bias(), b''.join(record(number + 1) for number in range(len(places))))[0]
        self.assertTrue(self.contents('out') == products)
        page, begin, ranges = self.page('out'), 0, []
        for place in [*places, 462_605]:
            if place > begin:
                ranges.append({'file': 0, 'first': begin, 'last': place - 1, 'offset': begin * RECORD, 'number': 5})
            begin = place + 1
        rest = {'file': 0, 'first': 462_605, 'last': 462_605, 'offset': 462_605 * RECORD, 'number': 4}
        self.assertEqual(page['refused'], ranges + [rest])
        self.assertEqual((page['records'], page['products']['number']), (462_606, len(places)))
        self.assertEqual(page['archive'][0]['bytes'], 462_605 * RECORD + 17)
        self.assertLess(used.ru_maxrss, 200_000, 'so many kilobytes of memory')
