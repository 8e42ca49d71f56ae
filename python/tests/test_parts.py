"""Parts of an archive and how they are joined; results that are there already."""
import json
import os
import random

from . import common
from .common import PRODUCT, RECORD, Case, Expected, contents, drawn, expected_of, gapped, plain, put, record, sum_of


class PartsCase(Case):
    def made(self, of, names, out='part', piece=None, jobs='2'):
        """All parts of an archive; answers their names."""
        outs = []
        for number in range(1, of + 1):
            outs.append(f'{out}-{number}')
            status, said = self.here(*common.WORDS, '--jobs', jobs, '--part', f'{number}/{of}', '-o', outs[-1], *names, piece=piece)
            self.assertEqual(status, 0, said)
        return outs

    def joins(self, parts, out='joined'):
        status, said = self.here('join', '-o', out, *parts)
        self.assertEqual(status, 0, said)
        return said


class Joined(PartsCase):
    """Products and page of joined parts are those of one run, byte for byte."""

    def same_in_parts(self, contents_of, parts, piece=None, jobs='2'):
        names = [self.put(f'scans-{number}.bin', content) for number, content in enumerate(contents_of)]
        expected = Expected(common.table(), common.bias(), contents_of)
        self.assertEqual(self.here(*common.WORDS, '-o', 'whole', *names)[0], 0)
        self.assert_whole('whole', expected, names)
        for of in parts:
            with self.subTest(of=of, piece=piece, jobs=jobs):
                outs = self.made(of, names, piece=piece, jobs=jobs)
                for number, out in enumerate(outs, 1):
                    self.assert_whole(out, expected, names, (number, of))
                said = self.joins(outs)
                self.assertEqual(said, [f'joined: {expected.counts()}'])
                self.assertTrue(self.contents('joined') == expected.products)
                self.assertEqual(self.contents('joined.json'), self.contents('whole.json'))
                self.assertEqual(self.unfinished(), [])

    def test_parts_one_to_nine(self):
        self.same_in_parts([gapped()], range(1, 10))

    def test_small_pieces(self):
        self.same_in_parts([gapped()], (2, 5), piece=1)
        self.same_in_parts([gapped()], (3, 4), piece=7, jobs='5')

    def test_several_files(self):
        whole = gapped()
        self.same_in_parts([whole[:20 * RECORD + 5], b'', whole[20 * RECORD:40 * RECORD], whole[40 * RECORD:]], (1, 2, 3, 7))

    def test_more_parts_than_records(self):
        self.same_in_parts([plain(5) + b'rest'], (6, 7, 13))
        self.same_in_parts([b''], (1, 3))
        self.same_in_parts([b'rest'], (2,))

    def test_many_with_one_number(self):
        numbers = [1, 2, 3, 4, 5, 6, 7] + [8] * 40 + [9, 10, 9, 9, 9, 9, 9, 9, 9, 11, 12]
        self.same_in_parts([b''.join(record(number, at) for at, number in enumerate(numbers))], (2, 3, 9), piece=5)

    def test_refusals_go_on_over_a_boundary(self):
        """One row of refused records in all parts is one range of the joined page."""
        high = record(common.LAST_NUMBER - 1) + plain(30)
        self.same_in_parts([high], (2, 5))
        self.assertEqual(len(self.page('joined')['refused']), 1)
        # The same in two files, where a range ends with its file.
        self.same_in_parts([high, plain(30)], (2, 5))
        self.assertEqual(len(self.page('joined')['refused']), 2)

    def test_drawn_archives(self):
        for seed in range(1_000, 1_012):
            rng = random.Random(seed)
            self.same_in_parts(drawn(rng), (rng.randint(2, 9),), rng.choice([1, 3, 7, 64]), rng.choice(['1', '2', '5']))

    def test_a_part_with_nothing_before_it_that_was_accepted(self):
        self.same_in_parts([b''.join(record(number, at, wrong_tag=at < 20) for at, number in enumerate(range(40)))], (2, 4))

    def test_join_of_one(self):
        self.same_in_parts([gapped()], (1,))

    def test_joined_products_are_there_already(self):
        """What is joined is what one run makes, so that a run finds it whole."""
        self.put('scans.bin', gapped())
        self.joins(self.made(3, ['scans.bin']))
        with self.unchanged():
            status, said = self.here(*common.WORDS, '-o', 'joined', 'scans.bin')
        self.assertEqual((status, said), (0, [f'joined: {expected_of(gapped()).counts()}; it was there and is whole']))


class Refused(PartsCase):
    """What does not belong together is not joined: the message names the file, and nothing is left or changed."""

    def setUp(self):
        super().setUp()
        self.put('scans.bin', gapped())
        self.parts = self.made(3, ['scans.bin'])

    def refused(self, words, *parts, named=None, out='joined'):
        """The message begins with the file's name and has these words."""
        with self.unchanged():
            status, said = self.here('join', '-o', out, *parts)
        self.assertEqual((status, len(said)), (1, 1), said)
        self.assertIn(words, said[0])
        self.assertTrue(said[0].startswith(f'sounder: {named or parts[-1]}'), said)

    def edited(self, name, change):
        """Changes the page of a part, and answers what it was."""
        before = self.contents(name + '.json')
        page = json.loads(before)
        change(page)
        self.put(name + '.json', json.dumps(page).encode())
        return before

    def test_missing_parts(self):
        one, two, three = self.parts
        self.refused('part 2 of 3, and none follows', one, two)
        self.refused('this is part 3 of 3, and part 2 must stand here', one, three)
        self.refused('this is part 2 of 3, and part 1 must stand here', two, three, named=two)
        self.refused('this is part 3 of 3, and part 1 must stand here', three)
        os.remove(self.at(two))
        self.refused('No such file', one, two, three, named=two)
        os.remove(self.at(two + '.json'))
        self.refused('No such file', one, two, three, named=two + '.json')

    def test_order(self):
        one, two, three = self.parts
        self.refused('this is part 2 of 3, and part 1 must stand here', two, one, three, named=two)
        self.refused('this is part 3 of 3, and part 2 must stand here', one, three, two, named=three)

    def test_a_part_twice(self):
        one, two, three = self.parts
        self.refused('this is part 1 of 3, and part 2 must stand here', one, one, two, three, named=one)
        self.refused('this is part 3 of 3, and part 4 must stand here', one, two, three, three, named=three)

    def test_another_archive(self):
        """One byte of an archive of the same size is another, also where only another part has this byte."""
        one, two, three = self.parts
        for at in (4_000, 30 * RECORD + 4_000, 59 * RECORD + 4_000):
            content = bytearray(gapped())
            content[at] ^= 1
            self.put('scans.bin', bytes(content))
            other = self.made(3, ['scans.bin'], 'other')
            self.refused('its archive is another', one, other[1], three, named=other[1])
            self.refused('its archive is another', one, two, other[2], named=other[2])
            self.refused('its archive is another', other[0], two, three, named=two)
        self.put('scans.bin', gapped()[:-1])
        other = self.made(3, ['scans.bin'], 'other')
        self.refused('its archive is another', one, two, other[2], named=other[2])

    def test_other_tables_bias_files_and_versions(self):
        one, two, three = self.parts
        self.put('table.bin', common.table(2))
        other = self.made(3, ['scans.bin'], 'other')
        self.refused('its table is another', one, other[1], three, named=other[1])
        self.put('table.bin', common.table())
        self.put('bias.bin', common.bias(2))
        other = self.made(3, ['scans.bin'], 'other')
        self.refused('its bias file is another', one, two, other[2], named=other[2])
        self.edited(two, lambda page: page.update(version='6.0.1'))
        self.refused('its version is another', one, two, three, named=two)

    def test_another_number_of_parts(self):
        one, two, three = self.parts
        other = self.made(4, ['scans.bin'], 'other')
        self.refused('its number of parts is another', one, other[1], three, named=other[1])

    def test_damaged_products(self):
        one, two, three = self.parts
        for change in (lambda b: b[:100] + bytes([b[100] ^ 1]) + b[101:], lambda b: b[:-1], lambda b: b[:-PRODUCT], lambda b: b + b'x',
                       lambda b: b + b[:PRODUCT], lambda b: b[PRODUCT:2 * PRODUCT] + b[:PRODUCT] + b[2 * PRODUCT:], lambda b: b''):
            for name in self.parts:
                before = self.contents(name)
                self.put(name, change(before))
                self.refused('its bytes are not those that its page names', one, two, three, named=name)
                self.put(name, before)
        self.assertEqual(self.here('join', '-o', 'joined', *self.parts)[0], 0)

    def test_damaged_pages(self):
        one, two, three = self.parts
        page = self.contents(two + '.json')
        for other in (b'', b'{', page[:-3], page + b'}', b'[]', b'null', b'5', b'"part"', b'{}', b'\xff\xfe', b'[' * 100_000, b'9' * 10_000,
                      page.replace(b'"form": 1', b'"form": 2'), page.replace(b'"records"', b'"record"'),
                      page.replace(b'"part"', b'"part": 1, "x"'),
                      page.replace(b'"before": [', b'"before": 7, "befor": ['), page.replace(b'"sha256": "', b'"sha256": 1, "sha": "'),
                      self.contents(two)):
            self.put(two + '.json', other)
            self.refused('this is no page of products', one, two, three, named=two + '.json')
        for change in (lambda p: p.update(records=str(p['records'])), lambda p: p.update(records=1.5),
                       lambda p: p.update(refusals={'x': 1}), lambda p: p.update(refusals={'5': 'x'}), lambda p: p.update(refusals=[]),
                       lambda p: p.update(refused=[5]), lambda p: p.update(before=[[0, 'x']]), lambda p: p.update(part={'number': 2}),
                       lambda p: p.update(archive={}), lambda p: p.update(more=1), lambda p: p['products'].update(bytes=None),
                       lambda p: p['refused'].append({})):
            self.put(two + '.json', page)
            self.edited(two, change)
            self.refused('this is no page of products', one, two, three, named=two + '.json')

    def test_pages_that_disagree_with_themselves(self):
        """A page whose counts and ranges do not fit together is damaged, and would give a joined page that is wrong."""
        one, two, three = self.parts
        page = self.contents(two + '.json')
        self.assertTrue(self.page(two)['refused'])
        for change in (lambda p: p.update(records=p['records'] + 1), lambda p: p.update(refusals={}),
                       lambda p: p['refusals'].update({'4': 1}), lambda p: p['refused'].pop(), lambda p: p['refused'][0].update(offset=1),
                       lambda p: p['refused'][0].update(number=6.0), lambda p: p['refused'][0].update(number=9),
                       lambda p: p['refused'][0].update(last=p['refused'][0]['last'] + 1), lambda p: p['refused'][0].update(file=1),
                       lambda p: p['refused'][0].update(file=-1), lambda p: p['refused'].append(dict(p['refused'][0])),
                       lambda p: p['products'].update(number=p['products']['number'] - 1), lambda p: p.update(records=True),
                       lambda p: p.update(after=p['after'] + [[5]])):
            self.put(two + '.json', page)
            self.edited(two, change)
            self.refused('this is no page of products', one, two, three, named=two + '.json')

    def test_pages_of_other_products(self):
        one, two, three = self.parts
        page = self.edited(two, lambda page: page['products'].update(sha256=sum_of(b'')))
        self.refused('its bytes are not those that its page names', one, two, three, named=two)
        self.put(two + '.json', page)
        self.edited(two, lambda page: page.update(before=[[1, 1]]))
        self.refused('it was made behind the accepted records [[1, 1]]', one, two, three, named=two)
        self.put(two + '.json', page)
        self.edited(one, lambda page: page.update(before=[[1, 1]]))
        self.refused('', one, two, three, named=one)
        # The page of the part behind it.
        self.put(two + '.json', self.contents(three + '.json'))
        self.refused('this is part 3 of 3, and part 2 must stand here', one, two, three, named=two)

    def test_no_products(self):
        self.refused('No such file', 'nowhere', named='nowhere.json')
        self.refused('No such file', 'scans.bin', named='scans.bin.json')
        os.mkdir(self.at('folder'))
        self.refused('No such file', 'folder', named='folder.json')
        os.mkdir(self.at('folder.json'))
        self.refused('', 'folder', named='folder.json')
        os.mkfifo(self.at('fifo.json'))
        self.refused('this is no file', 'fifo', named='fifo.json')
        os.mkfifo(self.at('fifo'))
        os.remove(self.at('fifo.json'))
        self.put('fifo.json', self.contents(self.parts[0] + '.json'))
        self.refused('', 'fifo', *self.parts[1:], named='fifo')

    def test_out_is_a_part(self):
        """Neither products nor pages of a part are written over, whatever name they have."""
        one, two, three = self.parts
        os.link(self.at(one), self.at('hard'))
        os.symlink(two, self.at('soft'))
        os.link(self.at(three + '.json'), self.at('page.json'))
        for out in (one, three, f'./{two}', 'hard', 'soft', 'page', one + '.json', 'page.json'):
            with self.subTest(out=out):
                self.refused('', *self.parts, named=out, out=out)
        # A part whose name is that of the page.
        for name in ('x.json', 'x.json.json'):
            os.symlink(one + name[len('x.json'):], self.at(name))
        self.refused('', 'x.json', two, three, named='x', out='x')

    def test_what_was_there_before_stays(self):
        self.joins(self.parts)
        self.edited(self.parts[2], lambda page: page.update(version='6.0.1'))
        self.refused('its version is another', *self.parts)
        self.put(self.parts[2], b'')
        self.refused('', *self.parts)

    def test_places_of_out(self):
        os.mkdir(self.at('folder'))
        os.mkfifo(self.at('fifo'))
        os.mkdir(self.at('y.json'))
        for out, named in (('folder', ''), ('fifo', ''), ('y', ''), ('nowhere/out', 'nowhere/out'), ('', '')):
            with self.subTest(out=out):
                self.refused('', *self.parts, named=named or self.folder, out=out)


class There(PartsCase):
    """Results that are there and whole are not made again, and all others are."""

    def setUp(self):
        super().setUp()
        self.put('scans.bin', gapped())
        self.words = (*common.WORDS, '--part', '2/3', '-o', 'out', 'scans.bin')
        self.assertEqual(self.here(*self.words)[0], 0)

    def status(self):
        found = [os.stat(self.at(name)) for name in ('out', 'out.json')]
        return [(one.st_ino, one.st_mtime_ns, one.st_ctime_ns) for one in found]

    def again(self, expected=None, names=('scans.bin',), part=(2, 3), **page):
        """Run again, and made again."""
        before = self.status() if os.path.exists(self.at('out')) and os.path.exists(self.at('out.json')) else None
        status, said = self.here(*self.words)
        self.assertEqual(status, 0, said)
        self.assertNotIn('was there', said[0])
        self.assertNotEqual(self.status(), before)
        self.assert_whole('out', expected or expected_of(gapped()), names, part, **page)

    def stays(self):
        before = self.status()
        with self.unchanged():
            status, said = self.here(*self.words)
        self.assertEqual(status, 0, said)
        self.assertEqual(said, ['out: records 20 products 18 refused 2: 1 with 5, 1 with 6; it was there and is whole'])
        self.assertEqual(self.status(), before)

    def test_whole(self):
        self.stays()
        # Another name for the same bytes is no other archive.
        os.rename(self.at('scans.bin'), self.at('other.bin'))
        self.words = (*self.words[:-1], 'other.bin')
        self.stays()

    def test_other_products(self):
        good = self.contents('out')
        for other in (good[:-1], good + b'x', good[:5_000] + bytes([good[5_000] ^ 1]) + good[5_001:], b''):
            kept = os.stat(self.at('out'))
            self.put('out', other)
            os.utime(self.at('out'), ns=(kept.st_atime_ns, kept.st_mtime_ns))
            self.again()
        os.remove(self.at('out'))
        self.again()
        self.stays()

    def test_other_pages(self):
        good = self.contents('out.json')
        for other in (b'', good[:-5], b'{}', good.replace(b'"form": 1', b'"form": 2'), good.replace(b'"version": "', b'"version": "1')):
            self.put('out.json', other)
            self.again()
        os.remove(self.at('out.json'))
        self.again()
        self.stays()

    def test_a_page_that_lies(self):
        """About its products, or about what they were made of."""
        good = self.page('out')
        other = self.contents('out')[:PRODUCT] * 18
        for change in ({'products': {**good['products'], 'sha256': sum_of(other)}}, {'products': {**good['products'], 'bytes': PRODUCT}},
                       {'part': {'number': 3, 'of': 3}}, {'part': {'number': 2, 'of': 4}}, {'records': 21}, {'refusals': {'6': 2}},
                       {'refused': []}, {'refused': [{**good['refused'][0], 'first': 1}]},
                       {'table': {**good['table'], 'sha256': sum_of(b'')}},
                       {'bias': {**good['bias'], 'sha256': sum_of(b'')}}, {'archive': [{**good['archive'][0], 'sha256': sum_of(b'')}]},
                       {'archive': [{**good['archive'][0], 'bytes': 5}]}, {'archive': []}, {'archive': good['archive'] * 2}):
            with self.subTest(change=change):
                self.put('out.json', json.dumps({**good, **change}).encode())
                self.again()
        # The products of another run with their page are those of another table.
        self.put('table.bin', common.table(2))
        self.assertEqual(self.here(*self.words)[0], 0)
        lie = {**self.page('out'), 'table': good['table']}
        self.put('out.json', json.dumps(lie).encode())
        self.again(expected_of(gapped(), table_seed=2))

    def test_other_inputs(self):
        self.put('table.bin', common.table(2))
        self.again(expected_of(gapped(), table_seed=2))
        self.put('table.bin', common.table())
        self.put('bias.bin', common.bias(2))
        self.again(Expected(common.table(), common.bias(2), [gapped()]))
        self.put('bias.bin', common.bias())
        # A byte that belongs to the first part, with the time of before.
        content, kept = bytearray(gapped()), os.stat(self.at('scans.bin'))
        content[1_000] ^= 1
        self.put('scans.bin', bytes(content))
        os.utime(self.at('scans.bin'), ns=(kept.st_atime_ns, kept.st_mtime_ns))
        self.again(expected_of(bytes(content)))
        self.put('scans.bin', gapped()[:-1])
        self.again(expected_of(gapped()[:-1]))

    def test_other_files(self):
        """The same bytes in two files are another archive."""
        self.put('one.bin', gapped()[:7 * RECORD])
        self.put('two.bin', gapped()[7 * RECORD:])
        self.words = (*self.words[:-1], 'one.bin', 'two.bin')
        self.again(expected_of(gapped()[:7 * RECORD], gapped()[7 * RECORD:]), ('one.bin', 'two.bin'))

    def test_other_parts(self):
        for words in ('1/3', '2/4', '1/1'):
            self.words = (*common.WORDS, '--part', words, '-o', 'out', 'scans.bin')
            self.again(part=tuple(map(int, words.split('/'))))

    def test_standard_input(self):
        """Which bytes standard input has is not known before they are read; a file of that name is another one."""
        words = (*common.WORDS, '-o', 'stream', '-')
        for _ in range(2):
            self.put('-', gapped())
            self.put('other.bin', plain(61)[:len(gapped())])
            with open(self.at('other.bin'), 'rb') as given:
                ran = self.sounder(*words, stdin=given)
            self.assertEqual(ran.status, 0, ran)
            self.assert_whole('stream', expected_of(plain(61)[:len(gapped())]), ['-'])
            # As if it had been of the file with the name -.
            self.put('stream', expected_of(gapped()).products)
            self.put('stream.json', json.dumps(expected_of(gapped()).page(['-'])).encode())

    def test_a_missing_input_is_told_also_then(self):
        for name, words in (('table.bin', 'table.bin'), ('bias.bin', 'bias.bin'), ('scans.bin', 'scans.bin')):
            kept = contents(self.at(name))
            os.remove(self.at(name))
            with self.unchanged():
                status, said = self.here(*self.words)
            self.assertEqual((status, said), (1, [f'sounder: {words}: No such file or directory']))
            put(self.at(name), kept)
        self.stays()
