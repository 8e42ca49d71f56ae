"""The formats as data, held at every edge of every value to the library and to docs/RULES.md; and the lines that explain a refusal."""
import os
import random
import re
import struct
import unittest
from collections import Counter

from . import common
from .common import sample
from sounder import library as functions
from sounder.check import check, faults, judged
from sounder.formats import BIAS, HEAD, PRODUCT, RECORD, SCAN_NUMBER, TABLE, TYPES, values_of
from sounder.library import Library, Refusal

LIBRARY = Library()
OPEN = {TABLE: LIBRARY.open, BIAS: LIBRARY.open_bias}
# What a type holds, as in section 1 of the rules.
HELD = {'byte': (0, 255), 'u16': (0, 65_535), 'u32': (0, 4_294_967_295), 'i16': (-32_768, 32_767), 'i32': (-2_147_483_648, 2_147_483_647)}
# Which value must not be above which, in a row; and which values have a sum from 1 to 255.
ORDERS = (('T_low', 'T_upp'), ('warm low', 'warm upp'), ('cold low', 'cold upp'))
SUMS = ([('settings', f'w{age}') for age in range(8)], [('settings', f'v{age}') for age in range(8)],
        [(f'thermometer {number}', 'p') for number in range(1, 9)], [(f'thermometer {number}', 'p') for number in range(9, 16)])
SUM_WORDS = ('field 0x10, settings: the sum of w0 to w7 at 3 to 10', 'field 0x10, settings: the sum of v0 to v7 at 11 to 18',
             'field 0x11, thermometers 1 to 8: the sum of p at 43 to 162 in steps of 17',
             'field 0x11, thermometers 9 to 15: the sum of p at 179 to 281 in steps of 17')
S_LOW, S_HIGH = -245_760, 245_760
PLACES = {(place.row, place.name): place for place in TABLE.places}
BIAS_PLACES = {(place.row, place.name): place for place in BIAS.places}


def put(content, place, value):
    struct.pack_into('>' + TYPES[place.type], content, place.offset, value)


def changed(content, values):
    """A copy in which values of the table, by row and name, are others."""
    content = bytearray(content)
    for key, value in values.items():
        put(content, PLACES[key], value)
    return content


# Relations and sums have room on both sides.
ROOMY = changed(sample('table.bin'), {
    **{key: 1 for sum_of in SUMS for key in sum_of}, ('settings', 'T_low'): -1_000, ('settings', 'T_upp'): 1_000,
    **{(f'channel {channel}', name): value for channel in range(1, 23)
       for name, value in (('warm low', 100), ('warm upp', 200), ('cold low', 300), ('cold upp', 400))}})


def answer(format, content):
    """The library's answer."""
    try:
        OPEN[format](content)
    except Refusal as refusal:
        return refusal.number
    return 0


def span(low, high):
    return f'{low:,}' if low == high else f'from {low:,} to {high:,}'


def range_line(place, value):
    return (f'field 0x{place.tag:02X}, {place.row}: {place.name} at {place.offset:,} is {value:,}, '
            f'and must be {span(place.low, place.high)}')


def order_line(low, upp, values):
    return (f'field 0x{low.tag:02X}, {low.row}: {low.name} at {low.offset:,} is {values[0]:,} and {upp.name} at {upp.offset:,} '
            f'is {values[1]:,}: {low.name} must not be above {upp.name}')


def rising_line(place, before, values):
    return (f'field 0x14, {place.row}: s_j at {place.offset:,} is {values[0]:,}, and must be above {values[1]:,}, '
            f'that of {before.row} at {before.offset:,}')


def pair(channel, j):
    return f'channel {channel} pair {j}'


def beyond(place):
    """One below the range and one above it, as far as the type holds them."""
    lowest, highest = HELD[place.type]
    return [value for value in (place.low - 1, place.high + 1) if lowest <= value <= highest]


def companions(place, value):
    """The values to put so that relations and sums hold wherever they can with this one, and the lines of what is out besides it."""
    own = (place.row, place.name)
    for low, upp in ORDERS:
        if place.name in (low, upp):
            other = PLACES[place.row, upp if place.name == low else low]
            near = min(max(value, other.low), other.high)
            values = {own: value, (place.row, other.name): near}
            both = values[place.row, low], values[place.row, upp]
            return values, [order_line(PLACES[place.row, low], PLACES[place.row, upp], both)] if both[0] > both[1] else []
    if place.name == 's_j':
        row, j = place.row.rsplit(' ', 1)
        # Five that rise by 1 each: where the one is at an edge, those before or behind it are beyond.
        others = {(f'{row} {i}', 's_j'): value + i - int(j) for i in range(1, 6) if i != int(j)}
        return {own: value, **others}, [range_line(PLACES[key], other) for key, other in others.items() if not S_LOW <= other <= S_HIGH]
    for sum_of in SUMS:
        if own in sum_of:
            others = {key: 0 for key in sum_of if key != own}
            return {**others, next(iter(others)): int(value == 0), own: value}, []
    return {own: value}, []


def by_offset(lines):
    """Lines in the order of the offsets that they name first; a value stands before its relation."""
    return sorted(lines, key=lambda line: int(re.search(' at ([0-9,]+)', line)[1].replace(',', '')))


class Edges(unittest.TestCase):
    """Every value of both formats at both of its edges and one beyond."""

    def hold(self, format, content, lines):
        self.assertEqual((answer(format, content), faults(format, content)), (3 if lines else 0, lines))

    def test_every_value_of_the_table(self):
        self.hold(TABLE, ROOMY, [])
        for place in TABLE.places:
            for value in (place.low, place.high):
                values, lines = companions(place, value)
                with self.subTest(place=place, value=value):
                    self.hold(TABLE, changed(ROOMY, values), by_offset(lines))
                    # Only shelf temperatures cannot all come to their edges.
                    self.assertTrue(place.name == 's_j' or not lines, lines)
            for value in beyond(place):
                values, lines = companions(place, value)
                with self.subTest(place=place, value=value):
                    self.hold(TABLE, changed(ROOMY, values), by_offset([range_line(place, value), *lines]))

    def test_shelf_temperatures_are_accepted_at_the_edges_that_they_can_have(self):
        """What the companions of the middle pairs leave open."""
        for channel in range(1, 23):
            for first in (S_LOW, S_HIGH - 4):
                self.hold(TABLE, changed(ROOMY, {(pair(channel, j), 's_j'): first + j - 1 for j in range(1, 6)}), [])

    def test_every_value_of_the_bias_file(self):
        bias = bytearray(sample('bias.bin'))
        for place in BIAS.places:
            for value in (place.low, place.high):
                put(bias, place, value)
                self.assertEqual(answer(BIAS, bias), 0, place)
            for value in beyond(place):
                put(bias, place, value)
                self.hold(BIAS, bias, [range_line(place, value)])
            put(bias, place, 0)

    def test_a_bias_file_of_edges(self):
        """All values at once, at the one edge, at the other, and beyond."""
        for edge in ('low', 'high'):
            bias = bytearray(sample('bias.bin'))
            for place in BIAS.places:
                put(bias, place, getattr(place, edge))
            self.hold(BIAS, bias, [])
        outside = [place for place in BIAS.places if place.name == 'c0']
        for place in outside:
            put(bias, place, -32_768)
        self.hold(BIAS, bias, [range_line(place, -32_768) for place in outside])


class Relations(unittest.TestCase):
    """Relations at equality and one beyond; sums at 0, 1, 255 and 256."""

    hold = Edges.hold

    def test_low_is_not_above_upp(self):
        rows = [('settings', 'T_low', 'T_upp')] + [(f'channel {channel}', *order) for channel in range(1, 23) for order in ORDERS[1:]]
        for row, low, upp in rows:
            self.hold(TABLE, changed(ROOMY, {(row, low): 700, (row, upp): 700}), [])
            self.hold(TABLE, changed(ROOMY, {(row, low): 700, (row, upp): 699}),
                      [order_line(PLACES[row, low], PLACES[row, upp], (700, 699))])

    def test_shelf_temperatures_rise(self):
        for channel in range(1, 23):
            for j in range(2, 6):
                place, before = PLACES[pair(channel, j), 's_j'], PLACES[pair(channel, j - 1), 's_j']
                # 7 stands at the pair before; those further off leave room.
                values = {(pair(channel, i), 's_j'): 7 + 1_000 * (i - j + 1) for i in range(1, 6)}
                for value in (8, 7, 6):
                    lines = [] if value == 8 else [rising_line(place, before, (value, 7))]
                    self.hold(TABLE, changed(ROOMY, {**values, (pair(channel, j), 's_j'): value}), lines)

    def test_channels_do_not_rise_together(self):
        """The first pair of a channel may be below the last of the channel before."""
        self.hold(TABLE, changed(ROOMY, {(pair(2, 1), 's_j'): S_LOW, (pair(1, 5), 's_j'): S_HIGH}), [])

    def test_sums(self):
        for sum_of, words in zip(SUMS, SUM_WORDS):
            none = dict.fromkeys(sum_of, 0)
            self.hold(TABLE, changed(ROOMY, none), [f'{words} is 0, and must be from 1 to 255'])
            for key, other in zip(sum_of, sum_of[1:] + sum_of[:1]):
                self.hold(TABLE, changed(ROOMY, {**none, key: 1}), [])
                self.hold(TABLE, changed(ROOMY, {**none, key: 254, other: 1}), [])
                self.hold(TABLE, changed(ROOMY, {**none, key: 255, other: 1}), [f'{words} is 256, and must be from 1 to 255'])
            self.hold(TABLE, changed(ROOMY, dict.fromkeys(sum_of, 255)), [f'{words} is {255 * len(sum_of):,}, and must be from 1 to 255'])


class HeadsAndLengths(unittest.TestCase):
    CONTENTS = {TABLE: ROOMY, BIAS: sample('bias.bin')}

    def test_every_byte_of_every_head(self):
        for format, right in self.CONTENTS.items():
            for at, field in format.heads:
                for byte in range(HEAD.size):
                    content = bytearray(right)
                    for other in range(256):
                        content[at + byte] = other
                        head = ' '.join(f'{one:02X}' for one in content[at:at + 3])
                        line = f'head at {at}: {head}, and must be {field.head.hex(" ").upper()} (field 0x{field.tag:02X})'
                        wrong = other != right[at + byte]
                        self.assertEqual((answer(format, content), faults(format, content)), (2 if wrong else 0, [line] * wrong))

    def test_several_heads_and_no_value_before_them(self):
        table = bytearray(ROOMY)
        table[3:11], table[41], table[741:744] = bytes(8), 1, b'abc'
        self.assertEqual(answer(TABLE, table), 2)
        self.assertEqual(faults(TABLE, table), ['head at 40: 11 01 FF, and must be 11 00 FF (field 0x11)',
                                                'head at 741: 61 62 63, and must be 14 02 94 (field 0x14)'])
        self.assertEqual([line.split(':')[0] for line in faults(TABLE, bytes(1_404))],
                         ['head at 0', 'head at 40', 'head at 298', 'head at 741'])

    def test_lengths(self):
        for format, right in self.CONTENTS.items():
            must = f'and must be {format.length:,}'
            for length, words in ((0, '0 bytes'), (1, '1 byte'), (format.length - 1, f'{format.length - 1:,} bytes'),
                                  (format.length + 1, f'at least {format.length + 1:,} bytes')):
                content = (bytes(right) + b'\0')[:length]
                self.assertEqual((answer(format, content), faults(format, content)), (1, [f'the length is {words}, {must}']))

    def test_other_buffers(self):
        for content in (bytes(ROOMY[:-1]), bytes(1_404), bytes(changed(ROOMY, {('settings', 'dT'): 500_000}))):
            self.assertEqual(faults(TABLE, memoryview(content)), faults(TABLE, content))
            self.assertEqual(faults(TABLE, bytearray(content)), faults(TABLE, content))


class SeveralFaults(unittest.TestCase):
    def test_all_are_named_in_order(self):
        table = changed(ROOMY, {
            **dict.fromkeys(SUMS[0], 0), ('settings', 'R_PAM'): 999, ('settings', 'T_low'): 245_761, ('thermometer 3', 'alpha'): 5_000_001,
            ('channel 5', 'warm low'): 200, ('channel 5', 'warm upp'): 100, ('channel 5', 'TNL'): -1, ('channel 22', 'b'): 4_097,
            (pair(5, 2), 's_j'): -245_760, (pair(17, 5), 'TNL_j'): -8_193})
        self.assertEqual(answer(TABLE, table), 3)
        self.assertEqual(faults(TABLE, table), [
            'field 0x10, settings: the sum of w0 to w7 at 3 to 10 is 0, and must be from 1 to 255',
            'field 0x10, settings: R_PAM at 24 is 999, and must be from 1,000 to 4,000,000',
            'field 0x10, settings: T_low at 28 is 245,761, and must be from -245,760 to 245,760',
            'field 0x10, settings: T_low at 28 is 245,761 and T_upp at 32 is 1,000: T_low must not be above T_upp',
            'field 0x11, thermometer 3: alpha at 82 is 5,000,001, and must be from 3,000,000 to 5,000,000',
            'field 0x12, channel 5: warm low at 381 is 200 and warm upp at 383 is 100: warm low must not be above warm upp',
            'field 0x12, channel 5: TNL at 399 is -1, and must be 0',
            'field 0x12, channel 22: b at 733 is 4,097, and must be from -4,096 to 4,096',
            'field 0x14, channel 5 pair 2: s_j at 870 is -245,760, and must be above -245,760, that of channel 5 pair 1 at 864',
            'field 0x14, channel 17 pair 5: TNL_j at 1,252 is -8,193, and must be from -8,192 to 8,192',
        ])

    def test_every_value_that_can_be_out_at_once(self):
        """Values in relations stay as they are."""
        bound = {name for order in ORDERS for name in order} | {'s_j'}
        out = {(place.row, place.name): beyond(place)[-1] for place in TABLE.places if beyond(place) and place.name not in bound}
        table = changed(ROOMY, out)
        self.assertEqual(answer(TABLE, table), 3)
        self.assertEqual(faults(TABLE, table), [range_line(PLACES[key], value) for key, value in out.items()])
        self.assertEqual(len(out), 7 + 15 * 4 + 22 * 4 + 22 * 5)

    def test_bias_file(self):
        bias = bytearray(sample('bias.bin'))
        for row, name, value in (('channel 22 position 96', 'c0', 4_097), ('channel 5 position 12', 'c0', -4_097),
                                 ('channel 6 position 1', 'e', -32_768)):
            put(bias, BIAS_PLACES[row, name], value)
        self.assertEqual(answer(BIAS, bias), 3)
        self.assertEqual(faults(BIAS, bias), [
            'field 0x13, channel 5 position 12: c0 at 1,583 is -4,097, and must be from -4,096 to 4,096',
            'field 0x13, channel 22 position 96: c0 at 8,447 is 4,097, and must be from -4,096 to 4,096',
        ])


class RandomContents(unittest.TestCase):
    """The data and the library agree both ways, on the number too."""

    def near(self, place):
        """A value at an edge or next to it, one that is small, or any that the type holds."""
        lowest, highest = HELD[place.type]
        edge = self.random.choice((place.low, place.high, lowest, highest, 0)) + self.random.randint(-1, 1)
        return self.random.choice((min(max(edge, lowest), highest), self.random.randint(lowest, highest)))

    def accepted_table(self):
        """A random table within all ranges."""
        values = {key: self.random.randint(place.low, place.high) for key, place in PLACES.items()}
        for sum_of in SUMS:
            left = 255
            for key in self.random.sample(sum_of, len(sum_of)):
                values[key] = self.random.randint(0, left)
                left -= values[key]
            values[sum_of[0]] += left == 255
        for (row, name) in PLACES:
            for low, upp in ORDERS:
                if name == low:
                    values[row, low], values[row, upp] = sorted((values[row, low], values[row, upp]))
        for channel in range(1, 23):
            rising = sorted(self.random.sample(range(S_LOW, S_HIGH + 1), 5))
            values.update({(pair(channel, j), 's_j'): s for j, s in enumerate(rising, 1)})
        return changed(ROOMY, values)

    def spoil(self, format, content):
        """A few values near edges or near their neighbours, and now and then a head or the length."""
        for place in self.random.choices(format.places, k=self.random.randint(0, 3)):
            put(content, place, self.near(place))
        if format is TABLE:
            self.draw_near(content)
        if self.random.random() < 0.05:
            at, _ = self.random.choice(format.heads)
            content[at + self.random.randrange(3)] ^= 1 << self.random.randrange(8)
        if self.random.random() < 0.05:
            return self.random.choice((content[:-1], content + b'\0'))
        return content

    def draw_near(self, content):
        """One value of a relation comes to within 1 of the other."""
        values = {(place.row, place.name): value for place, value in values_of(TABLE, content)}
        channel, j = self.random.randint(1, 22), self.random.randint(2, 5)
        row = f'channel {channel}'
        own, other = self.random.choice((
            ((row, 'warm upp'), (row, 'warm low')), ((row, 'cold low'), (row, 'cold upp')),
            (('settings', 'T_low'), ('settings', 'T_upp')), ((pair(channel, j), 's_j'), (pair(channel, j - 1), 's_j'))))
        lowest, highest = HELD[PLACES[own].type]
        put(content, PLACES[own], min(max(values[other] + self.random.randint(-1, 1), lowest), highest))

    def agree(self, format, make, times):
        counted = Counter()
        for _ in range(times):
            content = self.spoil(format, make())
            number = answer(format, content)
            expected, lines = judged(format, content)
            self.assertEqual((expected, lines == []), (number, number == 0), content.hex())
            counted[number] += 1
        for number in range(4):
            self.assertGreater(counted[number], times // 100, counted)

    def test_tables(self):
        self.random = random.Random(1404)
        self.agree(TABLE, self.accepted_table, 2_000)

    def test_tables_near_the_roomy_one(self):
        self.random = random.Random(3)
        self.agree(TABLE, lambda: bytearray(ROOMY), 4_000)

    def test_bias_files(self):
        self.random = random.Random(8451)
        self.agree(BIAS, lambda: bytearray(sample('bias.bin')), 1_000)

    def test_any_values(self):
        """Nearly all of these are refused, with many faults at once."""
        self.random = random.Random(7)
        for _ in range(300):
            table = bytearray(ROOMY)
            for place in TABLE.places:
                put(table, place, self.near(place))
            self.assertEqual(judged(TABLE, table)[0], answer(TABLE, table))


class Rules(unittest.TestCase):
    """Names, places, types and ranges are those of docs/RULES.md."""

    @classmethod
    def setUpClass(cls):
        text = common.contents(os.path.join(common.ROOT, 'docs', 'RULES.md')).decode()
        cls.lines = text[text.index('\n## 3. '):text.index('\n## 6. ')].splitlines()

    def test_heads(self):
        """Of all four formats."""
        written = [[cell.strip(' `') for cell in line.split('|')[1:6]] for line in self.lines if line.startswith('| 0x')]
        here = [[f'0x{field.tag:02X}', f'{at:,}', field.head.hex(' ').upper(), f'{at + 3:,}', f'{field.length:,}']
                for format in (TABLE, BIAS, RECORD, PRODUCT) for at, field in format.heads]
        self.assertEqual(written, here)

    def written(self):
        """Offset, type, name, low and high of each row of section 3 that has a value, or eight of one kind, in it."""
        for line in self.lines:
            cells = [cell.strip() for cell in line.split('|')]
            if len(cells) != 7 or not cells[1][0].isdigit():
                continue
            at, kind, name, limits = int(cells[1].split()[0]), cells[2], cells[3], cells[5]
            # The low of the limits stands here for the lowest that a u16 holds; the tests of relations have the rest.
            limits = re.sub('^(warm|cold) low', '0', limits).replace('all 16 bits', '{:,} to {:,}'.format(*HELD['i16']))
            low, high = (re.search('(-?[0-9,]+) to (-?[0-9,]+)', limits) or re.fullmatch('((0))', limits)).groups()
            low, high = int(low.replace(',', '')), int(high.replace(',', ''))
            if kind != '8 bytes':
                yield at, kind, name, low, high
                continue
            for age in range(8):
                yield at + age, 'byte', f'{name[0]}{age}', low, high

    def test_values(self):
        """Of a field with rows the first row, whose offsets in the rules count from its first byte."""
        here = []
        for format in (TABLE, BIAS):
            for at, field in format.heads:
                of_field = [place for place in format.places if place.tag == field.tag]
                row = [place for place in of_field if place.row == of_field[0].row]
                base = 0 if field.tag == 0x10 else at + 3
                here += [(place.offset - base, place.type, place.name, place.low, place.high) for place in row]
        self.assertEqual(list(self.written()), here)

    def test_places(self):
        """Those that the rules name."""
        for format, named in (
                (TABLE, (('thermometer 9', 'p', 179), ('thermometer 15', 'p', 281), ('channel 16', 'warm low', 601),
                         ('channel 22', 'warm low', 721), ('channel 3 pair 1', 's_j', 804), ('channel 16 pair 1', 's_j', 1_194),
                         ('channel 17 pair 1', 's_j', 1_224), ('channel 22 pair 1', 's_j', 1_374), ('channel 22 pair 5', 's_j', 1_398))),
                (BIAS, (('channel 1 position 1', 'c0', 3), ('channel 2 position 1', 'c0', 387), ('channel 22 position 96', 'c0', 8_447))),
                (RECORD, (('scan number', 'scan number', 3), ('thermometer counts', 'PAM count', 10),
                          ('thermometer counts', 'offset count', 12), ('thermometer 1', 'count', 14), ('thermometer 15', 'count', 42),
                          ('channel 1 place 1', 'warm count', 47), ('channel 22 place 4', 'warm count', 221),
                          ('channel 1 place 1', 'cold count', 226), ('channel 22 place 4', 'cold count', 400),
                          ('channel 1 position 1', 'earth count', 405), ('channel 22 position 96', 'earth count', 4_627),
                          ('shelf temperatures', 'KKA', 4_632), ('shelf temperatures', 'V', 4_636),
                          ('shelf temperatures', 'W', 4_640), ('shelf temperatures', 'G', 4_644))),
                (PRODUCT, (('scan number', 'scan number', 3), ('channel 22', 'flag', 31), ('channel 1 position 1', 'scene', 35),
                           ('channel 22 position 96', 'scene', 8_479), ('channel 1', 'delivered scenes', 8_486),
                           ('channel 1', 'lowest temperature', 8_488), ('channel 22', 'highest temperature', 8_702)))):
            for row, name, offset in named:
                self.assertEqual([place.offset for place in format.places if (place.row, place.name) == (row, name)], [offset], (row, name))

    def test_lengths(self):
        for format, length in ((TABLE, functions.TABLE_BYTES), (BIAS, functions.BIAS_BYTES), (RECORD, functions.RECORD_BYTES),
                               (PRODUCT, functions.PRODUCT_BYTES)):
            self.assertEqual((format.length, format.numbers.size), (length, length))

    def test_samples(self):
        """The bench scan and its product, as section 20 has them."""
        scan, product = sample('scans.bin')[:RECORD.length], sample('products.bin')[:PRODUCT.length]
        self.assertEqual((int.from_bytes(scan[SCAN_NUMBER], 'big'), int.from_bytes(product[SCAN_NUMBER], 'big')), (7, 7))
        counts = {'scan number': 7, 'offset count': 0, 'cold count': 10_000, 'earth count': 15_000, 'KKA': 0, 'V': 0, 'W': 0, 'G': 0}
        for place, value in values_of(RECORD, scan):
            self.assertEqual(value, counts.get(place.name, 20_000), place)
        scenes = {'scan number': 7, 'flag': 0, 'delivered scenes': 96}
        for place, value in values_of(PRODUCT, product):
            self.assertEqual(value, scenes.get(place.name, 138.03564453125), place)


class Other:
    """A library that gives, to any table, the answer to another one."""

    def __init__(self, table):
        self.table = table

    def open(self, content):
        LIBRARY.open(self.table)


class Check(unittest.TestCase):
    WRONG = {1: b'', 2: bytes(1_404), 3: changed(ROOMY, {('settings', 'dT'): 491_521})}

    def test_accepted(self):
        report = check(LIBRARY, 'table', 'table.bin', sample('table.bin'))
        self.assertEqual((report, report.passed), ((0, ['table.bin: accepted']), True))
        report = check(LIBRARY, 'bias', 'bias.bin', sample('shelves/bias.bin'))
        self.assertEqual((report, report.passed), ((0, ['bias.bin: accepted']), True))

    def test_refused(self):
        for kind, name, content, number, lines in (
                ('table', 'table.bin', sample('refused/table.bin'), 3, [
                    'table.bin: refused with 3: a value or a sum is outside its range',
                    '  field 0x10, settings: R_PAM at 24 is 999, and must be from 1,000 to 4,000,000']),
                ('table', 'old.bin', sample('table.bin')[:-1], 1, [
                    'old.bin: refused with 1: its length is wrong', '  the length is 1,403 bytes, and must be 1,404']),
                ('table', 'bias.bin', sample('bias.bin'), 1, [
                    'bias.bin: refused with 1: its length is wrong', '  the length is at least 8,451 bytes, and must be 1,404']),
                ('bias', 'b', b'\x14' + sample('bias.bin')[1:], 2, [
                    'b: refused with 2: a tag or length in it is wrong', '  head at 0: 14 21 00, and must be 13 21 00 (field 0x13)']),
                ('bias', 'b', sample('bias.bin')[:3] + b'\x7f' + sample('bias.bin')[4:], 3, [
                    'b: refused with 3: a value or a sum is outside its range',
                    '  field 0x13, channel 1 position 1: c0 at 3 is 32,512, and must be from -4,096 to 4,096'])):
            report = check(LIBRARY, kind, name, content)
            self.assertEqual((report, report.passed), ((number, lines), False))

    def test_samples_that_are_refused(self):
        for name, kind in (('refused/table.bin', 'table'), ('refused_bias/bias.bin', 'bias'), ('refused_shelves/table.bin', 'table')):
            number, lines = check(LIBRARY, kind, name, sample(name))
            self.assertEqual((number, len(lines)), (3, 2))

    def test_a_fault_of_the_program_is_said(self):
        """Wherever the library and the data differ, of whichever the fault is."""
        answers = {0: ROOMY, **self.WRONG}
        for given, table in answers.items():
            for expected, content in answers.items():
                report = check(Other(table), 'table', 'table.bin', content)
                self.assertEqual((report.number, report.passed), (given, given == expected == 0))
                said = [line for line in report.lines if 'fault of the program' in line]
                words = [f'refused with {number}' if number else 'accepted' for number in (given, expected)]
                self.assertEqual(said, [] if given == expected else [
                    f'  this is a fault of the program: by the library the table is {words[0]}, by the data of its format {words[1]}'])
                self.assertEqual(report.lines[1 + len(said):], ['  ' + line for line in faults(TABLE, content)])


if __name__ == '__main__':
    unittest.main()
