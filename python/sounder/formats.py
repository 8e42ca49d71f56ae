"""The formats of docs/RULES.md, sections 3 to 5, as data: which field holds which values, in which rows, of which type and range.

Fields, rows and values stand in the order of the bytes and nothing stands between them, so that every offset follows from the order.
The data explain; they decide nothing. What is accepted the library says, and the tests hold the data to it and to the rules.
"""
import struct
from functools import cached_property
from itertools import product
from typing import NamedTuple, Optional

# The types of section 1, as letters of struct. All numbers are big-endian.
TYPES = {'byte': 'B', 'u16': 'H', 'u32': 'I', 'i16': 'h', 'i32': 'i', 'f32': 'f'}
# A tag, one byte, and a length, u16.
HEAD = struct.Struct('>BH')


class Value(NamedTuple):
    """A value of a row. An f32 has no range."""
    name: str
    type: str
    low: Optional[int] = None
    high: Optional[int] = None


class Sum(NamedTuple):
    """The values of these names, in the rows from the first to the last, counted from 1, have a sum from low to high."""
    names: tuple
    low: int
    high: int
    rows: tuple = (1, 1)

    def groups(self, rows):
        first, last = self.rows
        yield [(row, name) for row in range(first - 1, last) for name in self.names]

    def holds(self, values):
        return self.low <= sum(values) <= self.high


class NotAbove(NamedTuple):
    """In each row the one value is not above the other."""
    low: str
    upp: str

    def groups(self, rows):
        return ([(row, self.low), (row, self.upp)] for row in range(rows.count))

    def holds(self, values):
        low, upp = values
        return low <= upp


class Rising(NamedTuple):
    """In each row but the first, of those that are counted together, the value is above that of the row before."""
    name: str

    def groups(self, rows):
        together = list(rows.counted.values())[-1]
        return ([(row, self.name), (row - 1, self.name)] for row in range(rows.count) if row % together)

    def holds(self, values):
        own, before = values
        return own > before


class Rows:
    """Rows of the same values: one for each of what is counted, such as channels and their pairs, or a single one. The relations bind
    values of one row or of several."""

    def __init__(self, counted, *values, relations=()):
        self.counted, self.values, self.relations = counted, values, relations
        self.words = [' '.join(f'{word} {number}' for word, number in zip(counted, numbers))
                      for numbers in product(*(range(1, count + 1) for count in counted.values()))]
        self.count = len(self.words)
        self.letters = ''.join(TYPES[value.type] for value in values) * self.count


class Field:
    """A tag, the length of the value, and what the value holds."""

    def __init__(self, tag, holds, *parts):
        self.tag, self.holds, self.parts = tag, holds, parts
        self.letters = ''.join(rows.letters for rows in parts)
        self.length = struct.calcsize('>' + self.letters)
        self.head = HEAD.pack(tag, self.length)


class Place(NamedTuple):
    """Where a value of a format stands, and what it may be. The row is told in words, such as `channel 5 pair 2`."""
    tag: int
    row: str
    name: str
    type: str
    offset: int
    low: Optional[int]
    high: Optional[int]


class Format:
    """A row of fields."""

    def __init__(self, name, *fields):
        self.name, self.fields = name, fields
        self.length = sum(HEAD.size + field.length for field in fields)

    @cached_property
    def heads(self):
        """Each field with the offset of its head."""
        heads, at = [], 0
        for field in self.fields:
            heads.append((at, field))
            at += HEAD.size + field.length
        return heads

    @cached_property
    def places(self):
        """The places of all values, in order."""
        places = []
        for at, field in self.heads:
            at += HEAD.size
            for rows in field.parts:
                for words, value in product(rows.words, rows.values):
                    places.append(Place(field.tag, words or field.holds, value.name, value.type, at, value.low, value.high))
                    at += struct.calcsize(TYPES[value.type])
        return places

    @cached_property
    def numbers(self):
        """Reads all values at once, in the order of their places."""
        return struct.Struct('>' + ''.join(f'{HEAD.size}x{field.letters}' for field in self.fields))

    @cached_property
    def relations(self):
        """Each relation, as often as it has to hold, with the values that it binds: their indices in the places."""
        relations, first = [], 0
        for rows in (rows for field in self.fields for rows in field.parts):
            names = [value.name for value in rows.values]
            for relation in rows.relations:
                for group in relation.groups(rows):
                    relations.append((relation, [first + row * len(names) + names.index(name) for row, name in group]))
            first += rows.count * len(names)
        return relations


def values_of(format, content):
    """Each value of a content, in order, with its place before it. The content has the format's length."""
    return zip(format.places, format.numbers.unpack(content))


W = tuple(f'w{age}' for age in range(8))
V = tuple(f'v{age}' for age in range(8))
KAV, WG = (1, 8), (9, 15)

TABLE = Format(
    'table',
    Field(0x10, 'settings', Rows(
        {},
        *(Value(name, 'byte', 0, 255) for name in W),
        *(Value(name, 'byte', 0, 255) for name in V),
        Value('percentage for thermometers', 'byte', 1, 100),
        Value('percentage for warm counts', 'byte', 1, 100),
        Value('percentage for cold counts', 'byte', 1, 100),
        Value('least number for KAV', 'byte', 1, 8),
        Value('least number for WG', 'byte', 1, 7),
        Value('R_PAM', 'u32', 1_000, 4_000_000),
        Value('T_low', 'i32', -245_760, 245_760),
        Value('T_upp', 'i32', -245_760, 245_760),
        Value('dT', 'u32', 0, 491_520),
        relations=(Sum(W, 1, 255), Sum(V, 1, 255), NotAbove('T_low', 'T_upp')),
    )),
    Field(0x11, 'thermometers', Rows(
        {'thermometer': 15},
        Value('p', 'byte', 0, 255),
        Value('R0', 'u32', 1_000, 4_000_000),
        Value('alpha', 'u32', 3_000_000, 5_000_000),
        Value('delta', 'u32', 0, 2_000_000),
        Value('beta', 'u32', 0, 500_000),
        relations=(Sum(('p',), 1, 255, KAV), Sum(('p',), 1, 255, WG)),
    )),
    Field(0x12, 'channels', Rows(
        {'channel': 22},
        Value('warm low', 'u16', 0, 65_535),
        Value('warm upp', 'u16', 0, 65_535),
        Value('warm difference', 'u16', 0, 65_535),
        Value('cold low', 'u16', 0, 65_535),
        Value('cold upp', 'u16', 0, 65_535),
        Value('cold difference', 'u16', 0, 65_535),
        Value('b', 'i16', -4_096, 4_096),
        Value('rj', 'u16', 0, 16_384),
        Value('sl', 'u16', 0, 16_384),
        Value('TNL', 'i16', 0, 0),
        relations=(NotAbove('warm low', 'warm upp'), NotAbove('cold low', 'cold upp')),
    )),
    Field(0x14, 'pairs', Rows(
        {'channel': 22, 'pair': 5},
        Value('s_j', 'i32', -245_760, 245_760),
        Value('TNL_j', 'i16', -8_192, 8_192),
        relations=(Rising('s_j'),),
    )),
)

BIAS = Format(
    'bias file',
    Field(0x13, 'scan bias', Rows(
        {'channel': 22, 'position': 96},
        Value('c0', 'i16', -4_096, 4_096),
        Value('e', 'i16', -32_768, 32_767),
    )),
)

RECORD = Format(
    'record',
    Field(0x01, 'scan number', Rows({}, Value('scan number', 'u32', 0, 4_294_967_295))),
    Field(0x02, 'thermometer counts',
          Rows({}, Value('PAM count', 'u16', 0, 65_535), Value('offset count', 'u16', 0, 65_535)),
          Rows({'thermometer': 15}, Value('count', 'u16', 0, 65_535))),
    Field(0x03, 'warm counts', Rows({'channel': 22, 'place': 4}, Value('warm count', 'u16', 0, 65_535))),
    Field(0x04, 'cold counts', Rows({'channel': 22, 'place': 4}, Value('cold count', 'u16', 0, 65_535))),
    Field(0x05, 'earth counts', Rows({'channel': 22, 'position': 96}, Value('earth count', 'u16', 0, 65_535))),
    Field(0x06, 'shelf temperatures',
          Rows({}, *(Value(shelf, 'i32', -2_147_483_648, 2_147_483_647) for shelf in ('KKA', 'V', 'W', 'G')))),
)

PRODUCT = Format(
    'product',
    Field(0x20, 'scan number', Rows({}, Value('scan number', 'u32', 0, 4_294_967_295))),
    Field(0x21, 'flags', Rows({'channel': 22}, Value('flag', 'byte', 0, 4))),
    Field(0x22, 'scenes', Rows({'channel': 22, 'position': 96}, Value('scene', 'f32'))),
    Field(0x23, 'summaries', Rows(
        {'channel': 22},
        Value('delivered scenes', 'u16', 0, 96),
        Value('lowest temperature', 'f32'),
        Value('highest temperature', 'f32'),
    )),
)

# Where the scan number stands, in a record as in a product.
SCAN_NUMBER = slice(3, 7)
