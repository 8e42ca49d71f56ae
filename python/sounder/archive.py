"""Archives of scan records, calibrated in pieces on several threads, to the bytes of one run over all records.

A piece is one call of the library: records from before it, which its first windows reach back to, and then its own. By the restart law a
product depends on the accepted records of its window alone. The next accepted number is above the last one, so the accepted records of the
seven numbers up to the last one are enough. The last one is among them, so that numbers are refused as in one run.

Which records are accepted is the library's answer, here too. A piece is fed once with room for the product of the last accepted record
before it alone: whatever the library then answers with 7 it would have accepted by its tags and lengths and by the last number before the
piece. Among these is the greatest number, which is the last accepted one behind the piece. That a piece began with the right records is
tested when its answers are there: those that it accepted from before it must be those with which the piece before it ended.
"""
import hashlib
import mmap
import os
import stat
import struct
from array import array
from collections import Counter, namedtuple
from itertools import groupby

from .failure import Failure, failed, shown_input
from .files import is_ready, read_up_to
from .library import PRODUCT_BYTES, RECORD_BYTES
from .pipeline import Pipeline

# Records in one call, at the most: enough that those from before it, fed once more, cost little, and few enough that a piece stays small.
PIECE = 256
SMALL_PIECE = 64
# How long a stream may pause, in seconds, before what has come of a piece is calibrated.
PAUSE = 0.05
# How many numbers a piece reaches back: the last accepted number and the six before it.
NUMBERS = 7
READ = os.O_RDONLY | os.O_CLOEXEC
UNCHANGED = ('st_dev', 'st_ino', 'st_size', 'st_mtime_ns')
# Where the scan number stands in a record.
NUMBER, NUMBER_AT = struct.Struct('>I'), 3
RECORD_WITH_NUMBER = struct.Struct(f'>{NUMBER_AT}xI{RECORD_BYTES - NUMBER_AT - 4}x')
# What the library answers to a record that it refuses, and to one that it would accept if there were room for its product.
REFUSALS, NO_ROOM = (4, 5, 6), 7


class File:
    """A file of an archive, or standard input. A shorter rest at its end is one record."""

    def __init__(self, name):
        self.name, self.read, self.sum, self.descriptor = name, 0, hashlib.sha256(), None
        self.words = shown_input(name)
        try:
            status = os.fstat(0) if name == '-' else os.stat(name)
            self.status = status if stat.S_ISREG(status.st_mode) else None
            # Standard input may stand behind the beginning of a file.
            self.start = os.lseek(0, 0, os.SEEK_CUR) if self.status and name == '-' else 0
            # A file that cannot be read is told before the first record. It is opened only when its turn comes: there may be many.
            if self.status and name != '-':
                os.close(os.open(name, READ))
        except OSError as failure:
            raise failed(self.words, failure) from None

    def size(self):
        """The bytes that are to be read; None where only the end tells."""
        return max(self.status.st_size - self.start, 0) if self.status else None

    def records(self):
        """How many records the bytes read so far are."""
        return -(-self.read // RECORD_BYTES)

    def open(self):
        try:
            self.descriptor = 0 if self.name == '-' else os.open(self.name, READ)
            self.is_as_it_was()
        except OSError as failure:
            raise failed(self.words, failure) from None

    def fill(self, view):
        """Reads the next bytes, as many as the view has room for unless the file ends before, and answers how many."""
        size = self.size()
        if size is not None:
            view = view[:size - self.read]
        try:
            have = read_up_to(self.descriptor, view, self.pauses if size is None else None)
        except OSError as failure:
            raise Failure(f'{self.words}: it cannot be read from offset {self.read} on: {failure.strerror}') from None
        if size is not None and have < len(view):
            raise Failure(f'{self.words}: it ends at offset {self.read + have}, and had {size} bytes')
        self.sum.update(view[:have])
        self.read += have
        return have

    def pauses(self, have):
        """Whether whole records are there and nothing comes for the moment: products of a slow stream do not wait for a whole piece."""
        return have and have % RECORD_BYTES == 0 and not is_ready(self.descriptor, PAUSE)

    def close(self):
        self.is_as_it_was()
        if self.status and os.read(self.descriptor, 1):
            raise Failure(f'{self.words}: it goes on behind its size, {self.status.st_size} bytes')
        if self.descriptor != 0:
            os.close(self.descriptor)

    def is_as_it_was(self):
        """A file that changes while it is read is none that a page could name."""
        status = os.fstat(self.descriptor)
        if self.status and any(getattr(status, name) != getattr(self.status, name) for name in UNCHANGED):
            raise Failure(f'{self.words}: it has changed since the run began')


class Archive:
    """The files of an archive, in order: one list of records."""

    def __init__(self, names):
        self.files = [File(name) for name in names]

    def records(self):
        """How many records there are, or None where only the end tells."""
        sizes = [file.size() for file in self.files]
        return None if None in sizes else sum(-(-size // RECORD_BYTES) for size in sizes)


# A record from before a piece: its place in the archive, counted from 0, its number and its bytes.
Record = namedtuple('Record', 'place number content')


class Piece:
    """Room for one call of the library. The own records stand behind room for those from before the piece."""

    def __init__(self):
        # Memory that is not filled before it is used.
        self.bytes = memoryview(mmap.mmap(-1, (NUMBERS + PIECE) * RECORD_BYTES))
        self.products = memoryview(mmap.mmap(-1, (NUMBERS + PIECE) * PRODUCT_BYTES))
        self.own = self.bytes[NUMBERS * RECORD_BYTES:]
        self.answers = bytearray(NUMBERS + PIECE)
        self.lengths = array('I', [RECORD_BYTES] * (NUMBERS + PIECE))
        self.rooms = array('I', [PRODUCT_BYTES] * (NUMBERS + PIECE))

    def fill(self, file, place, records):
        """Reads at most so many own records, the first of which has this place in the archive, and answers whether there is one."""
        self.file, self.place, self.first = file, place, file.records()
        have = file.fill(self.own[:records * RECORD_BYTES])
        self.count, rest = -(-have // RECORD_BYTES), have % RECORD_BYTES
        self.last_length = rest or RECORD_BYTES
        return self.count > 0

    def follow(self, before):
        """Puts the records in front that the own ones need from before the piece."""
        self.before, self.all = before, len(before) + self.count
        for at, record in enumerate(before):
            self.bytes[self.offset(at):self.offset(at + 1)] = record.content

    def call(self, library, table, bias, buffers, rooms):
        """Feeds the records of the piece with these rooms for products; answers the answers."""
        lengths = memoryview(self.lengths)[:self.all]
        lengths[self.all - 1] = self.last_length
        answers = memoryview(self.answers)[:self.all]
        library.feed_all(table, bias, self.bytes[self.offset(0):], lengths, buffers, rooms, answers)
        lengths[self.all - 1] = RECORD_BYTES
        return bytes(answers)

    def offset(self, at):
        """Where record `at` of the call begins, counted from 0 with those from before the piece."""
        return (NUMBERS - len(self.before) + at) * RECORD_BYTES

    def number(self, at):
        """Its scan number, if its tags and lengths are right."""
        return NUMBER.unpack_from(self.bytes, self.offset(at) + NUMBER_AT)[0]

    def numbers(self):
        """The same of each own record that has its whole length."""
        return RECORD_WITH_NUMBER.iter_unpack(self.own[:(self.count - (self.last_length < RECORD_BYTES)) * RECORD_BYTES])

    def place_of(self, at):
        return self.before[at].place if at < len(self.before) else self.place + at - len(self.before)

    def record(self, at):
        offset = self.offset(at)
        return Record(self.place_of(at), self.number(at), bytes(self.bytes[offset:offset + RECORD_BYTES]))

    def words(self, at):
        """Names an own record of the piece."""
        record = self.first + at
        return f'{self.file.words}: record {record} offset {record * RECORD_BYTES}'

    def product_rows(self):
        """The products of the own records, as rows that stand in one piece."""
        for answer, begin, end in rows_of(self.given[len(self.before):]):
            if answer == 0:
                yield self.products[(NUMBERS + begin) * PRODUCT_BYTES:(NUMBERS + end) * PRODUCT_BYTES]


def rows_of(answers):
    """Rows of equal answers: the answer, the first place, and the one behind the last."""
    begin = 0
    for answer, row in groupby(answers):
        end = begin + sum(1 for _ in row)
        yield answer, begin, end
        begin = end


class Calibration:
    """One table and one bias file, with the library."""

    def __init__(self, library, table, bias):
        self.library, self.table, self.bias = library, table, bias
        self.no_room = array('I', [0] * (NUMBERS + PIECE))
        self.one_product = bytearray(PRODUCT_BYTES)

    def feed(self, piece):
        """The products and answers of a piece."""
        begin = (NUMBERS - len(piece.before)) * PRODUCT_BYTES
        piece.given = piece.call(self.library, self.table, self.bias, piece.products[begin:], memoryview(piece.rooms)[:piece.all])

    def before_next(self, piece):
        """The records that the piece behind this one needs from before it. Only the last accepted one from before this piece has room for
        a product, so that an own record is answered with 7 where its tags and lengths are right and its number is above that one's."""
        rooms = memoryview(self.no_room)[:piece.all]
        last = max(range(len(piece.before)), key=lambda at: (piece.before[at].number, -at), default=None)
        if last is not None:
            rooms[last] = PRODUCT_BYTES
        answers = piece.call(self.library, self.table, self.bias, self.one_product, rooms)
        if last is not None:
            rooms[last] = 0
        begin = len(piece.before)
        above = {at: number for at, (number,) in enumerate(piece.numbers(), begin) if answers[at] == NO_ROOM}
        if not above:
            return piece.before
        least = max(above.values()) - NUMBERS + 1
        records = [record for record in piece.before if record.number >= least]
        records += [piece.record(at) for at, number in above.items() if number >= least]
        return records if len(records) <= NUMBERS else self.accepted(records)

    def accepted(self, records):
        """Those of a row of records that a fresh calibrator accepts."""
        count = len(records)
        answers = bytearray(count)
        self.library.feed_all(
            self.table, self.bias, b''.join(record.content for record in records), array('I', [RECORD_BYTES] * count),
            bytearray(PRODUCT_BYTES * count), array('I', [PRODUCT_BYTES] * count), answers)
        return [record for record, answer in zip(records, answers) if answer == 0]


class Tally:
    """What became of the records of a part."""

    def __init__(self, files):
        self.files = files
        self.records = self.products = 0
        self.refusals, self.refused = Counter(), []
        self.sum = hashlib.sha256()
        # Place and number of the accepted records of the last seven numbers, before the part and behind what is taken of it.
        self.began = self.ended = None

    def begin(self, accepted):
        self.began = self.ended = [(record.place, record.number) for record in accepted]

    def take(self, piece):
        """Takes the answers of the next piece."""
        before, own = piece.given[:len(piece.before)], piece.given[len(piece.before):]
        began = [(record.place, record.number) for record, answer in zip(piece.before, before) if answer == 0]
        if began != self.ended:
            raise Failure(f'{piece.words(0)}: the records fed before it are {began}, and those accepted before it are {self.ended}')
        for answer, begin, end in rows_of(own):
            if answer == 0:
                self.products += end - begin
            elif answer in REFUSALS:
                self.refusals[answer] += end - begin
                add_range(self.refused, self.range(piece, answer, begin, end))
            else:
                raise Failure(f'{piece.words(begin)}: the library answers {answer}')
        self.records += len(own)
        self.ended = self.last_of(piece)

    def range(self, piece, answer, begin, end):
        first = piece.first + begin
        return {'file': self.files.index(piece.file), 'first': first, 'last': piece.first + end - 1, 'offset': first * RECORD_BYTES,
                'number': answer}

    def last_of(self, piece):
        """Place and number of the accepted records of the last seven numbers."""
        found, at = [], len(piece.given)
        while (at := piece.given.rfind(0, 0, at)) >= 0 and (not found or piece.number(at) + NUMBERS > found[0][1]):
            found.append((piece.place_of(at), piece.number(at)))
        return found[::-1]


def add_range(refused, new):
    """Adds a range behind the others; where it goes on with the last one, both are one."""
    last = refused[-1] if refused else None
    if last and (last['file'], last['number'], last['last'] + 1) == (new['file'], new['number'], new['first']):
        last['last'] = new['last']
    else:
        refused.append(new)


def bounds(part, records):
    """The first record of part K of N and the one behind its last."""
    number, of = part
    return records * (number - 1) // of, records * number // of


def size_of_next(place, left, jobs):
    """How many records the next piece has: few at the beginning and at the end, so that no thread waits long for its first piece, nor for
    the last of another."""
    return int(min(PIECE, left, max(SMALL_PIECE, min(place, left / (4 * jobs)))))


def read_pieces(archive, low, high, jobs, pipeline):
    """Reads the archive into free slots, piece by piece. No piece reaches over the beginning of the part or its end."""
    place, records = 0, archive.records()
    ends = (low, high, float('inf') if records is None else records)
    for file in archive.files:
        file.open()
        while True:
            piece = pipeline.slot()
            left = next((end for end in ends if place < end), place + 1) - place
            if not piece.fill(file, place, size_of_next(place, left, jobs)):
                pipeline.give_back(piece)
                break
            place += piece.count
            yield piece
        file.close()


def rooms_for(pieces):
    try:
        return [Piece() for _ in range(pieces)]
    except OSError as failure:
        raise Failure(f'there is no memory for {pieces} pieces: {failure.strerror}; take fewer with --jobs') from None


def calibrate(calibration, archive, part, jobs, write, show):
    """Calibrates one part of an archive, writes its products in order, and answers what became of its records. `show` is told how many
    records were read."""
    low, high = bounds(part, archive.records()) if part != (1, 1) else (0, float('inf'))
    tally, before = Tally(archive.files), []

    def take(piece):
        tally.take(piece)
        for row in piece.product_rows():
            tally.sum.update(row)

    def keep(piece):
        for row in piece.product_rows():
            write(row)

    pipeline = Pipeline(rooms_for(jobs + 3), calibration.feed, [take, keep], jobs)
    try:
        for piece in read_pieces(archive, low, high, jobs, pipeline):
            if piece.place == low:
                tally.begin(calibration.accepted(before))
            piece.follow(before)
            if piece.place < high:
                before = calibration.before_next(piece)
            if low <= piece.place < high:
                pipeline.put(piece)
            else:
                pipeline.give_back(piece)
            show(piece.place + piece.count)
        if tally.began is None:
            tally.begin(calibration.accepted(before))
        pipeline.end()
    finally:
        pipeline.stop()
    return tally
