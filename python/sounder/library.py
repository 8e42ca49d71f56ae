"""The library's functions, called through ctypes: include/sounder.h with buffers in place of pointers and lengths.

A buffer is anything that has the buffer protocol: bytes, bytearray, memoryview, mmap, array, a NumPy array. It is not copied, unless it is
read-only and no bytes object. What is written goes to a buffer that can be written. A ctypes call lets other threads run.

A refusal is raised as `Refusal`, with the operation, its number and plain words; those of the records of a list are answers. The functions
decide nothing themselves.
"""
import ctypes
import operator
import os

from .failure import shown

# The version that this package was written for: 10000 * major + 100 * minor + patch.
VERSION_NUMBER = 60100

TABLE_BYTES = 1404
BIAS_BYTES = 8451
RECORD_BYTES = 4648
PRODUCT_BYTES = 8706
STATE_BYTES = 12576
NO_COUNT = 253
NO_STATE = 254
NOT_FED = 255

WORDS = {
    1: 'its length is wrong',
    2: 'a tag or length in it is wrong',
    3: 'a value or a sum is outside its range',
    4: "the record's length is not 4,648 bytes",
    5: 'a tag or length in the record is wrong',
    6: "the record's number is not above the last accepted one",
    7: 'the buffer is shorter than 8,706 bytes',
    8: 'R_PAM or a coefficient is outside its range',
    9: 'the PAM count is not above the offset count',
    10: 'there is no temperature for this count',
    11: 'the channel is not 1 to 22',
    12: "no scan was accepted, or the channel's flag in the last accepted one is not 0",
    NO_STATE: 'the bytes are no state, or there is no room for one',
    NOT_FED: 'this feed was not made',
}

U8, U16, U32, SIZE, POINTER = ctypes.c_uint8, ctypes.c_uint16, ctypes.c_uint32, ctypes.c_size_t, ctypes.c_void_p
ROW = [POINTER, SIZE]
# The arguments and the answer of each function.
FUNCTIONS = {
    'sounder_version': ([], U32),
    'sounder_open': (ROW, U8),
    'sounder_open_bias': (ROW, U8),
    'sounder_thermometer': ([U32] * 5 + [U16] * 3 + [POINTER], U8),
    'sounder_feed_all': (ROW * 7, U8),
    'sounder_state_size': ([], SIZE),
    'sounder_fresh': (ROW * 3, U8),
    'sounder_feed': (ROW * 3, U8),
    'sounder_count_behind': (ROW + [U32, U32, POINTER], U8),
}


class Refusal(Exception):
    """The library refuses: `operation` is what was asked, `number` the answer, `words` what it means."""

    def __init__(self, operation, number):
        self.operation, self.number, self.words = operation, number, WORDS.get(number, 'no answer of the rules')
        super().__init__(f'{operation} is refused with {number}: {self.words}')


class Missing(Exception):
    """The library is not there, or is none that this package can use."""


def version_words(number):
    return f'{number // 10000}.{number // 100 % 100}.{number % 100}'


def _places():
    """Where the library may stand: what SOUNDER_LIBRARY names, and nothing else; or that of the checkout, or beside the installed package;
    or where the loader looks."""
    named = os.environ.get('SOUNDER_LIBRARY')
    if named:
        return [named]
    name = f'libstation.so.{VERSION_NUMBER // 10000}'
    folder = os.path.dirname(os.path.abspath(__file__))
    root = os.path.dirname(os.path.dirname(folder))
    own = [os.path.join(root, 'target', 'lib', name), os.path.join(os.path.dirname(root), name)]
    return [place for place in own if os.path.exists(place)] + [name]


def _load():
    place = _places()[0]
    try:
        loaded = ctypes.CDLL(place)
    except (OSError, UnicodeError) as failure:
        # The loader's words have the name in them, whose bytes may be no text.
        words = str(failure).rpartition(place + ': ')[2] if isinstance(failure, OSError) else 'the loader refuses it'
        raise Missing(f'the library {shown(place)} cannot be loaded ({shown(words)}): build it with `make lib`, or name it in '
                      f'SOUNDER_LIBRARY') from None
    if not hasattr(loaded, 'sounder_version'):
        raise Missing(f'{shown(place)} is not the library of the sounder calibrator')
    loaded.sounder_version.restype = ctypes.c_uint32
    found = loaded.sounder_version()
    if found // 10000 != VERSION_NUMBER // 10000 or found < VERSION_NUMBER:
        raise Missing(f'{shown(place)} is version {version_words(found)}, and this package needs {version_words(VERSION_NUMBER)} or a '
                      f'later one with the same first number')
    for name in FUNCTIONS:
        if not hasattr(loaded, name):
            raise Missing(f'{shown(place)} is not the library of the sounder calibrator: it has no {name}')
        getattr(loaded, name).argtypes, getattr(loaded, name).restype = FUNCTIONS[name]
    return loaded


def _read(buffer):
    """Pointer and length of a buffer that is only read; the pointer keeps the buffer."""
    view = memoryview(buffer).cast('B')
    if len(view) == 0:
        return None, 0
    if not view.readonly:
        return ctypes.byref(ctypes.c_char.from_buffer(view)), len(view)
    return ctypes.c_char_p(buffer if isinstance(buffer, bytes) else bytes(view)), len(view)


def _written(buffer):
    """Pointer and length of a buffer that is written."""
    view = memoryview(buffer).cast('B')
    if view.readonly:
        raise TypeError('a buffer that is written must not be read-only')
    if len(view) == 0:
        return None, 0
    return ctypes.byref(ctypes.c_char.from_buffer(view)), len(view)


def _lengths(buffer):
    """Pointer and count of a row of u32."""
    view = memoryview(buffer)
    if view.itemsize != 4 or view.format not in ('I', 'L'):
        raise TypeError("lengths must be u32, for instance array('I')")
    pointer, count = _read(view)
    return pointer, count // 4


class Library:
    """Every function of include/sounder.h. The functions keep nothing between calls, so threads may share one Library."""

    def __init__(self):
        self._functions = _load()

    def version(self):
        """10000 * major + 100 * minor + patch of the library."""
        return self._functions.sounder_version()

    def state_size(self):
        """The bytes of a state."""
        return self._functions.sounder_state_size()

    def open(self, table):
        """Opens a table."""
        _accepted('the table', self._functions.sounder_open(*_read(table)))

    def open_bias(self, bias):
        """Opens a bias file."""
        _accepted('the bias file', self._functions.sounder_open_bias(*_read(bias)))

    def thermometer(self, r_pam, r0, alpha, delta, beta, pam, offset, count):
        """The temperature of one thermometer, in units of 1/4096 degree Celsius."""
        numbers = [_whole(name, value, most) for name, value, most in (
            ('r_pam', r_pam, 2**32), ('r0', r0, 2**32), ('alpha', alpha, 2**32), ('delta', delta, 2**32), ('beta', beta, 2**32),
            ('pam', pam, 2**16), ('offset', offset, 2**16), ('count', count, 2**16))]
        t = ctypes.c_int32()
        _accepted('the thermometer', self._functions.sounder_thermometer(*numbers, ctypes.byref(t)))
        return t.value

    def feed_all(self, table, bias, records, record_lengths, buffers, buffer_lengths, answers):
        """Feeds a fresh calibrator a list of records. The answers, one byte each, are written to `answers`; a record's refusal is one of
        them and is not raised."""
        answer = self._functions.sounder_feed_all(
            *_read(table), *_read(bias), *_read(records), *_lengths(record_lengths), *_written(buffers), *_lengths(buffer_lengths),
            *_written(answers))
        self._opened(table, answer)

    def fresh(self, table, bias, state):
        """Writes the state of a fresh calibrator."""
        answer = self._functions.sounder_fresh(*_read(table), *_read(bias), *_written(state))
        if answer == NO_STATE:
            raise Refusal('the state', answer)
        self._opened(table, answer)

    def feed(self, state, record, buffer):
        """Feeds one record to the calibrator of a state, and writes its product to the front of the buffer."""
        answer = self._functions.sounder_feed(*_written(state), *_read(record), *_written(buffer))
        _accepted('the state' if answer == NO_STATE else 'the record', answer)

    def count_behind(self, state, channel, wanted):
        """The count behind a temperature, in units of 1/4096 K before scan bias, or None where no count fits."""
        channel, wanted = _whole('channel', channel, 2**32), _whole('wanted', wanted, 2**32)
        count = ctypes.c_uint16()
        answer = self._functions.sounder_count_behind(*_read(state), channel, wanted, ctypes.byref(count))
        if answer == NO_COUNT:
            return None
        _accepted('the state' if answer == NO_STATE else 'the count behind a temperature', answer)
        return count.value

    def _opened(self, table, answer):
        """Of a refused table or bias file: the table is opened first, so that it is the bias file only where the table is accepted."""
        if answer:
            self.open(table)
            raise Refusal('the bias file', answer)


def _accepted(operation, answer):
    if answer:
        raise Refusal(operation, answer)


def _whole(name, value, most):
    """A whole number below `most`: ctypes would take the lowest bits of any number."""
    value = operator.index(value)
    if not 0 <= value < most:
        raise ValueError(f'{name} is {value}, and must be from 0 to {most - 1}')
    return value
