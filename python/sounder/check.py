"""Says what is wrong with a table or a bias file: its length; else every tag and length in it; else every value and sum.

Whether one is accepted the library decides. The lines come from the formats as data; where these disagree with it, that is said.
"""
from typing import NamedTuple

from .formats import BIAS, HEAD, TABLE, NotAbove, Rising, Sum
from .library import Refusal

# The format of each kind, and the library's function that opens it.
KINDS = {'table': (TABLE, 'open'), 'bias': (BIAS, 'open_bias')}


class Report(NamedTuple):
    """The library's answer and the lines for the user."""
    number: int
    lines: list

    @property
    def passed(self):
        """Accepted, and there is nothing to say but this."""
        return self.number == 0 and len(self.lines) == 1


def check(library, kind, name, content):
    """Asks the library for a table or a bias file, by its kind, and says why it is refused. The name is the file's, for the first line."""
    format, function = KINDS[kind]
    number, answer = 0, 'accepted'
    try:
        getattr(library, function)(content)
    except Refusal as refusal:
        number, answer = refusal.number, f'refused with {refusal.number}: {refusal.words}'
    expected, lines = judged(format, content)
    if expected != number:
        lines = [f'this is a fault of the program: by the library the {format.name} is {verdict(number)}, by the data of its format '
                 f'{verdict(expected)}', *lines]
    return Report(number, [f'{name}: {answer}', *('  ' + line for line in lines)])


def verdict(number):
    return f'refused with {number}' if number else 'accepted'


def faults(format, content):
    """What is out, a line for each, in the order of the offsets: the length alone where it is wrong, else the heads alone where one is
    wrong, else values, relations and sums."""
    return judged(format, content)[1]


def judged(format, content):
    """The number of the refusal that the data call for, or 0, and its lines. The tests run in the order of section 6 of the rules."""
    for number, test in ((1, length_faults), (2, head_faults), (3, value_faults)):
        lines = test(format, content)
        if lines:
            return number, lines
    return 0, []


def length_faults(format, content):
    length = len(content)
    if length == format.length:
        return []
    # Of a file that is too long a caller may have read the beginning alone.
    least = 'at least ' if length > format.length else ''
    return [f'the length is {least}{length:,} byte{"" if length == 1 else "s"}, and must be {format.length:,}']


def head_faults(format, content):
    heads = ((at, field, bytes(content[at:at + HEAD.size])) for at, field in format.heads)
    return [f'head at {at:,}: {shown(head)}, and must be {shown(field.head)} (field 0x{field.tag:02X})'
            for at, field, head in heads if head != field.head]


def shown(head):
    return head.hex(' ').upper()


def value_faults(format, content):
    """Each value, relation and sum that is out, at the offset that its line names first."""
    numbers = format.numbers.unpack(content)
    found = [(place.offset, range_words(place, value)) for place, value in zip(format.places, numbers)
             if place.low is not None and not place.low <= value <= place.high]
    for relation, indices in format.relations:
        values = [numbers[index] for index in indices]
        if not relation.holds(values):
            places = [format.places[index] for index in indices]
            found.append((places[0].offset, WORDS[type(relation)](relation, places, values)))
    return [words for _, words in sorted(found, key=lambda fault: fault[0])]


def field_and(row, place):
    return f'field 0x{place.tag:02X}, {row}'


def limits(low, high):
    return f'{low:,}' if low == high else f'from {low:,} to {high:,}'


def range_words(place, value):
    return f'{field_and(place.row, place)}: {place.name} at {place.offset:,} is {value:,}, and must be {limits(place.low, place.high)}'


def not_above_words(relation, places, values):
    each = ' and '.join(f'{place.name} at {place.offset:,} is {value:,}' for place, value in zip(places, values))
    return f'{field_and(places[0].row, places[0])}: {each}: {relation.low} must not be above {relation.upp}'


def rising_words(relation, places, values):
    (place, before), (value, other) = places, values
    return (f'{field_and(place.row, place)}: {place.name} at {place.offset:,} is {value:,}, and must be above {other:,}, '
            f'that of {before.row} at {before.offset:,}')


def sum_words(relation, places, values):
    """The names stand in one row, or the rows have one name."""
    first, last = places[0], places[-1]
    row, names, step = first.row, first.name, places[1].offset - first.offset
    if first.name != last.name:
        names = f'{first.name} to {last.name}'
    if first.row != last.row:
        row = f'{first.row.replace(" ", "s ")} to {last.row.split()[-1]}'
    steps = f' in steps of {step:,}' if step > 1 else ''
    return (f'{field_and(row, first)}: the sum of {names} at {first.offset:,} to {last.offset:,}{steps} is {sum(values):,}, '
            f'and must be {limits(relation.low, relation.high)}')


WORDS = {Sum: sum_words, NotAbove: not_above_words, Rising: rising_words}
