"""The command `sounder`."""
import argparse
import os
import re
import signal
import time

from . import archive, pages
from .failure import Failure, shown, shown_input
from .files import ENDING, Results, Stream, contents, drop_unfinished, is_ready, same_file, write_all
from .library import BIAS_BYTES, TABLE_BYTES, Library, Missing, Refusal, version_words

DESCRIPTION = 'Calibrates microwave sounder scans by the proved library.'
STATUS = ('The exit status is 0 only where everything asked for is on disk or was written; 1 where a table, a bias file or a part is '
          'refused, or something fails; 2 for wrong usage. A refused record is no failure.')


class Ended(BaseException):
    """A signal ends the run."""

    def __init__(self, number):
        self.number = number


# How long standard error is waited for, in seconds, where a terminal is stopped or a pipe is full; and what it then takes at once.
PATIENCE, AT_ONCE = 2, 4096


# Whether standard error was waited for in vain. Then it is not waited for again.
_unread = []


def say(words):
    """A line on standard error. What cannot be shown there ends nothing."""
    line = (words + '\n').encode('utf-8', 'backslashreplace')
    try:
        while line and not _unread:
            if is_ready(2, PATIENCE, to_write=True):
                line = line[os.write(2, line[:AT_ONCE]):]
            else:
                _unread.append(line)
    except OSError:
        pass


def print_out(text):
    """Text on standard output, which was asked for."""
    try:
        write_all(1, text.encode('utf-8', 'backslashreplace'))
    except OSError as failure:
        raise Failure(f'standard output: {failure.strerror}') from None


class Help(argparse.HelpFormatter):
    """Asks the terminal itself for its width; the parser would import a module for that."""

    def __init__(self, prog):
        try:
            width = os.get_terminal_size(1).columns
        except OSError:
            width = 80
        super().__init__(prog, width=width - 2)


class Parser(argparse.ArgumentParser):
    """Help that cannot be written is a failure, and messages go where those of a run go."""

    def print_help(self, file=None):
        print_out(self.format_help())

    def _print_message(self, message, file=None):
        say(message.rstrip('\n'))

    def error(self, message):
        # Words that are not understood may have characters that a line cannot show.
        super().error(message if message.isprintable() else message.encode('unicode_escape').decode('ascii'))


class Progress:
    """How far a run is, on a terminal alone, in one line that is written anew."""

    def __init__(self, total):
        self.total, self.said, self.width = total, time.monotonic(), 0
        self.shows = os.isatty(2)

    def show(self, records):
        if self.shows and time.monotonic() - self.said >= 0.2:
            self.said = time.monotonic()
            self.line(f'{records} of {self.total} records' if self.total else f'{records} records')

    def line(self, words):
        """Where the terminal is stopped, nothing."""
        try:
            if is_ready(2, 0, to_write=True):
                os.write(2, ('\r' + words.ljust(self.width)).encode())
                self.width = len(words)
        except OSError:
            self.shows = False

    def end(self):
        """Leaves an empty line."""
        if self.width:
            self.line('')
            self.line('')


def part(text):
    match = re.fullmatch('([0-9]{1,9})/([0-9]{1,9})', text)
    number, of = (int(word) for word in match.groups()) if match else (0, 0)
    if not 1 <= number <= of:
        raise argparse.ArgumentTypeError(f'{text!r} is not K/N with K from 1 to N')
    return number, of


def jobs(text):
    if not re.fullmatch('[0-9]{1,4}', text) or not 1 <= int(text) <= 1024:
        raise argparse.ArgumentTypeError(f'{text!r} is not a number from 1 to 1024')
    return int(text)


def added(commands, run, name, help, description):
    command = commands.add_parser(name, help=help, description=description, epilog=STATUS, allow_abbrev=False, formatter_class=Help)
    command.set_defaults(run=run)
    return command


def parser():
    main = Parser(prog='sounder', description=DESCRIPTION, epilog=STATUS, allow_abbrev=False, formatter_class=Help)
    main.add_argument('--version', action='store_true', help='print the version of the library')
    commands = main.add_subparsers(dest='command', metavar='COMMAND', title='commands', prog='sounder')

    calibrate = added(commands, run_calibrate, 'calibrate', 'calibrate an archive of scan records', (
        'Calibrates archives of scan records: their records, in order, are one list. The products of the accepted ones go to OUT, and what '
        'they were made of and which records were refused to OUT.json. Both get their names when they are whole and on the disk. Products '
        'that are there already, whole and made of the same, are not made again.'))
    calibrate.add_argument('--table', required=True, metavar='TABLE', help='the table')
    calibrate.add_argument('--bias', required=True, metavar='BIAS', help='the bias file')
    calibrate.add_argument('--jobs', type=jobs, metavar='N', help=(
        'how many pieces are calibrated at a time, 1 to 1024; if left out, as many as there are processors'))
    calibrate.add_argument('--part', type=part, default=(1, 1), metavar='K/N', help='only part K of N; `sounder join` joins the parts')
    calibrate.add_argument('archives', nargs='*', metavar='ARCHIVE', help='files of records; - is standard input')
    calibrate.add_argument('-o', dest='out', default='-', metavar='OUT', help='the file of products; - is standard output, without a page')

    join = added(commands, run_join, 'join', 'join the products of all parts', (
        'Joins the products of all parts of an archive, in order, to OUT and OUT.json, those of one run. Refuses where a part is missing, '
        'or is of another archive, table, bias file or version, or is not what its page names.'))
    join.add_argument('parts', nargs='+', metavar='PART', help='products of the parts, in order, each with its page beside it')
    join.add_argument('-o', dest='out', required=True, metavar='OUT', help='the file of products')

    check = added(commands, run_check, 'check', 'say what is wrong with a table or a bias file', (
        "Prints the library's answer to a table and to a bias file. Of a refused one it says what is wrong: the length; if that is right, "
        'every wrong tag or length in it; if these are right, every value and every sum outside its range.'))
    check.add_argument('table', metavar='TABLE', help='the table')
    check.add_argument('bias', nargs='?', metavar='BIAS', help='the bias file')
    return main


def run_check(words):
    from . import check
    library, passed = Library(), True
    for kind, name, size in (('table', words.table, TABLE_BYTES), ('bias', words.bias, BIAS_BYTES)):
        if name is not None:
            report = check.check(library, kind, shown(name), contents(name, size))
            print_out(''.join(line + '\n' for line in report.lines))
            passed = passed and report.passed
    return 0 if passed else 1


def accepted(library, kind, name, size):
    """The bytes of a table or bias file that the library accepts."""
    content = contents(name, size)
    try:
        (library.open if kind == 'table' else library.open_bias)(content)
    except Refusal:
        from . import check
        raise Failure('\n'.join(check.check(library, kind, shown(name), content).lines)) from None
    return content


def test_usage(words):
    """What the parser of the words does not see."""
    if not words.archives:
        raise Usage('an archive is needed, or - for standard input')
    if words.archives.count('-') > 1:
        raise Usage('standard input can be read once')
    if words.part != (1, 1) and '-' in words.archives:
        raise Usage('--part needs files: where standard input ends is not known before')
    if words.part != (1, 1) and words.out == '-':
        raise Usage('--part needs -o OUT: a part without its page cannot be joined')
    if '-' in words.archives and os.isatty(0):
        raise Usage('records are not read from a terminal: name an archive')
    if words.out == '-' and os.isatty(1):
        raise Usage('products are not written to a terminal: name a file with -o OUT')


def test_written(words):
    """What is read by a run is not written by it."""
    given = [(shown(name), name) for name in (words.table, words.bias)]
    given += [(shown_input(name), 0 if name == '-' else name) for name in words.archives]
    written = [('standard output', 1)] if words.out == '-' else [(shown(name), name) for name in (words.out, words.out + '.json')]
    for name, file in given:
        for other, place in written:
            if same_file(file, place) and os.path.isfile(file):
                raise Failure(f'{other}: {name}, which is read, would be written over')


def run_calibrate(words):
    # Both streams may be left out together. With OUT a list of archives that came out empty is no wish for standard input.
    words.archives = words.archives or ['-'] * (words.out == '-')
    test_usage(words)
    test_written(words)
    library = Library()
    version = version_words(library.version())
    table = accepted(library, 'table', words.table, TABLE_BYTES)
    bias = accepted(library, 'bias', words.bias, BIAS_BYTES)
    records = archive.Archive(words.archives)
    for file in records.files:
        if words.part != (1, 1) and file.size() is None:
            raise Failure(f'{shown(file.name)}: --part needs files, and the length of this is not known before it is read')
    if words.out != '-':
        page = pages.whole_page(words.out, version, table, bias, records.files, words.part)
        if page:
            say(f'{shown(words.out)}: {pages.counts(page)}; it was there and is whole')
            return 0
        pages.test_replaced(words.out)
    output = Stream() if words.out == '-' else Results(words.out)
    progress = Progress(records.records())
    count = words.jobs or len(os.sched_getaffinity(0))
    try:
        tally = archive.calibrate(archive.Calibration(library, table, bias), records, words.part, count, output.write, progress.show)
    finally:
        progress.end()
    page = pages.page_of(version, (words.table, table), (words.bias, bias), records, words.part, tally)
    if words.out == '-':
        for refused in page['refused']:
            say(range_words(records.files[refused['file']].words, refused))
    else:
        output.finish(pages.text_of(page))
    say(f'{shown(words.out) if words.out != "-" else "standard output"}: {pages.counts(page)}')
    return 0


def range_words(file, refused):
    first, last = refused['first'], refused['last']
    records = f'record {first}' if first == last else f'records {first} to {last}'
    return f'{file}: {records} offset {refused["offset"]} refused {refused["number"]}'


def run_join(words):
    page = pages.join(words.parts, words.out)
    say(f'{shown(words.out)}: {pages.counts(page)}')
    return 0


class Usage(Exception):
    """Wrong usage, in words."""


def hold_streams():
    """A stream that is closed becomes one that cannot be read and written, so that no file of a run takes its place."""
    for descriptor in (0, 1, 2):
        try:
            os.fstat(descriptor)
        except OSError:
            os.open('/dev/null', os.O_WRONLY if descriptor == 0 else os.O_RDONLY)


def end_at_signals():
    """The first signal that ends the run is told; one that is ignored, as under nohup, stays so."""
    came = []

    def end(number, frame):
        if not came:
            came.append(number)
            raise Ended(number)
    for number in ENDING:
        if signal.getsignal(number) != signal.SIG_IGN:
            signal.signal(number, end)
    # A signal that comes just before a call that waits does not end this call; the next tick does.
    signal.signal(signal.SIGALRM, lambda *_: None)
    signal.setitimer(signal.ITIMER_REAL, 1, 1)


def main(arguments=None):
    hold_streams()
    try:
        try:
            end_at_signals()
            return run(arguments)
        finally:
            drop_unfinished()
            signal.setitimer(signal.ITIMER_REAL, 0)
            # A signal that comes now finds the run ended, with its status.
            signal.pthread_sigmask(signal.SIG_BLOCK, ENDING)
    except Ended as ended:
        drop_unfinished()
        say(f'sounder: ended by {signal.Signals(ended.number).name}')
        signal.signal(ended.number, signal.SIG_DFL)
        signal.pthread_sigmask(signal.SIG_UNBLOCK, ENDING)
        os.kill(os.getpid(), ended.number)
        return 1


def run(arguments):
    """Runs the command and answers its status."""
    try:
        words = parser().parse_args(arguments)
        # What argparse makes of --table=-- and the like.
        if any(value == [] for name, value in vars(words).items() if name != 'archives'):
            raise Usage('-- ends the options: a file with this name is ./--')
        if words.version:
            print_out(f'sounder {version_words(Library().version())}\n')
            return 0
        if words.command is None:
            raise Usage('a command is needed; `sounder --help` lists them')
        return words.run(words)
    except Usage as failure:
        say(f'sounder: {failure}')
        return 2
    except (Failure, Missing) as failure:
        say(f'sounder: {failure}')
        return 1
    except MemoryError:
        say('sounder: there is too little memory')
        return 1
