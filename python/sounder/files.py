"""Files that are read whole, and results that get their names only once they are whole and on the disk."""
import contextlib
import errno
import fcntl
import os
import re
import select
import signal
import stat
import time

from .failure import Failure, failed, shown

# Signals that end a run. While results get their names, they wait.
ENDING = (signal.SIGINT, signal.SIGTERM, signal.SIGHUP)


def contents(name, most):
    """The bytes of a small file, and one more than `most` at the most, so that a longer one is seen."""
    try:
        with open(name, 'rb', buffering=0) as file:
            parts = []
            while (left := most + 1 - sum(map(len, parts))) and (part := file.read(left)):
                parts.append(part)
            return b''.join(parts)
    except OSError as failure:
        raise failed(shown(name), failure) from None


def read_up_to(descriptor, view, pause=None):
    """Fills the view, unless the input ends before, or `pause` says of the bytes that there are that it may stop; answers how many there
    are."""
    have = 0
    while have < len(view) and not (pause and pause(have)) and (more := os.readv(descriptor, [view[have:]])):
        have += more
    return have


def is_ready(descriptor, seconds, to_write=False):
    """Whether a read, or a write, has not to wait longer than so many seconds."""
    sides = ([], [descriptor]) if to_write else ([descriptor], [])
    try:
        return any(select.select(*sides, [], seconds))
    except (OSError, ValueError):
        # Above 1,023 a descriptor cannot be asked; a read or a write then tells.
        return True


def write_all(descriptor, view):
    """Writes all bytes."""
    view = memoryview(view)
    while view:
        view = view[os.write(descriptor, view):]


class Stream:
    """Results on standard output. They have no page."""

    def write(self, view):
        try:
            write_all(1, view)
        except OSError as failure:
            raise Failure(f'standard output: {failure.strerror}') from None


# Names of files that are being written, and of the lock for naming results.
OWN_NAME = re.compile(r'\.sounder-[0-9a-f]{16}\.part')
TURN_NAME = '.sounder-turn'
# Files that are written and have not yet the name of a result: each a folder and a name.
_unfinished = set()


def drop_unfinished():
    """Removes every file that is not whole."""
    for folder, name in tuple(_unfinished):
        with contextlib.suppress(OSError):
            os.unlink(name, dir_fd=folder)
        _unfinished.discard((folder, name))


def own_name():
    return f'.sounder-{os.urandom(8).hex()}.part'


def _locked(descriptor, how=fcntl.LOCK_EX):
    """Whether there is a lock now. A file system may have none."""
    try:
        fcntl.flock(descriptor, how)
    except OSError:
        return False
    return True


def _is_open_as(descriptor, folder, name):
    """Whether a name is still that of an open file."""
    try:
        return os.path.samestat(os.fstat(descriptor), os.stat(name, dir_fd=folder, follow_symlinks=False))
    except FileNotFoundError:
        return False


class Written:
    """A file that is being written, under a name of its own in the folder where it will stand, and locked as long as the run lasts. The
    folder is held, so that it stays the same whatever it is called meanwhile."""

    def __init__(self, place):
        self.name, self.own = os.path.basename(place), own_name()
        self.folder = os.open(os.path.dirname(place), os.O_RDONLY | os.O_DIRECTORY | os.O_CLOEXEC)
        _unfinished.add((self.folder, self.own))
        self.descriptor = os.open(self.own, os.O_RDWR | os.O_CREAT | os.O_EXCL | os.O_CLOEXEC, 0o666, dir_fd=self.folder)
        _locked(self.descriptor)

    def is_there(self):
        return _is_open_as(self.descriptor, self.folder, self.own)

    def get_name(self):
        """The file gets its name, and the folder with it is on the disk."""
        os.rename(self.own, self.name, src_dir_fd=self.folder, dst_dir_fd=self.folder)
        _unfinished.discard((self.folder, self.own))
        self.sync_folder()

    def sync_folder(self):
        try:
            os.fsync(self.folder)
        except OSError as failure:
            # Some file systems have nothing to bring to the disk of a folder.
            if failure.errno not in (errno.EINVAL, errno.ENOTSUP):
                raise

    def close(self):
        for descriptor in (self.descriptor, self.folder):
            os.close(descriptor)


def _remove_left_behind(folder):
    """Removes what a run that was killed has left: files that no run holds. One that is new may be about to be locked."""
    for name in os.listdir(folder):
        if not OWN_NAME.fullmatch(name):
            continue
        with contextlib.suppress(OSError):
            descriptor = os.open(name, os.O_RDWR | os.O_CLOEXEC | os.O_NOFOLLOW | os.O_NONBLOCK, dir_fd=folder)
            try:
                if abs(time.time() - os.fstat(descriptor).st_mtime) > 60 and _locked(descriptor, fcntl.LOCK_EX | fcntl.LOCK_NB):
                    os.unlink(name, dir_fd=folder)
            finally:
                os.close(descriptor)


@contextlib.contextmanager
def _turn(folder):
    """Meanwhile no other run names its results in this folder, and no signal ends this one. A signal may come while it waits. The file
    that is locked goes with the lock, so that whoever has waited asks whether it is still the one in the folder."""
    while True:
        descriptor = os.open(TURN_NAME, os.O_RDWR | os.O_CREAT | os.O_CLOEXEC, 0o666, dir_fd=folder)
        # Without a lock the sums in a page still tell whether the products are its own.
        if not _locked(descriptor) or _is_open_as(descriptor, folder, TURN_NAME):
            break
        os.close(descriptor)
    before = signal.pthread_sigmask(signal.SIG_BLOCK, ENDING)
    try:
        yield
    finally:
        with contextlib.suppress(OSError):
            os.unlink(TURN_NAME, dir_fd=folder)
        os.close(descriptor)
        signal.pthread_sigmask(signal.SIG_SETMASK, before)


def _can_be_named(place):
    """Whether a result may get this name: there is nothing yet, or a file. A name that is too long is told before the first record."""
    try:
        return stat.S_ISREG(os.lstat(place).st_mode)
    except FileNotFoundError:
        return True


class Results:
    """A file of products and its page, whose name has .json behind. Both get their names when both are whole and on the disk, the products
    first: a page never stands beside products that are not its own."""

    def __init__(self, name):
        self.given, self.written = name, 0
        try:
            if name.endswith('/') and not os.path.isdir(name):
                raise Failure(f'{shown(name)}: this is no name of a file')
            places = [os.path.realpath(own) for own in (name, name + '.json')]
            if places[0] == places[1]:
                raise Failure(f'{shown(name)}: the name of its page leads to the same file')
            for place in places:
                if not _can_be_named(place):
                    raise Failure(f'{shown(place)}: there is something that is no file; it is left as it is')
            self.products, self.page = (Written(place) for place in places)
            _remove_left_behind(self.products.folder)
        except OSError as failure:
            raise Failure(f'{shown(name)}: no file can be made there: {failure.strerror}') from None

    def write(self, view):
        try:
            write_all(self.products.descriptor, view)
            # The disk begins with these bytes at once, so that little is left to wait for in the end.
            os.posix_fadvise(self.products.descriptor, self.written, len(view), os.POSIX_FADV_DONTNEED)
            self.written += len(view)
        except OSError as failure:
            raise Failure(f'{shown(self.given)}: products cannot be written: {failure.strerror}') from None

    def finish(self, page):
        """Brings products and page to the disk and gives them their names."""
        try:
            write_all(self.page.descriptor, page)
            for file in (self.products, self.page):
                os.fsync(file.descriptor)
            with _turn(self.products.folder):
                self._name()
            for file in (self.products, self.page):
                file.close()
        except OSError as failure:
            raise Failure(f'{shown(self.given)}: {failure.strerror}') from None

    def _name(self):
        """The page of an earlier run goes first."""
        if not (self.products.is_there() and self.page.is_there()):
            raise Failure(f'{shown(self.given)}: what was written beside it is not there any more')
        with contextlib.suppress(FileNotFoundError):
            os.unlink(self.page.name, dir_fd=self.page.folder)
        for file in (self.products, self.page):
            file.get_name()


def same_file(name, other):
    try:
        return os.path.samefile(name, other)
    except OSError:
        return False
