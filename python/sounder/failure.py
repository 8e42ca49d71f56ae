"""What ends a run, in words for the user."""


class Failure(Exception):
    """Something cannot be done; the words name file, record and offset, as far as there are any."""


def shown(name):
    """A file's name for a message: as it is, or quoted where it has characters that a line cannot show."""
    return name if name.isprintable() and name == name.strip() and name else repr(name)


def shown_input(name):
    """The same of a file of an archive, where - is standard input."""
    return 'standard input' if name == '-' else shown(name)


def failed(words, failure):
    """What a call of the system that failed says of what the words name."""
    return Failure(f'{words}: {failure.strerror or failure}')
