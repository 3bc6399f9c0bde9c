"""What both second programs do with files: open them, read them to their end, and write a text to one."""
import contextlib
import io
import os
import secrets
import sys
from dataclasses import dataclass


@dataclass
class Answered(Exception):
    """The program's answer is an exit status and a line on standard error."""
    status: int
    line: bytes


class Folder(io.RawIOBase):
    """A folder: it can be opened, and its reads fail."""

    def readline(self, most=-1):
        raise IsADirectoryError

    def read(self, most=-1):
        raise IsADirectoryError


def open_file(name):
    """The file of this name, opened."""
    try:
        return Folder() if os.path.isdir(name) else open(name, 'rb')
    except OSError:
        raise Answered(2, b'cannot open ' + (name or b"''")) from None


def opened(names):
    """The files of these names, opened in their order, each with its name."""
    return [(name, open_file(name)) for name in names]


def inputs_named(names, more=()):
    """The names of what is read: standard input, whose name is -, if there is none. It can be read only once."""
    names = names or [b'-']
    if [*names, *more].count(b'-') > 1:
        raise Answered(2, b'standard input is named twice')
    return names


def open_input(name):
    """Standard input for its name, or the file of this name, opened."""
    return sys.stdin.buffer if name == b'-' else open_file(name)


def ending_with(file):
    """The bytes of a file to its end, and how it ended: Whole, or Read where a read failed."""
    content = bytearray()
    try:
        while piece := file.read(4096):
            content += piece
    except OSError:
        return bytes(content), 'Read'
    return bytes(content), 'Whole'


def print_to(name, text):
    """The text on standard output, or in the file of this name: under a name of its own beside it, which then gets its name."""
    if name is None:
        sys.stdout.buffer.write(text)
        sys.stdout.buffer.flush()
        return
    part = b'%s.%s.part' % (name, secrets.token_hex(8).encode())
    try:
        with open(part, 'xb') as out:
            out.write(text)
            out.flush()
            os.fsync(out.fileno())
        os.rename(part, name)
    except OSError:
        with contextlib.suppress(OSError):
            os.unlink(part)
        raise Answered(3, b'write failed after 0 bytes') from None
