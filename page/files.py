"""The lines of a report's file that a statement speaks of: its head, summaries, rejected blocks and fault.

A file is read once, from its beginning to its end, so it may be a pipe. The bytes that `dsr` has read are hashed; those behind
them, which are there only if the file ended by a fault, are what nobody has looked at.
"""
import collections
import functools
import hashlib
import os
import stat

from refused import Refused
from seal import Digest

MOST_LINE = 8192
PIECE = 1 << 20
BYTE_ORDER_MARK = b'\xef\xbb\xbf'
BEFORE = 2
NO_END = ('Read', 'Reads')


class Line:
    """A line of a file, with its role: None for a record that is skipped or unknown, and for the end of the file.

    The marked cells are those at the positions of `marked`, and `missing` is a column for which the line has no cell.
    """

    def __init__(self, number, raw, role):
        self.number = number
        self.raw = raw
        self.role = role
        self.marked = set()
        self.missing = None

    @functools.cached_property
    def raw_cells(self):
        return self.raw.split(b'\t')

    @functools.cached_property
    def cells(self):
        """The cells; bytes that are not UTF-8 are lone surrogates."""
        return self.raw.decode('utf-8', 'surrogateescape').split('\t')


class Bytes:
    """The bytes of a file: those that `dsr` has read, of which the digest is taken, and whatever follows a fault."""

    def __init__(self, path, given, fault):
        """`given` is the digest of the statement's INPUT line, or None."""
        self.path = path
        self.given = given
        self.fault = fault.name if fault else None
        self.sha = hashlib.sha256()
        self.size = 0
        self.begin = b''
        self.has_ended = False

    def pieces(self):
        """The bytes in pieces, to the end of the file or where nothing is to be looked at any more."""
        try:
            with open(self.path, 'rb') as file:
                while size := self.next_size(file):
                    piece = file.read(size)
                    self.has_ended = not piece
                    if not piece:
                        break
                    self.hash(piece)
                    yield piece
        except OSError as error:
            if self.fault != 'Read':
                raise Refused(f'cannot read {self.path}: {error.strerror}') from None

    def next_size(self, file):
        """How much is read next. A whole file has nothing more, and what follows a fault is looked at only in an ordinary file,
        since a pipe may never end."""
        left = self.given.size - self.size if self.given else PIECE
        if left > 0:
            return min(left, PIECE)
        is_ordinary = stat.S_ISREG(os.fstat(file.fileno()).st_mode)
        return PIECE if not self.fault or self.fault not in NO_END and is_ordinary else 0

    def hash(self, piece):
        if len(self.begin) < MOST_LINE:
            self.begin += piece[:MOST_LINE]
        if not self.given or not self.fault or self.size < self.given.size:
            self.sha.update(piece)
            self.size += len(piece)

    def check(self, what):
        """Refuses a file that has other bytes than those that were read of it."""
        if self.given:
            self.given.of(Digest(self.size, self.sha.hexdigest()), self.path, what)


def raw_lines(pieces, has_end=True):
    """The lines of a text without line feed and carriage return; of one that is too long, its beginning."""
    rest, first = b'', True
    for piece in pieces:
        *lines, rest = (rest + piece).split(b'\n')
        for line in lines:
            yield cleaned(line, first)
            first = False
        rest = rest if len(rest) <= PIECE else rest[:MOST_LINE + 1 + len(BYTE_ORDER_MARK)]
    if rest and (has_end or len(rest) > MOST_LINE):
        yield cleaned(rest, first)


def cleaned(line, first):
    line = line.removeprefix(BYTE_ORDER_MARK) if first else line
    return line.removesuffix(b'\r') if len(line) <= MOST_LINE else line[:MOST_LINE + 1]


class Wanted:
    """What is asked of a file: the positions of blocks, the identifiers of repeated blocks, and its fault."""

    def __init__(self, positions=(), repeated=(), fault=None):
        self.positions = set(positions)
        self.last = max(self.positions, default=0)
        self.repeated = set(repeated)
        self.fault = fault


class Scan:
    """What was found in a file so far. Wanted blocks are given to `on_block`, with their position, once they end; each resource of
    another block to `on_resource`. What follows the fault goes to `rest`, with the open block."""

    def __init__(self, layout, wanted, rest, on_block, on_resource=None):
        self.layout = layout
        self.wanted = wanted
        self.rest = rest
        self.on_block = on_block
        self.on_resource = on_resource
        self.head = None
        self.summaries = {}
        self.first_of = {}
        self.records = self.skipped = self.position = 0
        self.block = []
        self.resource = None
        self.before = collections.deque(maxlen=BEFORE)
        self.fault_lines = []
        self.is_at_end = False

    def read(self, bytes_of_file):
        """Reads the whole file."""
        fault, follows = self.wanted.fault, False
        for number, raw in enumerate(raw_lines(bytes_of_file.pieces(), not (fault and fault.name in NO_END)), 1):
            if self.fault_lines:
                follows = True
                self.rest.take(number, raw)
            else:
                self.take(number, raw)
        if fault and not self.fault_lines:
            self.fault_lines = [*self.before, Line(None, b'', None)]
            self.leave_open()
        self.is_at_end = bytes_of_file.has_ended and not follows

    def take(self, number, raw):
        """A line up to the fault."""
        line = Line(number, raw, self.layout.role_of(raw.split(b'\t', 1)[0]))
        if self.wanted.fault and number == self.wanted.fault.line:
            self.fault_lines = [*self.before, line]
            self.end_by_fault(line)
            return
        self.before.append(line)
        if raw == b'' or raw.startswith(b'#'):
            self.skipped += 1
        else:
            self.records += 1
            self.enter(line)
        if self.resource is not None:
            self.block.append(line)

    def enter(self, line):
        """What a record opens or closes."""
        if line.role == 'HEAD' and self.head is None:
            self.head = line
        elif line.role == 'SY':
            self.summaries.setdefault(self.layout.raw_cell(line, 'SummaryRecordId'), line)
        elif line.role in ('AS', 'FOOT'):
            self.close()
            if line.role == 'AS':
                self.open(line)

    def close(self):
        """The open block ends."""
        if self.resource is not None and self.position in self.wanted.positions:
            self.on_block(self.position, self.block)
        elif self.resource is not None and self.on_resource:
            self.on_resource(self.resource)
        self.block = []
        self.resource = None

    def open(self, line):
        self.position += 1
        self.resource = line
        if self.wanted.repeated:
            number = self.layout.cell(line, 'BlockId')
            if number in self.wanted.repeated:
                self.first_of.setdefault(number, (self.position, line.number))

    def end_by_fault(self, line):
        """The line of the fault. One that closes the open block, and has a fault of counts only, lets it count."""
        if line.role == 'FOOT' and self.wanted.fault.name.startswith('Foot'):
            self.records += 1
            self.close()
        else:
            self.leave_open(line)

    def leave_open(self, line=None):
        """The block that is open where the file ends by its fault does not count."""
        self.rest.summaries.update(self.summaries)
        for each in [*self.block, *([line] if line else [])]:
            self.rest.take(each.number, each.raw)
