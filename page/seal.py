"""The seal of a statement: of which bytes of which files it is, and that it is whole."""
import hashlib
import re

from refused import Refused

SHA = '([0-9a-f]{64})'
NUMBER = '(0|[1-9][0-9]*)'
LAYOUT = re.compile(f'LAYOUT\t{NUMBER}\t{SHA}\n'.encode())
INPUT = re.compile(f'INPUT\t{NUMBER}\t{NUMBER}\t{SHA}\n'.encode())
END = re.compile(f'END\t{NUMBER}\t(Clean|Remarks)\n'.encode())
UNSEALED = 'it has no seal, so nothing shows of which files it is, nor that it is whole: make it by dsr --seal, or give --unsealed'


def is_seal(raw):
    return raw.split(b'\t', 1)[0] in (b'LAYOUT', b'INPUT', b'END')


class Digest:
    """The size and the SHA-256 of bytes."""

    def __init__(self, size, sha):
        self.size = size
        self.sha = sha

    def told(self):
        return f'{self.sha} ({self.size} bytes)'

    def of(self, found, name, what):
        """Refuses other bytes."""
        if (found.size, found.sha) != (self.size, self.sha):
            raise Refused(f'{name}: these are not the bytes of {what}: its SHA-256 is {self.told()}, that of the file {found.told()}')


def digest_of(content):
    return Digest(len(content), hashlib.sha256(content).hexdigest())


class Seal:
    """The seal's lines, which are the last of a statement."""

    def __init__(self):
        self.has_begun = False
        self.layout = None
        self.inputs = []
        self.ended = None

    def take(self, number, raw):
        self.has_begun = True
        layout, given, end = LAYOUT.fullmatch(raw), INPUT.fullmatch(raw), END.fullmatch(raw)
        if self.ended:
            raise Refused(f'line {number}: it stands behind the end of the statement')
        if layout and self.layout is None and not self.inputs:
            self.layout = Digest(int(layout[1]), layout[2].decode())
        elif given and int(given[1]) == len(self.inputs) + 1:
            self.inputs.append(Digest(int(given[2]), given[3].decode()))
        elif end:
            self.ended = number, int(end[1]), end[2].decode()
        else:
            raise Refused(f'line {number}: it is no line of a seal, or does not stand where it should')

    def is_next(self, raw):
        """Whether a line is one of the seal, or stands behind its beginning."""
        return self.has_begun or is_seal(raw)

    def end(self, statement, may_be_missing):
        """Refuses a statement that is not whole, or that has no seal."""
        if not self.has_begun and may_be_missing:
            return
        if not self.has_begun:
            raise Refused(UNSEALED)
        if not self.ended:
            raise Refused('it is cut off in its seal')
        number, lines, status = self.ended
        found = 'Clean' if statement.is_clean() else 'Remarks'
        if (lines, status, len(self.inputs)) != (number - 1, found, len(statement.files)):
            raise Refused(f'line {number}: its seal says {lines} lines and {status}, and has {len(self.inputs)} files; '
                          f'there are {number - 1} lines, {found} and {len(statement.files)} files')

    def check_layout(self, layout, path):
        """Refuses a layout that is not the one with which the files were read."""
        if self.has_begun and layout.text is None and self.layout is not None:
            raise Refused(f'the files were read with a layout: give it by --layout; its SHA-256 is {self.layout.told()}')
        if self.has_begun and layout.text is not None and self.layout is None:
            raise Refused(f'{path}: the files were read without a layout')
        if self.layout is not None:
            self.layout.of(digest_of(layout.text), path, 'the layout')
