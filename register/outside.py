"""What stands outside the table: the folders of reports and of which bytes they are, programs, and what people read."""
import collections
import contextlib
import datetime
import hashlib
import json
import os
import shutil
import stat
import sys

TOP = os.path.dirname(os.path.dirname(os.path.realpath(__file__)))
Entry = collections.namedtuple('Entry', 'name kind size mtime ctime inode')
KINDS = ((stat.S_ISREG, ''), (stat.S_ISDIR, 'a folder'), (stat.S_ISFIFO, 'a FIFO'), (stat.S_ISSOCK, 'a socket'))
PART = 1 << 20
# The status of a report without a statement: 2 for a file that cannot be read, 3 if a run may pass another time, else 4.
MAY_PASS = 3


class Refused(Exception):
    """What was asked cannot be done: the exit status, and the reason in one line."""

    def __init__(self, status, line):
        super().__init__(line)
        self.status = status


def shown(name):
    """A name in one line, from which it can be told: what cannot be printed, and a backslash, is escaped."""
    return ''.join(c if c.isprintable() and c != '\\' else f'\\x{ord(c) - 0xdc00:02x}' if '\udc80' <= c <= '\udcff'
                   else ascii(c)[1:-1] if ord(c) < 0x80 else f'\\u{ord(c):04x}' for c in os.fsdecode(name))


def one_line(text):
    return shown(text.strip().split(b'\n')[0])[:500]


def now():
    return datetime.datetime.now(datetime.timezone.utc).isoformat(timespec='milliseconds')


def note(line):
    with contextlib.suppress(OSError):
        sys.stdout.flush()
    print(f'dsr_register: {line}', file=sys.stderr, flush=True)


def program(name):
    """The path of a program: the one that the variable of its name names, such as DSR, or in PATH, or of this clone."""
    asked = os.environ.get(name.upper())
    for place in [asked] if asked else [name, *(os.path.join(TOP, folder, name) for folder in (f'crates/{name}/out', 'unproved', 'page'))]:
        if path := shutil.which(place):
            return os.path.abspath(path)
    raise Refused(2, f'{asked or name} is not there; {name.upper()} may name it')


def folders_of(reports):
    """The names of the folders in a folder, without those that begin with a dot; and what is none."""
    try:
        found = [(name, os.path.isdir(os.path.join(reports, name))) for name in sorted(os.listdir(reports)) if not name.startswith(b'.')]
    except OSError as error:
        raise Refused(2, f'{shown(reports)}: {error.strerror}') from None
    return [name for name, is_folder in found if is_folder], [name for name, is_folder in found if not is_folder]


def entry_of(path, name):
    """An entry of a folder; its kind is empty for an ordinary file, and nothing else is ever opened."""
    try:
        seen = os.stat(path)
    except FileNotFoundError:
        return Entry(name, 'a link to nothing', 0, 0, 0, 0)
    kind = next((kind for test, kind in KINDS if test(seen.st_mode)), 'a device')
    return Entry(name, kind, seen.st_size, seen.st_mtime_ns, seen.st_ctime_ns, seen.st_ino & 2 ** 63 - 1)


def looked_at(folder):
    """A folder's entries in the order of their names' bytes, but those that begin with a dot: none if it cannot be read, None if it is gone."""
    try:
        return [entry_of(os.path.join(folder, name), name) for name in sorted(os.listdir(folder)) if not name.startswith(b'.')]
    except FileNotFoundError:
        return None
    except OSError:
        return []


def opened(path):
    """An ordinary file, to read its bytes."""
    file = os.fdopen(os.open(path, os.O_RDONLY | os.O_NONBLOCK | os.O_CLOEXEC), 'rb', buffering=0)
    if not stat.S_ISREG(os.fstat(file.fileno()).st_mode):
        file.close()
        raise OSError('no ordinary file')
    return file


def digest_of(file, most=None):
    """The SHA-256 of a file, or of this many bytes at its beginning."""
    digest, at = hashlib.sha256(), 0
    while part := os.pread(file.fileno(), PART if most is None else min(PART, most - at), at):
        digest.update(part)
        at += len(part)
    return digest.hexdigest()


def digest_at(path):
    """The SHA-256 of the file at a path; empty if it cannot be read."""
    with contextlib.suppress(OSError), opened(path) as file:
        return digest_of(file)
    return ''


def digest_in(folder, entry, known):
    """The SHA-256 of an entry, or its kind if it is no ordinary file. It is read only if its digest is not known."""
    return entry.kind or known.get(entry) or digest_at(os.path.join(folder, entry.name))


def of_what(folder, entries, known, seen):
    """What a result is of: the names and digests, as a text; how the files looked; and when they were looked at."""
    read = [[os.fsdecode(entry.name), *entry[1:], digest_in(folder, entry, known)] for entry in entries]
    return dict(inputs=json.dumps([[name, digest] for name, *_, digest in read]), seen=seen, read=read)


def is_of(inputs, folder, entries, known):
    """Whether a folder's entries are those of a list. The digests of those that it reads are known from then on."""
    wanted = json.loads(inputs)
    return ([name for name, _ in wanted] == [os.fsdecode(entry.name) for entry in entries]
            and all(known.setdefault(entry, digest_in(folder, entry, known)) == digest for entry, (_, digest) in zip(entries, wanted)))
