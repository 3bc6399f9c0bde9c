#!/usr/bin/env -S python3 -B
"""Reads and writes the acceptance cases, each of which is one text in cases/.

  checks/case_files.py FOLDER    writes each case as a folder below FOLDER: its files, and args, status, expected, expected_stderr

A case is what is typed, the files that it is typed beside, and what comes of it:

    $ dsr in1.tsv                  the program and its words, as a shell reads them; `< in1.tsv` at the end is standard input
    === file in1.tsv               a file of the folder in which the program runs; any number of them
    HEAD..
    === copy examples/layout.tsv   the same for a file of the repository
    === output                     the whole standard output; left out, it is empty
    REPORT..
    === error                      the whole standard error; left out, it is empty; `=== any error` is one that is not empty
    === status 0                   the exit status
    $ dsr --seal in1.tsv           behind that, other words for the program, beside the same files and more: another run, with what
    === status 1                   comes of it

What stands under a heading is its bytes as they are, but for what an editor would not show or keep: `\\xNN` is the byte with
this number, `\\\\` a backslash, and a backslash at the end of a line takes away the line feed behind it.
"""
import atexit
import dataclasses
import os
import re
import shlex
import shutil
import sys
import tempfile

from running import TOP, content, put, text_of as text_in

CASES = os.path.join(TOP, 'cases')
COMMAND = re.compile(r"\$ (.*?)(?: < ([^ ']+))?")
RUN = re.compile(r'(?<=\n=== status \d\n)(?=\$ )')
HEADING = re.compile(r'^=== ((?:file|copy) [^\n]+|output|error|any error|status \d+)\n', re.M)
ESCAPE = re.compile(rb'\\(?:x([0-9a-f]{2})|(\\)|\n)|\\')


def plain(text):
    """The bytes that stand under a heading as this text."""
    def byte_of(found):
        if found[0] == b'\\':
            raise ValueError('a backslash that is no escape')
        return bytes.fromhex(found[1].decode()) if found[1] else found[2] or b''
    return ESCAPE.sub(byte_of, text.encode())


def escaped(line):
    """A line as it stands under a heading: what is no printed character is escaped, and so is what looks like a heading, or a
    TAB or space at the end, which an editor may take away."""
    marks = line.decode(errors='surrogateescape')
    for at, mark in enumerate(marks):
        is_kept = mark not in ' \t' if at + 1 == len(marks) else True
        if mark == '\\':
            yield '\\\\'
        elif (mark.isprintable() or mark == '\t') and is_kept and not (at == 0 and marks.startswith('=== ')):
            yield mark
        else:
            yield ''.join(f'\\x{byte:02x}' for byte in mark.encode(errors='surrogateescape'))


def shown(text):
    """Bytes as they stand under a heading."""
    *lines, last = text.split(b'\n')
    return ''.join(''.join(escaped(line)) + '\n' for line in lines) + (''.join(escaped(last)) + '\\\n' if last else '')


@dataclasses.dataclass
class Case:
    """A case, by its first run. `files` has the content of its files by name, also of the ones that it copies from the repository;
    `given` is the name of the file on standard input, or None; `error` is None for any that is not empty; `more` are the other runs."""
    program: str
    words: list
    given: str
    files: dict
    copies: list
    output: bytes
    error: bytes
    status: int
    more: list = dataclasses.field(default_factory=list)

    def runs(self):
        return [self, *self.more]

    def text(self):
        """The case as it stands in its file."""
        return ''.join(run.own_text({} if run is self else self.files) for run in self.runs())

    def own_text(self, there):
        """The text of a run, without the files that are there already."""
        command = shlex.join([self.program, *self.words]) + (f' < {self.given}' if self.given else '')
        copied = {os.path.basename(path): path for path in self.copies}
        parts = [(f'copy {copied[name]}', b'') if name in copied else (f'file {name}', text) for name, text in self.files.items() if name not in there]
        parts += [('output', self.output)] if self.output else []
        parts += [('any error', b'')] if self.error is None else [('error', self.error)] if self.error else []
        parts.append((f'status {self.status}', b''))
        return f'$ {command}\n' + ''.join(f'=== {heading}\n{shown(part)}' for heading, part in parts)

    def standard_input(self):
        return self.files[self.given] if self.given else b''

    def place(self, folder):
        """Writes its files into a folder."""
        for name, text in self.files.items():
            put(os.path.join(folder, name), text)


def case_of(text):
    """The case that has this text."""
    first, *more = RUN.split(text)
    case = run_of(first, {})
    case.more = [run_of(part, case.files) for part in more]
    return case


def run_of(text, there):
    """The run that has this text, beside files that are there."""
    head, *parts = HEADING.split(text)
    command = COMMAND.fullmatch(head.rstrip('\n'))
    if not command:
        raise ValueError('no command after $ in the first line')
    program, *words = shlex.split(command[1])
    found = {heading: plain(part) for heading, part in zip(parts[::2], parts[1::2])}
    copies = [name[5:] for name in found if name.startswith('copy ')]
    files = {**there, **{name[5:]: text for name, text in found.items() if name.startswith('file ')}, **{os.path.basename(path): content(path) for path in copies}}
    status = [int(name[7:]) for name in found if name.startswith('status ')]
    if len(status) != 1 or len(found) * 2 != len(parts):
        raise ValueError('not one status, or a heading twice')
    return Case(program, words, command[2], files, copies, found.get('output', b''), None if 'any error' in found else found.get('error', b''), status[0])


def names():
    """The names of all cases: their paths below cases/."""
    return sorted(os.path.relpath(os.path.join(folder, name), CASES) for folder, _, files in os.walk(CASES) for name in files)


def text_of(name):
    return text_in('cases', name)


def read(name):
    """The case with this name."""
    try:
        return case_of(text_of(name))
    except ValueError as error:
        raise ValueError(f'cases/{name}: {error}') from None


def write(name, case):
    put(os.path.join(CASES, name), case.text().encode())


def placed():
    """A folder in which each case is a folder, until this process ends."""
    folder = tempfile.mkdtemp()
    atexit.register(shutil.rmtree, folder)
    place_all(folder)
    return folder


def place_all(folder):
    """Writes each case as a folder below this one."""
    for name in names():
        case, path = read(name), os.path.join(folder, name)
        os.makedirs(path)
        case.place(path)
        told = {'args': ''.join(f'{word}\n' for word in case.words).encode(), 'status': f'{case.status}\n'.encode(),
                'expected': case.output, 'expected_stderr': case.error}
        for file, text in told.items():
            if text is not None:
                put(os.path.join(path, file), text)


if __name__ == '__main__':
    if len(sys.argv) != 2:
        sys.exit(__doc__)
    place_all(sys.argv[1])
