"""A statement with its files, which are read once."""
import itertools
import os

from causes import container
from checking import all_found
from files import NO_END, PIECE, Bytes, Scan, Wanted, raw_lines
from marking import mark_block, mark_fault
from refused import Refused
from remarks import Remark, difference_remark, fault_remark, ranges, standing_remark
from rest import Rest
from withheld import Left, add_block

AT_THE_END = ('NoHead', 'NoFoot', 'Read', 'Reads')


class File:
    """A file of the report: its FILE line, its name or None, its REJECT lines, and what was found in it."""

    def __init__(self, line, name):
        self.line = line
        self.name = name
        self.rejects = []
        self.scan = None
        self.bytes = None
        self.left = {}
        self.further = []

    def called(self):
        return f'File {self.line.place}' + (f' ({self.name})' if self.name is not None else '')

    def rest(self):
        """What stands in the block of the fault and behind it, or None."""
        return self.scan.rest if self.scan and self.line.fault and self.scan.rest.lines else None


class Report:
    """A statement with its files."""

    def __init__(self, statement, names, layout):
        if names and len(names) != len(statement.files):
            raise Refused(f'the statement has {len(statement.files)} files, but {len(names)} are named: '
                          'name those that dsr was given, in their order')
        self.statement = statement
        self.layout = layout
        self.files = [File(line, names[line.place - 1] if names else None) for line in statement.files]
        for reject in statement.rejects:
            self.files[reject.file - 1].rejects.append(reject)

    def read_file(self, file, on_block, on_resource=None):
        """Reads a file. Each block that was left out is given to `on_block` with its REJECT line, its lines and a note; without a
        name, all of them without lines. `on_resource` gets the resource of each other block."""
        if file.name is None:
            for reject in file.rejects:
                on_block(reject, [], '')
            return
        rejects = {it.position: it for it in file.rejects}

        def give(position, lines):
            reject = rejects[position]
            add_block(file.left.setdefault(reject.reason, Left()), self.layout, file.scan.summaries, lines)
            on_block(reject, lines, mark_block(self.layout, file.scan, reject, lines))
        repeated = {it.block for it in file.rejects if it.reason == 'DoubledBlock'}
        inputs = self.statement.seal.inputs
        file.bytes = Bytes(file.name, inputs[file.line.place - 1] if inputs else None, file.line.fault)
        file.scan = Scan(self.layout, Wanted(rejects, repeated, file.line.fault), Rest(self.layout), give, on_resource)
        file.scan.read(file.bytes)
        file.bytes.check(f'file {file.line.place} of the statement')
        self.compare(file)
        last = file.scan.fault_lines[-1] if file.line.fault else None
        if last and last.number is not None:
            mark_fault(self.layout, last, file.line.fault)

    def look_further(self, file, most=None):
        """Looks for what follows the first fault of a file that was read, at most so much of it."""
        fault = file.line.fault
        if file.scan and fault and fault.name not in NO_END and os.path.isfile(file.name) and not container(file.bytes.begin):
            with open(file.name, 'rb') as content:
                lines = raw_lines(iter(lambda: content.read(PIECE), b''))
                found = (it for it in all_found(self.layout, lines)
                         if it.line > fault.line or it.line == fault.line and (it.name, it.column) != (fault.name, fault.column))
                file.further = sorted(itertools.islice(found, most), key=lambda it: it.line)

    def compare(self, file):
        """Refuses a file that is not the one of the statement, as far as one without a seal shows it."""
        head = file.scan.head
        number, message = (self.layout.cell(head, it) if head else '' for it in ('FileNumber', 'MessageId'))
        has_key = file.line.standing in ('Ours', 'Doubled')
        if file.line.number not in ('-', number.lstrip('0')) or has_key and message != self.statement.report[0]:
            raise Refused(f'{file.called()} is number {number or "-"} of {message or "no report"}, not the file of the '
                          'statement: name the files that dsr was given, in their order, and the layout')
        fault = file.line.fault
        ends_early = fault and fault.name not in AT_THE_END and file.scan.fault_lines[-1].number is None
        if file.scan.position < file.scan.wanted.last or ends_early:
            raise Refused(f'{file.called()} has less than in the statement: was it changed, or read with a layout?')

    def file_remarks(self, file):
        """The remarks on a file that was read."""
        if file.line.standing in ('Foreign', 'Doubled'):
            yield standing_remark(self.layout, file, self.files)
        if file.line.fault:
            yield fault_remark(self.layout, file)

    def other_remarks(self):
        """The remarks on missing files and on summaries, once the files were read."""
        if self.statement.missing:
            yield Remark(f'Number {ranges(self.statement.missing)} of {self.statement.report[1]} files', 'MISSING')
        for place, differences in itertools.groupby(self.statement.differences, lambda it: it.file):
            yield difference_remark(self.layout, self.files[place - 1], list(differences))
