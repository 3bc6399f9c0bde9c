"""All faults of a file, line by line (docs/PROFILE.md, sections 1 to 5 and 7).

The first is the fault of the statement. What follows it is a guess: each line is judged as if those before it were good, so one
mistake of the sender may show several times, or hide another.
"""
from typing import NamedTuple, Optional

from columns import COLUMNS, ISRC, MAY_BE_EMPTY, is_spelled, list_of
from files import MOST_LINE, Line
from units import WHOLE, share_of

MOST_CELLS = 64
MOST_BLOCK = 64
MOST_SUMMARIES = 1000
# For each role: the fault behind each kind of record; a kind that is left out is good.
PLACES = {
    'HEAD': {'head': 'SecondHead', 'works': 'SecondHead', 'usages': 'SecondHead', 'foot': 'AfterFoot'},
    'SY': {None: 'NoHead', 'works': 'LateSummary', 'usages': 'LateSummary', 'foot': 'AfterFoot'},
    'AS': {None: 'NoHead', 'works': 'NoUsage', 'foot': 'AfterFoot'},
    'MW': {None: 'NoHead', 'head': 'NoResource', 'usages': 'LateWork', 'foot': 'AfterFoot'},
    'SU': {None: 'NoHead', 'head': 'NoResource', 'foot': 'AfterFoot'},
    'FOOT': {None: 'NoHead', 'works': 'NoUsage', 'foot': 'AfterFoot'},
}
NEXT = {'HEAD': 'head', 'SY': 'head', 'AS': 'works', 'MW': 'works', 'SU': 'usages', 'FOOT': 'foot'}
NOT_BELOW = {'NumberOfFiles': 'FileNumber', 'UsageEndDate': 'UsageStartDate'}
COUNTS = (('NumberOfLinesInFile', 'FootLines'), ('NumberOfSummaryRecords', 'FootSummaries'), ('NumberOfBlocksInFile', 'FootBlocks'))


class Found(NamedTuple):
    """A fault of a line, or the reason for which the block that begins in it would be left out."""

    line: int
    name: str
    column: Optional[str] = None
    is_reason: bool = False


class Block:
    """A block as far as it goes: its line and identifier, how many records it has, its shares, and whether a usage names a summary
    that is not there."""

    def __init__(self, number, name, isrc):
        self.number = number
        self.name = name
        self.isrc = isrc
        self.records = 1
        self.shares = 0
        self.names_unknown = False


class Checker:
    """Takes the lines of a file, and answers the faults of each."""

    def __init__(self, layout):
        self.layout = layout
        self.state = None
        self.number = 0
        self.begin()

    def begin(self):
        """A file begins, or another one that was joined to it."""
        self.summaries = set()
        self.records = self.skipped = self.blocks = 0
        self.names = set()
        self.block = None

    def take(self, raw):
        """The faults of a line."""
        self.number += 1
        if len(raw) > MOST_LINE:
            return [Found(self.number, 'LongLine')]
        try:
            raw.decode()
        except UnicodeDecodeError:
            return [Found(self.number, 'NotUtf8')]
        if raw == b'' or raw.startswith(b'#'):
            self.skipped += 1
            return []
        return list(self.take_record(raw))

    def take_record(self, raw):
        line = Line(self.number, raw, None)
        kind = line.raw_cells[0]
        line.role = self.layout.role_of(kind)
        self.records += 1
        if len(line.raw_cells) > MOST_CELLS:
            yield Found(self.number, 'ManyCells')
        elif line.role is None and kind not in self.layout.skipped:
            yield Found(self.number, 'UnknownRecord')
        elif line.role:
            wrong = self.wrong_cells(line)
            yield from wrong
            yield from self.place(line, not wrong)

    def wrong_cells(self, line):
        """The cells of a record that are missing or not spelled as they should."""
        found = [self.wrong_cell(line, column) for column in COLUMNS[line.role]]
        wrong = [it for it in found if it]
        if not wrong and line.role == 'MW' and len(list_of(self.layout.raw_cell(line, 'Parties'))) != len(
                list_of(self.layout.raw_cell(line, 'Shares'))):
            wrong = [Found(line.number, 'Uneven')]
        return wrong

    def wrong_cell(self, line, column):
        at = self.layout.position(line.role, column)
        if column not in MAY_BE_EMPTY and at >= len(line.raw_cells):
            return Found(line.number, 'MissingCell', column)
        cell = self.layout.raw_cell(line, column)
        return None if is_spelled(column, cell) and self.is_in_order(line, column, cell) else Found(line.number, 'BadCell', column)

    def is_in_order(self, line, column, cell):
        """Whether a cell of HEAD is not below another, if that is spelled as it should be."""
        if column not in NOT_BELOW:
            return True
        other = self.layout.raw_cell(line, NOT_BELOW[column])
        return not is_spelled(NOT_BELOW[column], other) or (
            int(cell) >= int(other) if column == 'NumberOfFiles' else cell >= other)

    def place(self, line, is_good):
        """The faults of a record in its place, and what it changes."""
        fault = PLACES[line.role].get(self.state)
        if not fault and self.block and line.role in ('MW', 'SU') and is_good and self.layout.raw_cell(line, 'BlockId') != self.block.name:
            fault = 'BlockNumber'
        if fault:
            yield Found(line.number, fault)
        if line.role == 'HEAD' and fault:
            self.begin()
            self.records = 1
        yield from getattr(self, f'take_{line.role.lower()}')(line, is_good and not fault)
        self.state = NEXT[line.role] if line.role != 'SY' or self.state in (None, 'head') else self.state

    def take_head(self, line, is_good):
        return ()

    def take_sy(self, line, is_good):
        name = self.layout.raw_cell(line, 'SummaryRecordId')
        if is_good and name in self.summaries:
            yield Found(line.number, 'SummaryTwice')
        self.summaries.add(name)
        if is_good and len(self.summaries) == MOST_SUMMARIES + 1:
            yield Found(line.number, 'ManySummaries')

    def take_as(self, line, is_good):
        yield from self.close()
        self.block = Block(line.number, self.layout.raw_cell(line, 'BlockId'), self.layout.raw_cell(line, 'Isrc'))

    def take_mw(self, line, is_good):
        yield from self.longer(line)
        if self.block and is_good:
            self.block.shares += sum(map(share_of, list_of(self.layout.raw_cell(line, 'Shares'))))

    def take_su(self, line, is_good):
        yield from self.longer(line)
        if self.block and self.layout.raw_cell(line, 'SummaryRecordId') not in self.summaries:
            self.block.names_unknown = True

    def longer(self, line):
        """A further record of the open block."""
        if self.block:
            self.block.records += 1
            if self.block.records == MOST_BLOCK + 1:
                yield Found(line.number, 'LongBlock')

    def take_foot(self, line, is_good):
        yield from self.close()
        if not is_good:
            return
        right = {self.records, self.records + self.skipped}, {len(self.summaries)}, {self.blocks}
        for (column, fault), numbers in zip(COUNTS, right):
            if int(self.layout.raw_cell(line, column)) not in numbers:
                yield Found(line.number, fault)

    def close(self):
        """The open block ends: the reason for which it would be left out."""
        block, self.block = self.block, None
        self.blocks += bool(block)
        if not block or self.state != 'usages':
            return
        reason = ('DoubledBlock' if block.name in self.names else 'NoIsrc' if not block.isrc
                  else 'BadIsrc' if not ISRC.fullmatch(block.isrc) else 'UnknownSummary' if block.names_unknown
                  else 'ShareOver' if block.shares > WHOLE else None)
        self.names.add(block.name)
        if reason:
            yield Found(block.number, reason, None, True)

    def end(self):
        """The fault at the end of the file."""
        if self.state is None:
            return [Found(self.number + 1, 'NoHead')]
        return [] if self.state == 'foot' else [Found(self.number + 1, 'NoFoot')]


def all_found(layout, lines):
    """What is found in the lines of a text, in their order."""
    checker = Checker(layout)
    for raw in lines:
        yield from checker.take(raw)
    yield from checker.end()
