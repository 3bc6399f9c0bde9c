#!/usr/bin/env -S python3 -B
"""A second program: reads the files of a report and makes the statement, plainly and slowly.

  statement.py [--seal] [--layout LAYOUT] [--output FILE] [FILE]...

It is written from docs/PROFILE.md alone, section by section, and shares nothing with the program that it is
compared with. Texts are bytes throughout. --seal puts lines behind the statement that say of which bytes it is, and that it
is whole. With no FILE standard input is the one; its name is `-`. The exit status is 0 for Clean, 1 for Remarks, 2 for the command line, a bad
layout or a file that cannot be opened, and 3 if a write fails.
"""
import argparse
import hashlib
import os
import re
import sys
from dataclasses import dataclass

from files import Answered, ending_with, inputs_named, open_input, opened, print_to

MARK = b'\xef\xbb\xbf'
PIECE = 4096
MOST_LINE = 8192
MOST_CELLS = 64
MOST_BLOCK = 64
MOST_SUMMARIES = 1000
MOST_LAYOUT = 65_536
MOST_SKIPS = 64
MOST_PARTS = 1_000_000

# ------------------------------------------------------------ section 2: columns; True where it may be empty

COLUMNS = {
    'HEAD': [('MessageId', False), ('FileNumber', False), ('NumberOfFiles', False), ('UsageStartDate', False),
             ('UsageEndDate', False), ('Sender', True), ('Recipient', True)],
    'SY': [('SummaryRecordId', False), ('Territory', False), ('UseType', False), ('Currency', False),
           ('Usages', False), ('Amount', False)],
    'AS': [('BlockId', False), ('Isrc', True), ('Titles', True), ('Artists', True)],
    'MW': [('BlockId', False), ('WorkId', True), ('Title', True), ('Parties', True), ('Shares', True)],
    'SU': [('BlockId', False), ('SummaryRecordId', False), ('Usages', False), ('Amount', False)],
    'FOOT': [('NumberOfLinesInFile', False), ('NumberOfSummaryRecords', False), ('NumberOfBlocksInFile', False)],
}


@dataclass
class Fault(Exception):
    """A fault of a file: its name, and the column after MissingCell and BadCell."""
    name: str
    column: str = None


@dataclass
class LayoutFault(Exception):
    """A fault of a layout, at a line."""
    line: int
    name: str


class Bad(Exception):
    """A cell that is not spelled as its column wants it."""


# ------------------------------------------------------------ section 1: texts and lines

def cut(text, whole):
    """The lines of a text, each as its bytes before the checks of a line."""
    if text.startswith(MARK):
        text = text[len(MARK):]
    pieces = text.split(b'\n')
    last = pieces.pop()
    if last and (whole or len(last) > MOST_LINE):
        pieces.append(last)
    return pieces


def checked(line):
    """A line without its carriage return, or its fault."""
    if len(line) > MOST_LINE:
        raise Fault('LongLine')
    if line.endswith(b'\r'):
        line = line[:-1]
    try:
        line.decode('utf-8')
    except UnicodeDecodeError:
        raise Fault('NotUtf8') from None
    return line


# ------------------------------------------------------------ section 3: spellings

def pattern(expression):
    """The reader of a text that matches an expression as a whole."""
    compiled = re.compile(expression.encode())

    def read(cell):
        if not compiled.fullmatch(cell):
            raise Bad
        return cell
    return read


def number(cell, least=0, most=999_999_999_999):
    if not re.fullmatch(rb'[0-9]{1,12}', cell) or not least <= int(cell) <= most:
        raise Bad
    return int(cell)


def whole_number(cell):
    if not re.fullmatch(rb'-?[0-9]{1,12}', cell):
        raise Bad
    return int(cell)


def amount(cell):
    """An amount in units of 10^-10."""
    match = re.fullmatch(rb'(-?)([0-9]{1,12})(?:\.([0-9]{1,10}))?', cell)
    if not match:
        raise Bad
    sign, whole, part = match.groups()
    units = int(whole) * 10 ** 10 + int((part or b'').ljust(10, b'0'))
    return -units if sign else units


def share(part):
    """A share in units of 0.0001 percent."""
    match = re.fullmatch(rb'([0-9]{1,3})(?:\.([0-9]{1,4}))?', part)
    if not match:
        raise Bad
    parts = int(match.group(1)) * 10_000 + int((match.group(2) or b'').ljust(4, b'0'))
    if parts > MOST_PARTS:
        raise Bad
    return parts


def is_leap(year):
    return year % 4 == 0 and (year % 100 != 0 or year % 400 == 0)


def days_of(year, month):
    return 29 if month == 2 and is_leap(year) else (31, 28, 31, 30, 31, 30, 31, 31, 30, 31, 30, 31)[month - 1]


def day(cell):
    """A day as (its number, its spelling)."""
    if not re.fullmatch(rb'[0-9]{4}-[0-9]{2}-[0-9]{2}', cell):
        raise Bad
    year, month, date = int(cell[:4]), int(cell[5:7]), int(cell[8:])
    if not 1 <= month <= 12 or not 1 <= date <= days_of(year, month):
        raise Bad
    leaps = (year + 3) // 4 - (year + 99) // 100 + (year + 399) // 400
    return year * 365 + leaps + sum(days_of(year, m) for m in range(1, month)) + date, cell


def raw_values(cell):
    """The raw parts of a list cell, between unescaped pipes."""
    if not cell:
        return []
    parts = [b'']
    at = 0
    while at < len(cell):
        if cell[at:at + 2] in (b'\\|', b'\\\\'):
            parts[-1] += cell[at:at + 2]
            at += 2
        elif cell[at:at + 1] == b'|':
            parts.append(b'')
            at += 1
        else:
            parts[-1] += cell[at:at + 1]
            at += 1
    return parts


def unescaped(part):
    return re.sub(rb'\\([\\|])', rb'\1', part)


def values(cell):
    return [unescaped(part) for part in raw_values(cell)]


def shares(cell):
    return [share(part) for part in raw_values(cell)]


def text(cell):
    return cell


def is_isrc(cell):
    return re.fullmatch(rb'[A-Z]{2}[A-Z0-9]{3}[0-9]{2}[0-9]{5}', cell) is not None


SPELLINGS = {
    'MessageId': pattern('[ -~]{1,64}'), 'SummaryRecordId': pattern('[ -~]{1,32}'), 'BlockId': pattern('[ -~]{1,32}'),
    'FileNumber': lambda cell: number(cell, 1, 9999), 'NumberOfFiles': lambda cell: number(cell, 1, 9999),
    'UsageStartDate': day, 'UsageEndDate': day,
    'Territory': pattern('[A-Za-z0-9-]{1,16}'), 'UseType': pattern('[A-Za-z0-9]{1,64}'), 'Currency': pattern('[A-Z]{3}'),
    'Usages': whole_number, 'Amount': amount, 'Shares': shares,
    'NumberOfLinesInFile': number, 'NumberOfSummaryRecords': number, 'NumberOfBlocksInFile': number,
    'Isrc': text, 'Sender': text, 'Recipient': text, 'WorkId': text, 'Title': text,
    'Titles': values, 'Artists': values, 'Parties': values,
}


# ------------------------------------------------------------ section 8: layouts

STANDARD = b'''HEAD\tHEAD\t1\t2\t3\t4\t5\t6\t7
SY\tSY01\t1\t2\t3\t4\t5\t6
AS\tAS01\t1\t2\t3\t4
MW\tMW01\t1\t2\t3\t4\t5
SU\tSU01\t1\t2\t3\t4
FOOT\tFOOT\t1\t2\t3
'''


class Layout:
    """The role of each record type, the positions of each role's columns, and the types that are skipped."""

    def __init__(self, content):
        self.roles, self.positions, self.skipped = {}, {}, set()
        if len(content) > MOST_LAYOUT:
            raise LayoutFault(1, 'Large')
        lines = cut(content, True)
        for at, line in enumerate(lines, 1):
            try:
                self.take(checked(line))
            except Fault as fault:
                raise LayoutFault(at, fault.name) from None
        if len(self.positions) < len(COLUMNS):
            raise LayoutFault(len(lines) + 1, 'MissingRole')

    def take(self, line):
        if not line or line.startswith(b'#'):
            return
        cells = line.split(b'\t')
        role = cells[0].decode()
        kind = cells[1] if len(cells) > 1 else b''
        if role != 'SKIP' and role not in COLUMNS:
            raise Fault('UnknownRole')
        if not re.fullmatch(rb'[A-Za-z0-9.]{1,16}', kind):
            raise Fault('BadType')
        if role in self.positions:
            raise Fault('RoleTwice')
        if kind in self.roles or kind in self.skipped:
            raise Fault('TypeTwice')
        if role == 'SKIP':
            if len(self.skipped) == MOST_SKIPS:
                raise Fault('ManySkips')
            self.skipped.add(kind)
            return
        self.positions[role] = [position(cells, at, empty) for at, (_, empty) in enumerate(COLUMNS[role], 2)]
        self.roles[kind] = role


def position(cells, at, may_be_empty):
    """The position in a cell of a layout line; None for a column that reads as the empty cell."""
    cell = cells[at] if at < len(cells) else b''
    if cell == b'-' and may_be_empty:
        return None
    try:
        return number(cell, 1, 63)
    except Bad:
        raise Fault('BadPosition') from None


# ------------------------------------------------------------ records

def record_of(layout, line):
    """The role of a record and its values by column, or its first fault; the role SKIP for a skipped type."""
    cells = line.split(b'\t')
    if len(cells) > MOST_CELLS:
        raise Fault('ManyCells')
    if cells[0] in layout.skipped:
        return 'SKIP', {}
    if cells[0] not in layout.roles:
        raise Fault('UnknownRecord')
    role = layout.roles[cells[0]]
    found = {}
    for (name, may_be_empty), place in zip(COLUMNS[role], layout.positions[role]):
        missing = place is None or place >= len(cells)
        if missing and not may_be_empty:
            raise Fault('MissingCell', name)
        try:
            found[name] = SPELLINGS[name](b'' if missing else cells[place])
        except Bad:
            raise Fault('BadCell', name) from None
        if name == 'NumberOfFiles' and found[name] < found['FileNumber']:
            raise Fault('BadCell', name)
        if name == 'UsageEndDate' and found[name] < found['UsageStartDate']:
            raise Fault('BadCell', name)
    if role == 'MW' and len(found['Parties']) != len(found['Shares']):
        raise Fault('Uneven')
    return role, found


# ------------------------------------------------------------ sections 4 to 6: places, faults and events of a file

GOOD = None
PLACES = {  # by what stands there; the columns: nothing, HEAD or SY, AS or MW, SU, FOOT
    'HEAD': (GOOD, 'SecondHead', 'SecondHead', 'SecondHead', 'AfterFoot'),
    'SY': ('NoHead', GOOD, 'LateSummary', 'LateSummary', 'AfterFoot'),
    'AS': ('NoHead', GOOD, 'NoUsage', GOOD, 'AfterFoot'),
    'MW': ('NoHead', 'NoResource', GOOD, 'LateWork', 'AfterFoot'),
    'SU': ('NoHead', 'NoResource', GOOD, GOOD, 'AfterFoot'),
    'FOOT': ('NoHead', GOOD, 'NoUsage', GOOD, 'AfterFoot'),
}
AFTER = {'HEAD': 1, 'SY': 1, 'AS': 2, 'MW': 2, 'SU': 3, 'FOOT': 4}


class Block:
    def __init__(self, resource):
        self.id, self.isrc, self.works, self.usages = resource['BlockId'], resource['Isrc'], [], []

    def records(self):
        return 1 + len(self.works) + len(self.usages)


class File:
    """What a file says: its head and summaries where it is opened, its blocks, and its fault and line, or None; and what
    was read of it."""

    def __init__(self, layout, content, ending):
        self.layout, self.was_read, self.head, self.block, self.fault = layout, content, None, None, None
        self.summaries, self.blocks, self.opened = [], [], False
        self.place = self.records = self.skipped_lines = 0
        lines = cut(content, ending == 'Whole')
        for at, line in enumerate(lines, 1):
            try:
                self.take(checked(line))
            except Fault as fault:
                self.fault = at, fault
                self.was_read = content[:-(-end_of(content, lines[:at]) // PIECE) * PIECE]
                return
        if ending != 'Whole':
            self.fault = len(lines) + 1, Fault(ending)
        elif self.place == 0:
            self.fault = len(lines) + 1, Fault('NoHead')
        elif self.place != AFTER['FOOT']:
            self.fault = len(lines) + 1, Fault('NoFoot')

    def take(self, line):
        if not line or line.startswith(b'#'):
            self.skipped_lines += 1
            return
        role, found = record_of(self.layout, line)
        if role != 'SKIP':
            self.test(role, found)
        self.records += 1
        if role == 'HEAD':
            self.head = found
        elif role == 'SY':
            self.summaries.append(found)
        elif role == 'AS':
            self.close()
            self.block = Block(found)
        elif role == 'MW':
            self.block.works.append(found)
        elif role == 'SU':
            self.block.usages.append(found)
        elif role == 'FOOT':
            self.close()
            self.test_counts(found)
        self.place = AFTER.get(role, self.place)

    def test(self, role, found):
        """The tests after those of the line by itself, up to LongBlock."""
        fault = PLACES[role][self.place]
        if fault is not GOOD:
            raise Fault(fault)
        if role in ('MW', 'SU') and found['BlockId'] != self.block.id:
            raise Fault('BlockNumber')
        if role == 'SY' and any(found['SummaryRecordId'] == other['SummaryRecordId'] for other in self.summaries):
            raise Fault('SummaryTwice')
        if role == 'SY' and len(self.summaries) == MOST_SUMMARIES:
            raise Fault('ManySummaries')
        if role in ('MW', 'SU') and self.block.records() == MOST_BLOCK:
            raise Fault('LongBlock')

    def close(self):
        """A good AS or FOOT: it opens the file, or the block before it counts."""
        self.opened = True
        if self.block is not None:
            self.blocks.append(self.block)
            self.block = None

    def test_counts(self, foot):
        if foot['NumberOfLinesInFile'] not in (self.records, self.records + self.skipped_lines):
            raise Fault('FootLines')
        if foot['NumberOfSummaryRecords'] != len(self.summaries):
            raise Fault('FootSummaries')
        if foot['NumberOfBlocksInFile'] != len(self.blocks):
            raise Fault('FootBlocks')

    def key(self):
        head = self.head
        return head['MessageId'], head['NumberOfFiles'], head['UsageStartDate'], head['UsageEndDate']


def end_of(content, lines):
    """The number of bytes of a text to the end of its first lines, or to the byte with which the last of them is too long."""
    mark = len(MARK) if content.startswith(MARK) else 0
    return mark + sum(min(len(line), MOST_LINE) + 1 for line in lines)


# ------------------------------------------------------------ section 7: statement

def written(units):
    """An amount as it is printed."""
    return b'%s%d.%010d' % (b'-' if units < 0 else b'', abs(units) // 10 ** 10, abs(units) % 10 ** 10)


def part_of(units, parts):
    """An amount times a share, rounded toward zero."""
    part = abs(units) * parts // MOST_PARTS
    return -part if units < 0 else part


class Report:
    def __init__(self, files):
        self.files = files
        self.key = next((file.key() for file in files if file.opened), None)
        self.numbers = set()
        self.standings = [self.standing(file) for file in files]
        self.ledger = {}
        self.rejects = []
        for at, (file, standing) in enumerate(zip(files, self.standings), 1):
            self.judge(at, file, standing)

    def standing(self, file):
        if not file.opened:
            return 'Headless'
        if file.key() != self.key:
            return 'Foreign'
        if file.head['FileNumber'] in self.numbers:
            return 'Doubled'
        self.numbers.add(file.head['FileNumber'])
        return 'Ours'

    def judge(self, at, file, standing):
        seen = set()
        summaries = {summary['SummaryRecordId']: summary for summary in file.summaries}
        for place, block in enumerate(file.blocks, 1):
            reason = reason_of(standing, seen, summaries, block)
            seen.add(block.id)
            if reason:
                self.rejects.append((at, place, block.id, reason))
            else:
                self.book(summaries, block)

    def book(self, summaries, block):
        for usage in block.usages:
            summary = summaries[usage['SummaryRecordId']]
            key = block.isrc, summary['Territory'], summary['UseType'], summary['Currency']
            line = self.ledger.setdefault(key, [0, 0, {}])
            line[0] += usage['Usages']
            line[1] += usage['Amount']
            for work in block.works:
                for party, parts in zip(work['Parties'], work['Shares']):
                    line[2][party] = line[2].get(party, 0) + part_of(usage['Amount'], parts)

    def missing(self):
        return [at for at in range(1, self.key[1] + 1) if at not in self.numbers] if self.key else []

    def differences(self):
        for at, (file, standing) in enumerate(zip(self.files, self.standings), 1):
            if standing != 'Ours' or file.fault:
                continue
            for summary in file.summaries:
                named = [usage for block in file.blocks for usage in block.usages
                         if usage['SummaryRecordId'] == summary['SummaryRecordId']]
                usages, units = sum(use['Usages'] for use in named), sum(use['Amount'] for use in named)
                if (usages, units) != (summary['Usages'], summary['Amount']):
                    yield (at, summary['SummaryRecordId'], summary['Usages'], usages,
                           written(summary['Amount']), written(units))

    def lines(self):
        if self.key:
            message, number_of_files, first, last = self.key
            yield 'REPORT', message, number_of_files, first[1], last[1], last[0] - first[0] + 1
        else:
            yield 'NOREPORT',
        for at, (file, standing) in enumerate(zip(self.files, self.standings), 1):
            yield ('FILE', at, file.head['FileNumber'] if file.opened else '-', standing, len(file.blocks), *outcome(file))
        for at in self.missing():
            yield 'MISSING', at
        for cells in self.differences():
            yield ('SUMMARY', *cells)
        for key, (usages, units, parties) in sorted(self.ledger.items()):
            yield ('LEDGER', *key, usages, written(units))
            for party, part in sorted(parties.items()):
                yield ('PARTY', *key, party, written(part))
            yield ('UNCLAIMED', *key, written(units - sum(parties.values())))
        for cells in self.rejects:
            yield ('REJECT', *cells)

    def is_clean(self):
        return (self.key is not None and all(standing == 'Ours' for standing in self.standings)
                and not any(file.fault for file in self.files) and not self.missing()
                and not list(self.differences()) and not self.rejects)


def outcome(file):
    if file.fault is None:
        return 'Whole',
    line, fault = file.fault
    return ('Fault', line, fault.name) + ((fault.column,) if fault.column else ())


def reason_of(standing, seen, summaries, block):
    """Why a block is rejected; None where it is booked."""
    if standing == 'Foreign':
        return 'ForeignFile'
    if standing == 'Doubled':
        return 'DoubledFile'
    if block.id in seen:
        return 'DoubledBlock'
    if not block.isrc:
        return 'NoIsrc'
    if not is_isrc(block.isrc):
        return 'BadIsrc'
    if any(usage['SummaryRecordId'] not in summaries for usage in block.usages):
        return 'UnknownSummary'
    if sum(parts for work in block.works for parts in work['Shares']) > MOST_PARTS:
        return 'ShareOver'
    return None


def cell_bytes(cell):
    return cell if isinstance(cell, bytes) else str(cell).encode()


def text_of(lines):
    return b''.join(b'\t'.join(cell_bytes(cell) for cell in cells) + b'\n' for cells in lines)


def digest(content):
    """The cells that say of which bytes."""
    return len(content), hashlib.sha256(content).hexdigest()


def seal(layout, report, count):
    """The lines behind a statement of so many lines: of its layout, if it has one of its own, of each file, and its end."""
    before = [('LAYOUT', *digest(layout))] if layout is not None else []
    before += [('INPUT', at, *digest(file.was_read)) for at, file in enumerate(report.files, 1)]
    return [*before, ('END', count + len(before), 'Clean' if report.is_clean() else 'Remarks')]


def statement(texts, layout=None, sealed=False):
    """Exit status and statement of a report whose files are pairs of bytes and ending."""
    table = Layout(STANDARD if layout is None else layout)
    report = Report([File(table, content, ending) for content, ending in texts])
    lines = list(report.lines())
    if sealed:
        lines += seal(layout, report, len(lines))
    return 0 if report.is_clean() else 1, text_of(lines)


# ------------------------------------------------------------ the command line

def answer(asked):
    """Exit status and statement of what was asked for."""
    layouts = opened([asked.layout] if asked.layout is not None else [])
    sources = [open_input(name) for name in inputs_named(asked.files)]
    layout, ending = ending_with(layouts[0][1]) if layouts else (None, 'Whole')
    if ending != 'Whole':
        raise Answered(2, b'cannot read ' + asked.layout)
    try:
        return statement([ending_with(file) for file in sources], layout, asked.seal)
    except LayoutFault as fault:
        raise Answered(2, b'bad layout at line %d: %s' % (fault.line, fault.name.encode())) from None


def main():
    parser = argparse.ArgumentParser(description=__doc__, formatter_class=argparse.RawDescriptionHelpFormatter)
    parser.add_argument('--seal', action='store_true')
    parser.add_argument('--layout', type=os.fsencode)
    parser.add_argument('--output', type=os.fsencode)
    parser.add_argument('files', nargs='*', type=os.fsencode)
    asked = parser.parse_args()
    try:
        status, text = answer(asked)
        print_to(asked.output, text)
    except Answered as answered:
        sys.stderr.buffer.write(b'dsr: ' + answered.line + b'\n')
        status = answered.status
    sys.exit(status)


if __name__ == '__main__':
    main()
