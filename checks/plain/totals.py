#!/usr/bin/env -S python3 -B
"""A second program for the totals of statements: reads statements strictly and adds them up, plainly and slowly.

  totals.py [--paid=STATEMENT]... [--paid-from LIST]... [--with-remarks] [--unsealed] [--same-message] [--output FILE] [STATEMENT]...

It is written from docs/PROFILE.md alone, shares nothing with the program that it is compared with, and takes one line
after another. Texts are bytes; amounts are whole numbers of units of 10^-10. With no STATEMENT standard input is the one; its name is `-`.
A statement has to be sealed, unless --unsealed is given. --paid-from LIST names statements that were paid, one a line, or
each ended by a zero byte. The exit status is 0; 1 if a statement was refused, with a line on standard error; 2 for the
command line or a file that cannot be opened; 3 if a total leaves 128 bits or a write fails. Where it is not 0, nothing was
written.
"""
import argparse
import os
import re
import sys
from dataclasses import dataclass

from files import Answered, ending_with, inputs_named, open_file, open_input, print_to
from statement import COLUMNS, Bad, day, is_isrc, pattern, written

MOST_LINE = 16_384
UNITS_BOUND = 2 ** 123
RANGE = range(-2 ** 127, 2 ** 127)
REMARKS = ('MISSING', 'SUMMARY', 'REJECT')
WHOLE = ('FILE', 'MISSING', 'SUMMARY', 'UNCLAIMED', 'REJECT')  # the lines with which an unsealed statement may end
NAMED = {
    'status': ('Clean', 'Remarks'),
    'standing': ('Ours', 'Foreign', 'Doubled', 'Headless'),
    'reason': ('ForeignFile', 'DoubledFile', 'DoubledBlock', 'NoIsrc', 'BadIsrc', 'UnknownSummary', 'ShareOver'),
    'fault': ('LongLine', 'NotUtf8', 'ManyCells', 'UnknownRecord', 'MissingCell', 'BadCell', 'Uneven', 'NoHead', 'SecondHead',
              'LateSummary', 'NoResource', 'LateWork', 'BlockNumber', 'NoUsage', 'AfterFoot', 'NoFoot', 'SummaryTwice',
              'ManySummaries', 'LongBlock', 'FootLines', 'FootSummaries', 'FootBlocks', 'Read', 'Reads'),
    'column': tuple(dict.fromkeys(name for columns in COLUMNS.values() for name, _ in columns)),
}


@dataclass
class Refused(Exception):
    """A statement is refused: the line and the fault."""
    line: int
    fault: str


# ------------------------------------------------------------ spellings

def number(bound):
    """The reader of a decimal number below a bound."""
    def read(cell):
        if not re.fullmatch(rb'0|[1-9][0-9]*', cell) or int(cell) >= bound:
            raise Bad
        return int(cell)
    return read


def file_number(cell):
    return None if cell == b'-' else number(2 ** 32)(cell)


def usages(cell):
    if not re.fullmatch(rb'0|-?[1-9][0-9]*', cell) or int(cell) not in RANGE:
        raise Bad
    return int(cell)


def units(cell):
    """The units of an amount."""
    match = re.fullmatch(rb'(-?)(0|[1-9][0-9]*)\.([0-9]{10})', cell)
    if not match:
        raise Bad
    found = int(match[2] + match[3])
    if found >= UNITS_BOUND or match[1] and not found:
        raise Bad
    return -found if match[1] else found


def isrc(cell):
    if not is_isrc(cell):
        raise Bad
    return cell


def name_of(kind):
    return pattern('|'.join(NAMED[kind]))


def any_text(cell):
    return cell


IDENTIFIER = pattern('[ -~]{1,32}')
DIGEST = pattern('[0-9a-f]{64}')
KEY = (isrc, pattern('[A-Za-z0-9-]{1,16}'), pattern('[A-Za-z0-9]{1,64}'), pattern('[A-Z]{3}'))
SPELLINGS = {
    'REPORT': (pattern('[ -~]{1,64}'), number(2 ** 32), day, day, number(2 ** 64)),
    'NOREPORT': (),
    'FILE': (number(2 ** 64), file_number, name_of('standing'), number(2 ** 64)),
    'MISSING': (number(2 ** 32),),
    'SUMMARY': (number(2 ** 64), IDENTIFIER, usages, usages, units, units),
    'LEDGER': (*KEY, usages, units),
    'PARTY': (*KEY, any_text, units),
    'UNCLAIMED': (*KEY, units),
    'REJECT': (number(2 ** 64), number(2 ** 64), IDENTIFIER, name_of('reason')),
    'LAYOUT': (number(2 ** 64), DIGEST),
    'INPUT': (number(2 ** 64), number(2 ** 64), DIGEST),
    'END': (number(2 ** 64), name_of('status')),
}


@dataclass
class Rules:
    """What is let through."""
    with_remarks: bool = False
    unsealed: bool = False
    same_message: bool = False


def has_cells(kind, cells):
    """Whether a line has the cells of its kind; that of a file has five if it ended Whole, and seven or eight by a Fault."""
    if kind != 'FILE':
        return len(cells) == len(SPELLINGS[kind])
    return len(cells) in (5, 7, 8) and cells[4] != (b'Fault' if len(cells) == 5 else b'Whole')


def outcome(cells):
    """How a file ended, by the cells after its blocks: true for Whole."""
    if len(cells) == 1:
        pattern('Whole')(cells[0])
        return True
    pattern('Fault')(cells[0])
    number(2 ** 64)(cells[1])
    fault = name_of('fault')(cells[2])
    if (fault in (b'MissingCell', b'BadCell')) != (len(cells) == 4):
        raise Bad
    if len(cells) == 4:
        name_of('column')(cells[3])
    return False


def spelled(kind, cells):
    """The values of the cells after the first."""
    found = [read(cell) for read, cell in zip(SPELLINGS[kind], cells)]
    if kind == 'FILE':
        found.append(outcome(cells[4:]))
    if kind == 'REPORT' and (found[3] < found[2] or found[4] != found[3][0] - found[2][0] + 1):
        raise Bad
    return found


# ------------------------------------------------------------ reading a statement

class Reader:
    """Reads one statement, and hands each line of its ledger to `add`, as its kind and its values."""

    def __init__(self, rules, add):
        self.rules, self.add = rules, add
        self.lines = self.rest = 0
        self.kind = self.ledger = self.report = self.remark = None
        self.last = {}

    def read(self, file):
        while line := next_line(file, self.lines + 1):
            self.take(line)
        self.end()

    def take(self, line):
        self.lines += 1
        try:
            line.decode('utf-8')
        except UnicodeDecodeError:
            raise Refused(self.lines, 'NotUtf8') from None
        first, *cells = line[:-1].split(b'\t')
        kind = first.decode()
        if kind not in SPELLINGS:
            raise Refused(self.lines, 'UnknownLine')
        if not has_cells(kind, cells):
            raise Refused(self.lines, 'Cells')
        try:
            values = spelled(kind, cells)
        except Bad:
            raise Refused(self.lines, 'Spelling') from None
        if not self.has_place(kind, values):
            raise Refused(self.lines, 'Place')
        self.keep(kind, values)

    def has_place(self, kind, values):
        """Whether such a line may stand here: which kinds stand before it, and what rises."""
        before = self.kind
        last = self.last.get(kind)
        if kind in ('REPORT', 'NOREPORT'):
            return before is None
        if kind == 'FILE':
            return before in ('REPORT', 'FILE') and values[0] == (last[0] if last else 0) + 1
        if kind == 'MISSING':
            return before in ('FILE', 'MISSING') and (not last or last[0] < values[0])
        if kind == 'SUMMARY':
            return before in ('FILE', 'MISSING', 'SUMMARY') and (not last or last[0] <= values[0])
        if kind == 'LEDGER':
            return before in ('FILE', 'MISSING', 'SUMMARY', 'UNCLAIMED') and (not last or last[:4] < values[:4])
        if kind == 'REJECT':
            return before in WHOLE and (
                not last or last[0] < values[0] or last[0] == values[0] and last[1] < values[1])
        if kind == 'LAYOUT':
            return before in WHOLE
        if kind == 'INPUT':
            return before in (*WHOLE, 'LAYOUT', 'INPUT') and values[0] == self.inputs() + 1 <= self.last['FILE'][0]
        if kind == 'END':
            return before == 'INPUT' and self.inputs() == self.last['FILE'][0]
        if before not in ('LEDGER', 'PARTY') or values[:4] != self.ledger[:4]:
            return False
        return kind == 'UNCLAIMED' or before == 'LEDGER' or self.last['PARTY'][4] < values[4]

    def inputs(self):
        return self.last['INPUT'][0] if 'INPUT' in self.last else 0

    def keep(self, kind, values):
        """A line in its place: tests its sum or seal, and counts it."""
        self.kind = kind
        self.last[kind] = values
        if kind == 'NOREPORT':
            raise Refused(self.lines, 'NoReport')
        if kind == 'REPORT':
            self.report = values[0], values[1], values[2], values[3]
        if kind == 'LEDGER':
            self.ledger = values
            self.rest = values[5]
        if kind in ('PARTY', 'UNCLAIMED'):
            self.rest -= values[-1]
        if kind == 'UNCLAIMED' and self.rest:
            raise Refused(self.lines, 'Sum')
        if kind == 'END' and values != [self.lines - 1, b'Remarks' if self.remark else b'Clean']:
            raise Refused(self.lines, 'Seal')
        if self.remark is None and (kind in REMARKS or kind == 'FILE' and (values[2] != b'Ours' or not values[4])):
            self.remark = self.lines
        if kind in ('LEDGER', 'PARTY', 'UNCLAIMED'):
            self.add(kind, values)

    def end(self):
        if self.kind in (None, 'REPORT', 'LEDGER', 'PARTY', 'LAYOUT', 'INPUT'):
            raise Refused(self.lines + 1, 'Cut')
        if self.kind != 'END' and not self.rules.unsealed:
            raise Refused(self.lines + 1, 'Unsealed')


def next_line(file, at):
    """The next line with its line feed; nothing at the end."""
    try:
        line = file.readline(MOST_LINE + 1)
    except OSError:
        raise Refused(at, 'Read') from None
    if line and not line.endswith(b'\n'):
        raise Refused(at, 'LongLine' if len(line) > MOST_LINE else 'Cut')
    return line


# ------------------------------------------------------------ totals

class Totals:
    """The running sums: of each currency usages, amount, claimed and unclaimed; of each market; of each party."""

    def __init__(self):
        self.currencies, self.markets, self.parties, self.out_of_range = {}, {}, {}, False

    def adder(self, sign):
        """Adds a line of a ledger, or subtracts it."""
        def add(kind, values):
            _, territory, use, currency = values[:4]
            sums = self.currencies.setdefault(currency, [0, 0, 0, 0])
            if kind == 'LEDGER':
                self.change(sums, 0, sign * values[4])
                self.change(sums, 1, sign * values[5])
                market = self.markets.setdefault((territory, use, currency), [0, 0])
                self.change(market, 0, sign * values[4])
                self.change(market, 1, sign * values[5])
            elif kind == 'PARTY':
                self.change(sums, 2, sign * values[5])
                self.change(self.parties.setdefault((values[4], currency), [0]), 0, sign * values[5])
            else:
                self.change(sums, 3, sign * values[4])
        return add

    def change(self, sums, at, by):
        sums[at] += by
        self.out_of_range |= sums[at] not in RANGE

    def lines(self):
        for currency, (used, *amounts) in sorted(self.currencies.items()):
            yield b'CURRENCY', currency, b'%d' % used, *map(written, amounts)
        for market, (used, amount) in sorted(self.markets.items()):
            yield b'MARKET', *market, b'%d' % used, written(amount)
        for (party, currency), (amount,) in sorted(self.parties.items()):
            yield b'PARTY', party, currency, written(amount)


@dataclass
class Statement:
    """A statement that was read: its name, and whether it has remarks."""
    name: bytes
    remarks: bool


def of_earlier(fault, found, report):
    """A fault that names an earlier statement."""
    return f'{fault} of {os.fsdecode(found[report].name)}'


def test(reader, found, paid, known, rules):
    """The tests of a statement that was read whole, against those that were read before it."""
    if reader.report in found:
        raise Refused(1, of_earlier('Twice', found, reader.report))
    other = next((report for report in found if report[0] == reader.report[0]), None)
    if other and not paid and not rules.same_message:
        raise Refused(1, of_earlier('SameMessage', found, other))
    if paid and reader.report not in known:
        raise Refused(1, 'NotGiven')
    if not paid and reader.remark and not rules.with_remarks:
        raise Refused(reader.remark, 'Remarks')


def read_all(named, rules, paid, known, totals):
    """Reads statements, each a name and an open file or how to open it. Returns what was read, by the reports."""
    found = {}
    for name, file in named:
        reader = Reader(rules, totals.adder(-1 if paid else 1))
        try:
            reader.read(file() if callable(file) else file)
            test(reader, found, paid, known, rules)
        except Refused as refused:
            raise Answered(1, b'%s: line %d: %s' % (name, refused.line, os.fsencode(refused.fault))) from None
        found[reader.report] = Statement(name, reader.remark is not None)
    return found


def totals_of(given, paid, rules):
    """The text of the totals of statements, each a pair of its name (bytes) and a file."""
    totals = Totals()
    known = read_all(given, rules, False, (), totals)
    were_paid = read_all(paid, rules, True, known, totals)
    if totals.out_of_range:
        raise Answered(3, b'total out of range')
    lines = [(b'STATEMENT', b'%d' % at, message, b'%d' % files, first[1], last[1],
              b'Remarks' if found.remarks else b'Clean', b'Paid' if (message, files, first, last) in were_paid else b'-')
             for at, ((message, files, first, last), found) in enumerate(known.items(), 1)]
    return b''.join(b'\t'.join(cells) + b'\n' for cells in [*lines, *totals.lines()])


# ------------------------------------------------------------ the command line

def is_utf8(content):
    try:
        content.decode()
    except UnicodeDecodeError:
        return False
    return True


def names_of(name):
    """The names in a file that has one on each line, or each ended by a zero byte if it has one."""
    content, ending = ending_with(open_file(name))
    if ending != 'Whole' or not is_utf8(content):
        raise Answered(2, b'cannot read ' + name)
    pieces = content.split(b'\0' if b'\0' in content else b'\n')
    return pieces if pieces[-1] else pieces[:-1]


def at_its_turn(name):
    """A statement that can be opened. An ordinary file is opened again when it is its turn, since there may be more than can be open
    at a time; where it is gone then, a read fails."""
    file = open_input(name)
    if name == b'-' or not os.path.isfile(name):
        return name, file
    file.close()

    def turn():
        try:
            return open_file(name)
        except Answered:
            raise Refused(1, 'Read') from None
    return name, turn


def arguments():
    parser = argparse.ArgumentParser(description=__doc__, formatter_class=argparse.RawDescriptionHelpFormatter, allow_abbrev=False)
    parser.add_argument('--paid', action='append', default=[], type=os.fsencode)
    parser.add_argument('--paid-from', action='append', default=[], type=os.fsencode)
    parser.add_argument('--with-remarks', action='store_true')
    parser.add_argument('--unsealed', action='store_true')
    parser.add_argument('--same-message', action='store_true')
    parser.add_argument('--output', type=os.fsencode)
    parser.add_argument('statements', nargs='*', type=os.fsencode)
    words = sys.argv[1:]
    if '--paid' in words[:words.index('--')] if '--' in words else '--paid' in words:
        parser.error('--paid wants its equals sign: --paid=STATEMENT')
    return parser.parse_args(words)


def main():
    asked = arguments()
    rules = Rules(asked.with_remarks, asked.unsealed, asked.same_message)
    try:
        given = [at_its_turn(name) for name in inputs_named(asked.statements)]
        names = asked.paid + [name for path in asked.paid_from for name in names_of(path)]
        inputs_named(asked.statements, names)
        print_to(asked.output, totals_of(given, [at_its_turn(name) for name in names], rules))
    except Answered as answered:
        sys.stderr.buffer.write(b'dsr_totals: ' + answered.line + b'\n')
        sys.exit(answered.status)


if __name__ == '__main__':
    main()
