"""A statement, as far as a page needs it. Whether its lines are those of a statement, `dsr_totals` says (`totals.py`)."""
import itertools
import re
from typing import NamedTuple, Optional

from refused import Refused, named
from seal import Seal
from totals import Adder
from units import units_of

HEADLESS = re.compile(rb'FILE\t[1-9][0-9]*\t-\tHeadless\t0\tFault\t[1-9][0-9]*\t[A-Za-z0-9]+(?:\t[A-Za-z]+)?\n')


class Fault(NamedTuple):
    line: int
    name: str
    column: Optional[str]


class FileLine(NamedTuple):
    place: int
    number: str
    standing: str
    blocks: int
    fault: Optional[Fault]


class Difference(NamedTuple):
    file: int
    summary: str
    stated_usages: int
    found_usages: int
    stated: int
    found: int


class Reject(NamedTuple):
    file: int
    position: int
    block: str
    reason: str


class Booked:
    """A LEDGER line with its PARTY lines and its UNCLAIMED line; amounts in units."""

    def __init__(self, isrc, territory, use_type, currency, usages, amount):
        self.isrc = isrc
        self.market = territory, use_type, currency
        self.usages = int(usages)
        self.amount = units_of(amount)
        self.parties = []
        self.unclaimed = None


class Statement:
    """What a statement says; each line of its ledger goes to `on_booked` once its parts are there."""

    def __init__(self, on_booked):
        self.on_booked = on_booked
        self.booked = None
        self.report = None
        self.files = []
        self.missing = []
        self.differences = []
        self.rejects = []
        self.seal = Seal()
        self.totals = None

    def is_clean(self):
        whole = all(file.standing == 'Ours' and not file.fault for file in self.files)
        return bool(self.report and whole and not self.missing and not self.differences and not self.rejects)

    def take(self, kind, *cells):
        if kind == 'LEDGER':
            self.booked = Booked(*cells)
        elif kind == 'PARTY':
            self.booked.parties.append((cells[4], units_of(cells[5])))
        elif kind == 'UNCLAIMED':
            self.booked.unclaimed = units_of(cells[4])
            self.on_booked(self.booked)
        elif kind == 'REPORT':
            self.report = cells
        elif kind == 'FILE':
            fault = Fault(int(cells[5]), cells[6], cells[7] if len(cells) > 7 else None) if cells[4] == 'Fault' else None
            self.files.append(FileLine(int(cells[0]), cells[1], cells[2], int(cells[3]), fault))
        elif kind == 'MISSING':
            self.missing.append(int(cells[0]))
        elif kind == 'SUMMARY':
            self.differences.append(Difference(int(cells[0]), cells[1], int(cells[2]), int(cells[3]), *map(units_of, cells[4:])))
        elif kind == 'REJECT':
            self.rejects.append(Reject(int(cells[0]), int(cells[1]), cells[2], cells[3]))


def read_statement(name, lines, on_booked, may_be_unsealed):
    """The statement of an iterable of lines with their line feeds, with its totals."""
    statement, lines = Statement(on_booked), iter(lines)
    first = next(lines, b'')
    if first == b'NOREPORT\n':
        with named(name):
            for number, raw in enumerate(lines, 2):
                take_without_report(statement, number, raw)
    else:
        with Adder(name) as adder:
            for number, raw in enumerate(itertools.chain([first], lines), 1):
                adder.take(raw)
                take(statement, adder, number, raw)
            statement.totals = adder.end()
    with named(name):
        if not statement.files:
            raise Refused('it is cut off')
        statement.seal.end(statement, may_be_unsealed)
    return statement


def take(statement, adder, number, raw):
    """A line that is one of a statement, or else dsr_totals refuses it."""
    if statement.seal.is_next(raw):
        with named(adder.name):
            statement.seal.take(number, raw)
        return
    try:
        statement.take(*raw[:-1].decode().split('\t'))
    except (ValueError, IndexError, TypeError, AttributeError):
        adder.is_refused = True


def take_without_report(statement, number, raw):
    """A line of a statement without a report, which has nothing to add up: its files are Headless, each with its fault."""
    if statement.seal.is_next(raw):
        statement.seal.take(number, raw)
    elif HEADLESS.fullmatch(raw) and int(raw.split(b'\t')[1]) == number - 1:
        statement.take(*raw[:-1].decode().split('\t'))
    else:
        raise Refused(f'line {number}: it is no line of a statement without a report')
