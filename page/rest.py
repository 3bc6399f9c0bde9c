"""What stands in the block of a fault and behind it."""
from columns import PATTERNS
from files import Line
from units import units_of_cell
from withheld import Left, currency_of


class Rest:
    """What stands in the block of a fault and behind it, which nobody has read: a guess, since it may have faults itself."""

    def __init__(self, layout):
        self.layout = layout
        self.summaries = {}
        self.left = Left()
        self.lines = 0
        self.unread = 0

    def take(self, number, raw):
        line = Line(number, raw, self.layout.role_of(raw.split(b'\t', 1)[0]))
        self.lines += 1
        if line.role == 'AS':
            self.left.blocks += 1
        elif line.role == 'SY':
            self.summaries.setdefault(self.layout.raw_cell(line, 'SummaryRecordId'), line)
        elif line.role == 'SU':
            self.add(line)

    def add(self, line):
        usages, units = self.layout.raw_cell(line, 'Usages'), units_of_cell(self.layout.raw_cell(line, 'Amount'))
        if units is None or not PATTERNS['Usages'].fullmatch(usages):
            self.unread += 1
        else:
            self.left.add(currency_of(self.layout, self.summaries, line), int(usages), units)
