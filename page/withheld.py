"""What was left out, and so is not paid: blocks with their usages and amounts, in each currency."""
from units import units_of_cell


class Left:
    """Blocks, and the usages and amounts of each currency; those of a summary that is not there have no currency (None)."""

    def __init__(self):
        self.blocks = 0
        self.sums = {}

    def add(self, currency, usages, units):
        found = self.sums.setdefault(currency, [0, 0])
        found[0] += usages
        found[1] += units

    def join(self, other):
        self.blocks += other.blocks
        for currency, (usages, units) in other.sums.items():
            self.add(currency, usages, units)

    def in_order(self):
        """The currencies with their usages and units, the unknown one last."""
        return sorted(self.sums.items(), key=lambda it: (it[0] is None, it[0]))


def currency_of(layout, summaries, usage):
    """The currency of the summary that a usage names."""
    line = summaries.get(layout.raw_cell(usage, 'SummaryRecordId'))
    return layout.cell(line, 'Currency') if line else None


def add_block(left, layout, summaries, lines):
    """Adds a block that has counted: its usages are spelled as they should."""
    left.blocks += 1
    for line in lines:
        if line.role == 'SU':
            left.add(currency_of(layout, summaries, line), int(layout.raw_cell(line, 'Usages')),
                     units_of_cell(layout.raw_cell(line, 'Amount')))
