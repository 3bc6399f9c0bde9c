"""The ledger of a statement as data for the page, with its totals.

The lines are written in pieces, each a `script` of JSON that is not run; whole numbers are texts, since those of JSON are
floating point in a browser.
"""
import json

from names import alike
from units import UNITS

PIECE = 5000
COLUMNS = 'isrc market usages amount unclaimed counts party part'.split()


def data(identity, value):
    """A value as data of the page: nothing in it can end the element, and no character is changed by the browser."""
    text = json.dumps(value, ensure_ascii=False, separators=(',', ':')).replace('<', '\\u003c')
    return f'<script type="application/json" {identity}>{text}</script>\n'


class Ledger:
    """Takes the LEDGER lines, and writes those of a full piece to `out`."""

    def __init__(self, out):
        self.out = out
        self.lines = self.parts = 0
        self.usages = self.amount = 1
        self.markets = {}
        self.parties = {}
        self.titles = {}
        self.begin()

    def begin(self):
        self.piece = {column: [] for column in COLUMNS}

    def take(self, booked):
        """A LEDGER line with its parts."""
        self.titles.setdefault(booked.isrc, '')
        self.usages = max(self.usages, abs(booked.usages))
        self.amount = max(self.amount, abs(booked.amount), abs(booked.unclaimed))
        market = self.markets.setdefault(booked.market, len(self.markets))
        values = ([booked.isrc], [market], [str(booked.usages)], [str(booked.amount)], [str(booked.unclaimed)], [len(booked.parties)],
                  [self.parties.setdefault(name, len(self.parties)) for name, _ in booked.parties],
                  [str(units) for _, units in booked.parties])
        for column, added in zip(COLUMNS, values):
            self.piece[column] += added
        self.lines += 1
        self.parts += len(booked.parties)
        if len(self.piece['isrc']) == PIECE:
            self.end()

    def end(self):
        """Writes the last piece."""
        if self.piece['isrc']:
            self.out.write(data('class="ledger"', self.piece))
        self.begin()

    def end_titles(self):
        """Writes the titles, in the order of the recordings."""
        titles = list(self.titles.values())
        for at in range(0, len(titles), PIECE):
            self.out.write(data('class="titles"', titles[at:at + PIECE]))

    def facts(self, totals):
        """What the page needs to know beside the lines."""
        by_amount = sorted(totals.parties.items(), key=lambda it: (it[0][1], -it[1], it[0][0])) if totals else []
        markets = sorted(totals.markets.items(), key=lambda it: (it[0][2], -it[1][1], it[0])) if totals else []
        return {
            'lines': self.lines, 'parts': self.parts, 'hasTitles': any(self.titles.values()),
            'digits': {'usages': len(str(self.usages)), 'amount': len(str(self.amount // UNITS))},
            'markets': list(self.markets), 'parties': list(self.parties),
            'alike': [[self.parties[name] for name in group] for group in alike(self.parties)],
            'marketTotals': [[*market, str(usages), str(amount)] for market, (usages, amount) in markets],
            'partyTotals': [[self.parties[party], currency, str(units)] for (party, currency), units in by_amount],
        }
