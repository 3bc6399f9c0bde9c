"""The titles of recordings, from the resources of the blocks that were booked."""
from columns import list_of, unescaped

MOST_TITLES = 3


class Titles:
    """Puts the titles of each recording of a ledger beside its ISRC: the different ones that files give, in their order."""

    def __init__(self, layout, titles):
        self.layout = layout
        self.titles = titles
        self.seen = {}

    def take(self, line):
        """The AS01 of a booked block."""
        isrc, cell = self.layout.cell(line, 'Isrc'), self.layout.raw_cell(line, 'Titles')
        if isrc not in self.titles or cell == self.seen.get(isrc):
            return
        self.seen[isrc] = cell
        known = self.titles[isrc].split(' / ') if self.titles[isrc] else []
        for value in list_of(cell):
            title = unescaped(value).decode('utf-8', 'replace')
            if title and title not in known and len(known) < MOST_TITLES:
                known.append(title)
        self.titles[isrc] = ' / '.join(known)
