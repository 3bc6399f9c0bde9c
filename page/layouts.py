"""Which record types and columns a report's files have (docs/PROFILE.md, sections 2 and 8)."""
from columns import COLUMNS, TYPES


class Layout:
    """The role of each record type, and the position of each column of a role; None for a column that is not there."""

    def __init__(self, text=None):
        """The layout of these bytes, which `dsr` has accepted, or the standard one."""
        self.text = text
        self.roles = {TYPES[role].encode(): role for role in COLUMNS} if text is None else {}
        self.positions = {role: {column: at for at, column in enumerate(columns, 1)} for role, columns in COLUMNS.items()}
        self.skipped = set()
        for line in (text or b'').decode('utf-8-sig').split('\n'):
            self.take(line.removesuffix('\r').split('\t'))

    def take(self, cells):
        """A line of a layout."""
        if cells[0] in COLUMNS:
            self.roles[cells[1].encode()] = cells[0]
            self.positions[cells[0]] = {column: None if cell == '-' else int(cell)
                                        for column, cell in zip(COLUMNS[cells[0]], cells[2:])}
        elif cells[0] == 'SKIP':
            self.skipped.add(cells[1].encode())

    def role_of(self, kind):
        """The role of a record type, as bytes; None for one that is skipped or unknown."""
        return self.roles.get(kind)

    def position(self, role, column):
        return self.positions[role].get(column)

    def raw_cell(self, line, column):
        """The bytes of the cell of a column; empty if it is not there."""
        at = self.position(line.role, column)
        cells = line.raw_cells
        return cells[at] if at is not None and at < len(cells) else b''

    def cell(self, line, column):
        """The text of the cell of a column; bytes that are not UTF-8 are lone surrogates."""
        return self.raw_cell(line, column).decode('utf-8', 'surrogateescape')

    def names(self, role, count):
        """The names of a record's cells, with `Record` for its type; empty for a cell that no column has."""
        found = {at: column for column, at in self.positions[role].items() if at is not None}
        return ['Record', *(found.get(at, '') for at in range(1, count))]
