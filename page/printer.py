"""The remarks of a statement as text."""
import collections

from columns import list_of, unescaped
from letters import amounts_told
from names import alike, told_alike
from showing import is_right_to_left, pieces, rows_of, visible
from words import expected

WIDTH = 40


def cell_text(cell, marked):
    """A cell as it is printed: a long one is cut, a marked one is in brackets."""
    text = ''
    for piece, is_hidden in pieces(cell):
        if not marked and len(text) + len(piece) > WIDTH:
            return text + (piece if not is_hidden else '')[:WIDTH - 3 - len(text)] + '...'
        text += piece
    return f'[{text}]' if marked else text


class Printer:
    """Prints remarks to `out`, each with the entry of its name; `told` has those that the file's rejects have had already."""

    def __init__(self, report, entries, out):
        self.report = report
        self.entries = entries
        self.out = out
        self.told = set()

    def say(self, text=''):
        self.out.write(f'{text}\n')

    def lines(self, lines):
        """Lines in columns, with the names of their cells."""
        ends = bool(lines) and lines[-1].number is None
        layout, lines = self.report.layout, lines[:-1] if ends else lines
        rows = [(number, [cell_text(cell, at in marked) for at, cell in enumerate(cells)])
                for number, cells, marked in rows_of(layout, lines)]
        widths = collections.Counter()
        for _, cells in rows:
            for at, cell in enumerate(cells):
                widths[at] = max(widths[at], len(cell))
        by_number = {line.number: line for line in lines}
        for number, cells in rows:
            told = '  '.join(cell.ljust(widths[at]) for at, cell in enumerate(cells))
            self.say(f'  {"" if number is None else number:>6}  {told}'.rstrip())
            self.parties(by_number.get(number))
        if ends:
            self.say('    (the file ends here)')

    def parties(self, line):
        """Each party of a work on a line of its own beside its share, where a list does not show which is whose."""
        if not line or line.role != 'MW':
            return
        parties, shares = (list_of(self.report.layout.raw_cell(line, column)) for column in ('Parties', 'Shares'))
        names, shares = ([unescaped(it).decode('utf-8', 'surrogateescape') for it in values] for values in (parties, shares))
        like = {name for group in alike(names) for name in group}
        if line.marked or like or any(map(is_right_to_left, names)):
            for name, share in zip(names, shares + ['?'] * len(names)):
                self.say(f'          {visible(share):>8}  {visible(name) or "(no name)"}' + f'  ({told_alike(name)})' * (name in like))

    def entry(self, name):
        entry = self.entries[name]
        self.say(f'  Meaning: {entry.meaning}')
        for label, text in entry.points:
            self.say(f'  {label}: {text}')

    def remark(self, remark):
        self.say(f'\n{visible(remark.title())}')
        for title, lines in remark.groups:
            if title:
                self.say(f'  {visible(title)}')
            self.lines(lines)
        for note in remark.notes:
            self.say(f'  {note}')
        self.entry(remark.name)

    def reject(self, file, reject, lines, note):
        at = f', line {lines[0].number}' if lines else ''
        title = f'{file.called()}{at}, block {reject.position} (BlockId {reject.block}): {reject.reason}'
        self.say(f'\n{visible(title)}' + f' ({note})' * bool(note))
        self.lines(lines)
        if (file, reject.reason) in self.told:
            self.say(f'  {reject.reason}: as above')
        else:
            self.entry(reject.reason)
        self.told.add((file, reject.reason))

    def further(self, file):
        """What was found after the first fault."""
        self.say(f'\n{visible(file.called())}, after its first fault. What follows is a guess, since each line is judged as if those '
                 'before it were good:')
        for it in file.further:
            self.say(f'  line {it.line}: {it.name}{" " + it.column if it.column else ""}{" (a block)" if it.is_reason else ""}: '
                     f'expected {expected(it.name, it.column)}')
        if not file.further:
            self.say('  nothing')

    def left(self):
        """What was left out, for each file and reason."""
        rows = [(file, reason, left) for file in self.report.files for reason, left in file.left.items()]
        for file in self.report.files:
            rest = file.rest()
            unread = f'; {rest.unread} usages cannot be read' if rest and rest.unread else ''
            if rest and rest.left.blocks:
                rows.append((file, f'line {file.line.fault.line} and what follows, not read (a guess{unread})', rest.left))
        if rows:
            self.say('\nLeft out, and not paid:')
        for file, reason, left in rows:
            self.say(f'  {visible(file.called())}, {reason}: {amounts_told(left)}')
