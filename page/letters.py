"""A letter to the sender for each file: where something is wrong, what is expected in plain words, and what waits for it."""
import collections
import os

from causes import is_of_file, of_fault
from showing import visible
from units import plain
from words import OURS, expected

MOST_PLACES = 20


def amounts_told(left):
    """The usages and amounts of what was left out, in words."""
    sums = [f'{usages} usages and {currency or "an unknown currency"} {plain(units)}' for currency, (usages, units) in left.in_order()]
    return f'{left.blocks} recording{"" if left.blocks == 1 else "s"}' + (f' with {", ".join(sums)}' if sums else '')


def cell_told(line, layout, at):
    """A cell with its column and place, in words."""
    names = layout.names(line.role, len(line.cells)) if line.role else []
    place = f'column {names[at]} (cell {at + 1} of the line)' if at < len(names) and names[at] else f'cell {at + 1} of the line'
    return f'{place}: {visible(line.cells[at]) or "it is empty"}'


def places_told(layout, line):
    """The places of what is marked in a line."""
    cells = [cell_told(line, layout, at) for at in sorted(line.marked) if at < len(line.cells)]
    cells += [f'column {line.missing}: the line ends before it'] if line.missing else []
    return [f'Line {line.number}, {cell}' for cell in cells[:3]] or [f'Line {line.number}']


class Letter:
    """The letter on a file. It takes the blocks that were left out, as they are found."""

    def __init__(self, report, file):
        self.report = report
        self.file = file
        self.places = collections.defaultdict(list)

    def take(self, reject, lines, note):
        places = self.places[reject.reason]
        if lines and len(places) < MOST_PLACES:
            faulty = [place for line in lines if line.marked or line.missing for place in places_told(self.report.layout, line)]
            places.append((reject, faulty or [f'Line {lines[0].number}'], note))

    def items(self):
        """What is wrong, each as lines."""
        if self.file.line.standing in ('Foreign', 'Doubled'):
            yield self.whole_file()
        elif self.file.line.fault and self.file.line.fault.name not in OURS:
            yield self.fault()
            yield from self.further()
        counts = collections.Counter(reject.reason for reject in self.file.rejects)
        for reason, count in counts.items():
            if reason not in ('ForeignFile', 'DoubledFile'):
                yield self.blocks(reason, count)
        for it in self.report.statement.differences:
            if it.file == self.file.line.place:
                yield [f'Summary {visible(it.summary)} states {it.stated_usages} usages and {plain(it.stated)}; the usages that name it '
                       f'add up to {it.found_usages} and {plain(it.found)}.', 'Expected: sums that agree. Which of the two is right?']

    def whole_file(self):
        reason = f'{self.file.line.standing}File'
        told = ('The file is one of another report, or has another period or number of files, than the other files.'
                if reason == 'ForeignFile' else f'The number {self.file.line.number} has come with an earlier file, too.')
        left = self.file.left.get(reason)
        return [told, f'Expected: {expected(reason)}', *([f'What waits for it: {amounts_told(left)}.'] if left else [])]

    def fault(self):
        fault = self.file.line.fault
        scan = self.file.scan
        line = scan.fault_lines[-1] if scan and scan.fault_lines[-1].number is not None else None
        places = places_told(self.report.layout, line) if line else [f'Line {fault.line}']
        if scan and not line:
            places = [f'Line {fault.line}: the file ends here']
        cause = of_fault(self.report.layout, fault, self.file.bytes.begin, line) if scan else None
        if cause and is_of_file(cause):
            places = [f'Line {fault.line}']
        rest = self.file.rest()
        return [*places, f'Expected: {expected(fault.name, fault.column)}', *([f'A guess: {cause}'] if cause else []),
                'The file was read up to here.' + (f' What waits for it: {amounts_told(rest.left)}, as far as the lines can be read.'
                                                   if rest and rest.left.blocks else '')]

    def further(self):
        """What follows the first fault, as a guess."""
        found = self.file.further
        for name, column in dict.fromkeys((it.name, it.column) for it in found):
            lines = [it.line for it in found if (it.name, it.column) == (name, column)]
            more = f' and {len(lines) - MOST_PLACES} more' if len(lines) > MOST_PLACES else ''
            is_same = name == self.file.line.fault.name and column == self.file.line.fault.column
            yield [f'As a guess, also line{"s" if len(lines) > 1 else ""} {", ".join(map(str, lines[:MOST_PLACES]))}{more}'
                   + (f', column {column}' if column else ''), 'Expected: the same' if is_same else f'Expected: {expected(name, column)}']

    def blocks(self, reason, count):
        told, places = [], self.places[reason]
        for reject, faulty, note in places:
            told.append(f'{faulty[0]} (recording {reject.position}, BlockId {visible(reject.block)})' + (f'; {note}' if note else ''))
            told += faulty[1:]
        told += [f'Recording {reject.position}, BlockId {visible(reject.block)}'
                 for reject in [it for it in self.file.rejects if it.reason == reason][:MOST_PLACES]] if not places else []
        more = count - min(count, MOST_PLACES)
        left = self.file.left.get(reason)
        return [*told, *([f'and {more} more'] if more else []), f'Expected: {expected(reason)}',
                f'What waits for it: {amounts_told(left) if left else f"{count} recordings"}.']

    def text(self):
        """The letter, or None if there is nothing to ask the sender."""
        items = list(self.items())
        if not items:
            return None
        numbered = [f'{at}. ' + '\n   '.join(lines) for at, lines in enumerate(items, 1)]
        return '\n\n'.join([*self.opening(), *numbered, 'Please send the whole file again, or tell us what is right.']) + '\n'

    def opening(self):
        statement, file = self.report.statement, self.file
        message, files, first, last, _ = statement.report or ('', '', '', '', '')
        is_ours = file.line.standing in ('Ours', 'Doubled')
        number = f'file number {file.line.number} of {files}' if is_ours else f'the file in place {file.line.place} of those that we read'
        given = statement.seal.inputs[file.line.place - 1] if statement.seal.inputs else None
        known = [f'which we have as {visible(os.path.basename(file.name))}'] if file.name is not None else []
        known += [f'the first {given.size} bytes have the SHA-256 {given.sha}' if file.line.fault
                  else f'{given.size} bytes, SHA-256 {given.sha}'] if given else []
        report = f'sales report {visible(message)}' if message else 'a sales report'
        yield f'Subject: {report}, {number}'
        yield 'Hello,'
        yield (f'we have read {report}' + (f' for {first} to {last}' if message else '') + f'. In {number}'
               + (f' ({", ".join(known)})' if known else '') + ' the following is not as expected.')


def missing_letter(statement):
    """The letter on files that have not come, or None."""
    if not statement.missing:
        return None
    message, files, first, last, _ = statement.report
    numbers = ', '.join(map(str, statement.missing[:1000]))
    report = f'sales report {visible(message)}'
    return (f'Subject: {report}, files that have not come\n\nHello,\n\nof {report} for {first} to {last}, which has {files} files, these '
            f'numbers have not come, or could not be read: {numbers}.\n\nPlease send them.\n')
