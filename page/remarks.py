"""The remarks of a statement, each with the lines of the file that it speaks of."""
from causes import of_fault
from columns import list_of
from files import Line
from marking import MARKED, mark
from refused import Refused
from units import written
from words import expected

KEY = ['MessageId', 'NumberOfFiles', 'UsageStartDate', 'UsageEndDate']
CUT = ('MissingCell', 'BadCell', 'Uneven', 'UnknownRecord')


class Remark:
    """Something to look at: where it is, its name in the guide, notes, and groups of lines, each with a title."""

    def __init__(self, where, name, column=None):
        self.where = where
        self.name = name
        self.column = column
        self.notes = []
        self.groups = []

    def title(self):
        return f'{self.where}: {self.name}{" " + self.column if self.column else ""}'


def ranges(numbers):
    """Rising numbers in words: `2, 4 to 9`."""
    found = []
    for number in numbers:
        if found and found[-1][1] == number - 1:
            found[-1][1] = number
        else:
            found.append([number, number])
    return ', '.join(str(first) if first == last else f'{first} to {last}' for first, last in found)


def notes_of_fault(layout, found, line, fault):
    """What was counted, for a fault of counts, and whether the file may have been cut off."""
    if fault.name == 'FootLines':
        yield f'Counted: {found.records} records, and {found.records + found.skipped} lines with those that are skipped.'
    if fault.name == 'FootSummaries':
        yield f'Counted: {len(found.summaries)} summaries.'
    if fault.name == 'FootBlocks':
        yield f'Counted: {found.position} blocks.'
    if fault.name == 'Uneven':
        parties, shares = (len(list_of(layout.raw_cell(line, column))) for column in ('Parties', 'Shares'))
        yield f'Counted: {parties} parties, {shares} shares.'
    if fault.name in CUT and found.is_at_end:
        yield 'This is the last line of the file: it may have been cut off here.'


def lines_of_fault(layout, found, fault):
    """The line of a fault with those before it, and with the earlier line that it does not agree with."""
    last = found.fault_lines[-1]
    earlier = None
    if fault.name == 'SummaryTwice':
        earlier = found.summaries.get(layout.raw_cell(last, 'SummaryRecordId'))
    elif fault.name == 'BlockNumber':
        earlier = found.resource
    if earlier is not None:
        mark(layout, earlier, MARKED[fault.name])
    before = [earlier] if earlier is not None and earlier not in found.fault_lines else []
    return before + found.fault_lines


def fault_remark(layout, file):
    fault = file.line.fault
    remark = Remark(f'{file.called()}, line {fault.line}', fault.name, fault.column)
    if file.line.standing == 'Headless':
        remark.notes.append('The file is Headless: the fault is before its first block, so nothing of it counts.')
    if file.scan:
        last = file.scan.fault_lines[-1]
        remark.notes += notes_of_fault(layout, file.scan, last, fault)
        cause = of_fault(layout, fault, file.bytes.begin, last if last.number is not None else None)
        remark.notes += [f'A guess: {cause}'] if cause else []
        remark.notes += [f'Expected: {expected(fault.name, fault.column)}.'] if fault.name == 'BadCell' else []
        remark.groups.append(('', lines_of_fault(layout, file.scan, fault)))
    return remark


def standing_remark(layout, file, files):
    """A file that is not Ours, with its HEAD below that of the file of the report that it does not agree with."""
    remark = Remark(file.called(), file.line.standing)
    if file.line.standing == 'Headless' or not file.scan:
        return remark
    foreign = file.line.standing == 'Foreign'
    other = next((it for it in files if it.line.standing == 'Ours' and (foreign or it.line.number == file.line.number)), None)
    if other is None:
        raise Refused(f'{file.called()} is {file.line.standing}, but no file is that of the report')
    heads = [Line(it.scan.head.number, it.scan.head.raw, 'HEAD') for it in (other, file)]
    columns = [it for it in KEY if layout.cell(heads[0], it) != layout.cell(heads[1], it)] if foreign else ['FileNumber']
    for each, head in zip((other, file), heads):
        mark(layout, head, columns)
        remark.groups.append((each.called(), [head]))
    return remark


def difference_remark(layout, file, differences):
    count = len(differences)
    remark = Remark(f'{file.called()}, {count} {"sum that differs" if count == 1 else "sums that differ"}', 'SUMMARY')
    for it in differences:
        title = (f'Summary {it.summary}. Usages: stated {it.stated_usages}, found {it.found_usages}. '
                 f'Amount: stated {written(it.stated)}, found {written(it.found)}.')
        line = file.scan.summaries.get(it.summary.encode()) if file.scan else None
        if line:
            differs = {'Usages': it.stated_usages != it.found_usages, 'Amount': it.stated != it.found}
            mark(layout, line, [column for column in differs if differs[column]])
        remark.groups.append((title, [line] if line else []))
    return remark
