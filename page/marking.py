"""The cells of a line that are marked, since a fault or a reason is in them."""

RECORD_TYPE = ('UnknownRecord', 'NoHead', 'SecondHead', 'LateSummary', 'NoResource', 'LateWork', 'NoUsage',
               'AfterFoot', 'ManySummaries', 'LongBlock')
MARKED = {
    'BlockNumber': ['BlockId'], 'SummaryTwice': ['SummaryRecordId'], 'Uneven': ['Parties', 'Shares'],
    'FootLines': ['NumberOfLinesInFile'], 'FootSummaries': ['NumberOfSummaryRecords'],
    'FootBlocks': ['NumberOfBlocksInFile'],
    'NoIsrc': ['Isrc'], 'BadIsrc': ['Isrc'], 'DoubledBlock': ['BlockId'], 'ShareOver': ['Shares'],
    'UnknownSummary': ['SummaryRecordId'],
}
FAULTY_ROLE = {'NoIsrc': 'AS', 'BadIsrc': 'AS', 'DoubledBlock': 'AS', 'ShareOver': 'MW', 'UnknownSummary': 'SU'}
MOST_CELLS = 64


def mark(layout, line, columns):
    """Marks these columns of a record."""
    for column in columns:
        at = layout.position(line.role, column) if line.role else None
        if at is not None and at < len(line.cells):
            line.marked.add(at)
        elif at is not None:
            line.missing = column


def mark_fault(layout, line, fault):
    """Marks what is wrong in the line of a fault."""
    if fault.name in RECORD_TYPE:
        line.marked.add(0)
    elif fault.name == 'ManyCells':
        line.marked.update(range(MOST_CELLS, len(line.cells)))
    elif fault.name == 'NotUtf8':
        line.marked.update(at for at, cell in enumerate(line.cells) if any('\udc80' <= it <= '\udcff' for it in cell))
    elif fault.name == 'LongLine':
        line.marked.add(max(range(len(line.cells)), key=lambda at: len(line.cells[at])))
    else:
        mark(layout, line, [fault.column] if fault.column else MARKED.get(fault.name, []))


def mark_block(layout, found, reject, lines):
    """Marks what is wrong in a rejected block; answers a note on it."""
    for line in lines:
        if not line.role or line.role != FAULTY_ROLE.get(reject.reason):
            continue
        if reject.reason != 'UnknownSummary' or layout.raw_cell(line, 'SummaryRecordId') not in found.summaries:
            mark(layout, line, MARKED[reject.reason])
    if reject.reason != 'DoubledBlock' or reject.block not in found.first_of:
        return ''
    return 'block {} at line {} has the same BlockId'.format(*found.first_of[reject.block])
