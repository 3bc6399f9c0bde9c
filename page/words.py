"""What a sender is told of a fault or a reason, in plain words: what is expected."""
from columns import IN_WORDS

EXPECTED = {
    'LongLine': 'a line of at most 8,192 bytes, which ends in a line feed',
    'NotUtf8': 'text in UTF-8',
    'ManyCells': 'at most 64 cells in a line, separated by TABs; one record in each line',
    'UnknownRecord': 'a record type that we read as the first cell of the line: HEAD, SY01, AS01, MW01, SU01 or FOOT',
    'MissingCell': 'a cell for this column, which must not be left out',
    'Uneven': 'as many shares as parties, each list with its values separated by pipes; a pipe within a name is written \\|',
    'NoHead': 'HEAD as the first record of the file',
    'SecondHead': 'one HEAD in each file; two files are not to be joined',
    'LateSummary': 'all summaries (SY01) before the first recording (AS01)',
    'NoResource': 'the recording (AS01) before its works (MW01) and usages (SU01)',
    'LateWork': 'the works (MW01) of a recording before its usages (SU01)',
    'BlockNumber': 'the BlockId of the recording (AS01) in all its works and usages',
    'NoUsage': 'at least one usage (SU01) for each recording (AS01)',
    'AfterFoot': 'nothing after FOOT, which is the last record of a file',
    'NoFoot': 'FOOT as the last record of the file; it may have been cut off',
    'SummaryTwice': 'another identifier for each summary (SY01) of a file',
    'ManySummaries': 'at most 1,000 summaries (SY01) in a file',
    'LongBlock': 'at most 64 records for a recording (AS01), with its works and usages',
    'FootLines': 'the number of records of the file, HEAD and FOOT included, as the first count of FOOT',
    'FootSummaries': 'the number of summaries (SY01) of the file as the second count of FOOT',
    'FootBlocks': 'the number of recordings (AS01) of the file as the third count of FOOT',
    'NoIsrc': IN_WORDS['Isrc'],
    'BadIsrc': IN_WORDS['Isrc'],
    'DoubledBlock': 'another BlockId for each recording of a file; is it the same sale twice, or another sale?',
    'UnknownSummary': 'a summary (SY01) of the same file with the identifier that the usage names',
    'ShareOver': 'shares that add up to at most 100 percent over all works of the recording',
    'ForeignFile': 'files of one report: the same MessageId, number of files and period in each',
    'DoubledFile': 'one file for each number of the report; which of the two is right?',
}
OURS = {'Read': 'The file could not be read here to its end: this is not the fault of the sender.',
        'Reads': 'The file has more than the limit of reads: this is not the fault of the sender.'}


def expected(name, column=None):
    """What is expected in place of a fault or a reason."""
    return IN_WORDS[column] if column in IN_WORDS and name == 'BadCell' else EXPECTED[name]
