"""The columns of each record, how a cell of each is spelled, and that in plain words (docs/PROFILE.md, sections 2 and 3)."""
import datetime
import re

from units import share_of

TYPES = {'HEAD': 'HEAD', 'SY': 'SY01', 'AS': 'AS01', 'MW': 'MW01', 'SU': 'SU01', 'FOOT': 'FOOT'}
COLUMNS = {
    'HEAD': 'MessageId FileNumber NumberOfFiles UsageStartDate UsageEndDate Sender Recipient'.split(),
    'SY': 'SummaryRecordId Territory UseType Currency Usages Amount'.split(),
    'AS': 'BlockId Isrc Titles Artists'.split(),
    'MW': 'BlockId WorkId Title Parties Shares'.split(),
    'SU': 'BlockId SummaryRecordId Usages Amount'.split(),
    'FOOT': 'NumberOfLinesInFile NumberOfSummaryRecords NumberOfBlocksInFile'.split(),
}
MAY_BE_EMPTY = {'Sender', 'Recipient', 'Isrc', 'Titles', 'Artists', 'WorkId', 'Title', 'Parties', 'Shares'}
NUMBER = '[0-9]{1,12}'
SPELLINGS = {
    'MessageId': '[ -~]{1,64}', 'SummaryRecordId': '[ -~]{1,32}', 'BlockId': '[ -~]{1,32}',
    'FileNumber': NUMBER, 'NumberOfFiles': NUMBER, 'UsageStartDate': '[0-9]{4}-[0-9]{2}-[0-9]{2}',
    'UsageEndDate': '[0-9]{4}-[0-9]{2}-[0-9]{2}', 'Territory': '[A-Za-z0-9-]{1,16}', 'UseType': '[A-Za-z0-9]{1,64}',
    'Currency': '[A-Z]{3}', 'Usages': '-?[0-9]{1,12}', 'Amount': r'-?[0-9]{1,12}(?:\.[0-9]{1,10})?',
    'NumberOfLinesInFile': NUMBER, 'NumberOfSummaryRecords': NUMBER, 'NumberOfBlocksInFile': NUMBER,
}
PATTERNS = {column: re.compile(spelling.encode()) for column, spelling in SPELLINGS.items()}
ISRC = re.compile(rb'[A-Z]{2}[A-Z0-9]{3}[0-9]{7}')
IN_WORDS = {
    'MessageId': '1 to 64 characters, which are letters from A to Z, digits, spaces or signs of ASCII',
    'SummaryRecordId': '1 to 32 characters, which are letters from A to Z, digits, spaces or signs of ASCII',
    'BlockId': '1 to 32 characters, which are letters from A to Z, digits, spaces or signs of ASCII',
    'FileNumber': 'a whole number from 1 to 9999',
    'NumberOfFiles': 'a whole number from 1 to 9999, not below the number of the file',
    'UsageStartDate': 'a day of the calendar as year-month-day with two hyphens, such as 2024-01-31',
    'UsageEndDate': 'a day of the calendar as year-month-day with two hyphens, such as 2024-01-31, not before the first day',
    'Territory': '1 to 16 letters from A to Z, digits or hyphens, such as GB',
    'UseType': '1 to 64 letters from A to Z or digits, such as OnDemandStream',
    'Currency': 'three capital letters, such as EUR',
    'Usages': 'a whole number of at most twelve digits, such as 1234, with a hyphen before it if it is below zero; '
              'no decimals, no separators, no spaces',
    'Amount': 'at most twelve digits, then, if there are decimals, a point and at most ten digits, such as 1234.56, with a hyphen '
              'before it if it is below zero; no comma, no spaces, no currency, no exponent',
    'Shares': 'percentages from 0 to 100, one for each party, separated by pipes, such as 50|33.3333; each with at most four '
              'decimals after a point',
    'NumberOfLinesInFile': 'a whole number of at most twelve digits', 'NumberOfSummaryRecords': 'a whole number of at most twelve digits',
    'NumberOfBlocksInFile': 'a whole number of at most twelve digits',
    'Isrc': 'an ISRC of twelve characters without hyphens: two capital letters, three capital letters or digits, seven digits, '
            'such as GBAYE0601498',
}


def is_day(cell):
    """Whether a cell of the form of a day is one of the calendar. The year 0000 is a leap year."""
    year, month, day = (int(part) for part in cell.split(b'-'))
    try:
        return bool(datetime.date(year or 2000, month, day))
    except ValueError:
        return False


def list_of(cell):
    """The values of a list cell as they are written, their escapes included."""
    values = [b''] if cell else []
    for part in re.findall(rb'\\[\\|]|\||[^\\|]+|\\', cell):
        if part == b'|':
            values.append(b'')
        else:
            values[-1] += part
    return values


def unescaped(value):
    """A value of a list without its escapes."""
    return re.sub(rb'\\([\\|])', rb'\1', value)


def is_spelled(column, cell):
    """Whether a cell by itself is spelled as its column wants it."""
    if column == 'Shares':
        return all(share_of(value) is not None for value in list_of(cell))
    pattern = PATTERNS.get(column)
    if not pattern:
        return True
    if not pattern.fullmatch(cell):
        return False
    if column in ('FileNumber', 'NumberOfFiles'):
        return 1 <= int(cell) <= 9999
    return is_day(cell) if column in ('UsageStartDate', 'UsageEndDate') else True
