"""What a fault may come from: named from the bytes of the file, as a guess."""
import re

from files import MOST_LINE

PACKED = ((b'\x1f\x8b', 'gzip', '.gz'), (b'BZh', 'bzip2', '.bz2'), (b'\xfd7zXZ\0', 'xz', '.xz'), (b'\x28\xb5\x2f\xfd', 'zstd', '.zst'))
WORKBOOK = 'a workbook of a spreadsheet ({}): a report is plain text with TABs, as the sender exported it'
SEPARATORS = {b',': 'commas', b';': 'semicolons', b' ': 'spaces', b'|': 'pipes'}
NUMBERS = ('Usages', 'Amount', 'Shares', 'FileNumber', 'NumberOfFiles', 'NumberOfLinesInFile', 'NumberOfSummaryRecords',
           'NumberOfBlocksInFile')
OF_FILE = 'The file looks like one'
DAYS = ('UsageStartDate', 'UsageEndDate')


def container(begin):
    """What the file is, if it is no text of a report at all."""
    for magic, program, ending in PACKED:
        if begin.startswith(magic):
            return f'packed by {program} ({ending}): unpack it first'
    if begin.startswith(b'PK\x03\x04'):
        is_workbook = b'[Content_Types].xml' in begin or b'xl/' in begin
        return WORKBOOK.format('.xlsx') if is_workbook else 'a zip archive: unpack it first'
    if begin.startswith(b'\xd0\xcf\x11\xe0'):
        return WORKBOOK.format('.xls')
    if begin.startswith((b'\xff\xfe', b'\xfe\xff')) or len(begin) > 3 and (begin[1] == begin[3] == 0 or begin[0] == begin[2] == 0):
        return 'in UTF-16 ("Unicode text" of a spreadsheet): it is to be exported in UTF-8'
    if b'\0' in begin:
        return 'no text at all'
    if re.match(rb'\s*<(!doctype|html|\?xml)', begin, re.I):
        return 'a web page or XML, such as a page to sign in, in place of the file'
    return 'a statement, and no file of a report' if re.match(rb'(NO)?REPORT(\t|\r?\n)', begin) else None


def separators(layout, begin):
    """What separates cells or lines in place of TABs and line feeds."""
    lines = re.split(rb'\r?\n', begin)
    first = lines[0]
    if b'\n' not in begin and begin.count(b'\r') > 1:
        return 'with lines that end in CR alone: a line ends in a line feed'
    quoted = re.match(rb'"([A-Za-z0-9.]{1,16})"', first)
    if quoted and layout.role_of(quoted[1]):
        return 'with each cell in quotes: cells are written without'
    found = re.match(rb'([A-Za-z0-9.]{1,16})([,; |])', first)
    if found and layout.role_of(found[1]) and b'\t' not in first:
        return f'with {SEPARATORS[found[2]]} between its cells: they are separated by TABs'
    second = lines[1].split(b'\t')[0] if len(lines) > 2 else b''
    if layout.role_of(first.split(b'\t')[0]) is None and layout.role_of(second):
        return 'with a line of column names at its beginning: it is to be left out'
    return None


def of_cell(column, cell):
    """What a cell that is not spelled as its column wants looks like."""
    text = cell.decode('utf-8', 'replace')
    if text.strip() != text and text.strip():
        return 'the cell has a space before or after what it says'
    if text[:1] == text[-1:] == '"':
        return 'the cell is in quotes'
    if column in DAYS:
        is_serial = re.fullmatch(r'[1-9]\d{4}(\.\d+)?', text)
        is_day = re.fullmatch(r'\d{1,4}[./-]\d{1,2}[./-]\d{1,4}', text)
        return 'a spreadsheet wrote the day in its own form' if is_serial or is_day else None
    if column not in NUMBERS:
        return None
    if re.fullmatch(r'-?\d+([.,]\d+)?[eE][+-]?\d+', text):
        return 'a spreadsheet wrote the number with an exponent'
    if re.fullmatch(r'-?\d{1,3}([,.\' \u00a0\u202f]\d{3})+([.,]\d+)?', text) and not re.fullmatch(r'-?\d+[,.]\d{3}', text):
        return 'the number has thousands separators'
    if re.fullmatch(r'-?\d{1,3},\d{3}', text):
        return 'the number has a comma, which separates decimals or thousands'
    return 'the number has a decimal comma' if re.search(r'\d,\d', text) else None


def is_of_file(cause):
    """Whether a cause is one of the whole file, and not of a cell."""
    return cause.startswith(OF_FILE + ' that is')


def of_fault(layout, fault, begin, line):
    """The likely cause of a fault as a sentence, or None. `line` is that of the fault, or None for the end of the file."""
    whole = container(begin) or (separators(layout, begin) if fault.line <= 2 else None)
    if whole and fault.line <= 2:
        return OF_FILE + (f' {whole}.' if whole.startswith('with ') else f' that is {whole}.')
    if line is None:
        return None
    kind = line.raw_cells[0]
    if fault.name == 'UnknownRecord' and layout.role_of(kind.split(b'.')[0]):
        return 'The record types have a version; a layout (--layout) reads such types.'
    if fault.name == 'NotUtf8' and len(line.raw) <= MOST_LINE:
        return OF_FILE + ' in Latin-1 or Windows-1252: it is to be exported in UTF-8.'
    cell = layout.raw_cell(line, fault.column) if fault.column and line.role else b''
    told = of_cell(fault.column, cell) if fault.name == 'BadCell' else None
    return f'It looks as if {told}.' if told else None
