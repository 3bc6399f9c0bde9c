"""A seeded generator of reports: several files, layouts, and faults of every kind.

A report is built whole and valid, and is then spoilt a few times. The first cases of a run each apply one spoiling
of the list, so that a short run meets all of them; the later ones draw several.
"""
import dataclasses
import random

from statement import COLUMNS, STANDARD, amount

TYPES = {'HEAD': 'HEAD', 'SY': 'SY01', 'AS': 'AS01', 'MW': 'MW01', 'SU': 'SU01', 'FOOT': 'FOOT'}
TERRITORIES = ('GB', 'DE', 'FR', 'US-CA', 'worldwide', 'G', 'Z' * 16)
USES = ('OnDemandStream', 'PermanentDownload', '1', 'u' * 64)
CURRENCIES = ('GBP', 'EUR', 'AAA')
PARTIES = ('P1', 'P2', 'Ada Hart', 'Ben Cole', '', ' ', 'Zo\u00eb', 'A\\|B', 'C\\\\', 'D\\E', '\\\\\\|', '\U0001d11e',
           'a party whose name is longer than thirty bytes')
SHARES = ('50', '25', '100', '0', '33.3333', '33.33', '0.0001', '000.0', '010', '99.9999', '12.5')
AMOUNTS = ('0', '-0', '1', '0.5', '-0.5', '0.0000000003', '-0.0000000003', '999999999999.9999999999',
           '-999999999999.9999999999', '007', '1.10', '0.0000000001', '3.3333333333')
USAGES = ('0', '-0', '1', '10', '-5', '999999999999', '-999999999999', '007')
ISRCS = ('GBABC2400001', 'GBABC2400002', 'GBABC2400003', 'USS1Z9900001', 'DEAAA0000000', 'ZZZZZ9999999', 'GB1232400001')
BAD_ISRCS = ('gbabc2400001', 'GB-ABC-24-00001', 'GBABC240000', 'GBABC24000011', '1BABC2400001', 'GBABC24A0001', ' ', 'X',
             'GBABC240000\u00e9', 'GB\u00e9C2400001')
ODD_CELLS = ('', ' ', '-', '0', '-1', '1', '01', '00', '9999', '10000', '999999999999', '1000000000000', '0000000000001', '+1', '1.', '.5',
             '1,5', '1e3', ' 1', '1 ', '0.00000000001', '0.1234567890', '-0.0', '--1', '100.0001', '100.0000', '1000', '50|', '|', '|50', '\\|',
             '50\\|50', '0.12345|1', 'A\\|B|C\\\\', '\\', '2024-02-29', '2023-02-29', '1900-02-29', '2000-02-29', '0000-02-29', '0000-01-01',
             '9999-12-31', '2024-13-01', '2024-00-10', '2024-04-31', '2024-01-00', '2024-1-01', '2024-01-1 ', '2024/01/01', '02024-01-01',
             '20240101', 'GBP', 'gbp', 'GBPX', 'GB', 'x' * 16, 'x' * 17, 'x' * 32, 'x' * 33, 'x' * 64, 'x' * 65, 'a\x7f', 'a\x1f', '~',
             'caf\u00e9', '\u0661', '\r', 'a\r', '#', 'S1', 'S2', '1|2|3', '50|50', 'P1|P2')


class Record:
    """A record: its role, its cells by column, cells that are added at its end, and how many are cut off there."""

    def __init__(self, role, **cells):
        self.role, self.cells, self.kind, self.more, self.cut, self.before = role, cells, None, [], 0, []

    def copy(self):
        other = Record(self.role, **self.cells)
        other.kind, other.more, other.cut = self.kind, list(self.more), self.cut
        return other


class Layout:
    """The places of the columns, the types of the records, and the bytes of the layout file."""

    def __init__(self, rng, standard):
        self.standard = standard
        self.types = dict(TYPES)
        self.places = {role: list(range(1, len(columns) + 1)) for role, columns in COLUMNS.items()}
        self.skips = []
        self.bytes = STANDARD
        if not standard:
            self.vary(rng)

    def vary(self, rng):
        for role, columns in COLUMNS.items():
            if rng.random() < 0.5:
                self.types[role] = rng.choice(('', 'X.')) + role + rng.choice(('', '01', '.02', '7'))
            room = rng.choice((len(columns), len(columns) + 3, 63))
            places = rng.sample(range(1, room + 1), len(columns))
            self.places[role] = places
            for at, (name, empty) in enumerate(columns):
                if empty and rng.random() < 0.1 and name not in ('Parties', 'Shares'):
                    places[at] = None
            if rng.random() < 0.05:
                places[-1] = places[0]
        self.skips = rng.sample(['RE01', 'RE02', 'X', '.', 'Q' * 16, '01', 'AS02'], rng.choice((0, 0, 1, 3)))
        self.skips = [skip for skip in self.skips if skip not in self.types.values()]
        lines = [[role, self.types[role], *('-' if place is None else str(place) for place in self.places[role])] for role in COLUMNS]
        lines += [['SKIP', skip] for skip in self.skips]
        rng.shuffle(lines)
        if rng.random() < 0.2:
            lines.insert(rng.randrange(len(lines) + 1), rng.choice((['# a comment'], [''], ['#', 'x' * 3])))
        self.bytes = end_lines(rng, ['\t'.join(line).encode() for line in lines])

    def line(self, record):
        """A record as the bytes of its line."""
        role = record.role
        kind = record.kind if record.kind is not None else self.types.get(role, role)
        if role not in COLUMNS:
            return '\t'.join([kind, *record.more]).encode()
        placed = {0: kind}
        for (name, _), place in zip(COLUMNS[role], self.places[role]):
            if place is not None:
                placed.setdefault(place, record.cells.get(name, ''))
        cells = [placed.get(at, 'other' if at % 2 else '') for at in range(max(placed) + 1)] + record.more
        return '\t'.join(cells[:len(cells) - record.cut] if record.cut else cells).encode()


def end_lines(rng, lines):
    """The bytes of lines: by line feeds or by CR LF, with or without a mark and a last line end."""
    end = rng.choice((b'\n', b'\n', b'\n', b'\r\n'))
    mark = b'\xef\xbb\xbf' if rng.random() < 0.1 else b''
    return mark + end.join(lines) + (end if rng.random() < 0.85 else b'')


class Text:
    """A file: its records, its lines, and last its bytes; the spoilings of each kind are applied between."""

    def __init__(self, records):
        self.records, self.byte_spoils, self.line_spoils, self.ending = records, [], [], 'Whole'

    def bytes(self, rng, layout):
        lines = [line for record in self.records for line in [*record.before, layout.line(record)]]
        for spoil in self.line_spoils:
            spoil(rng, lines)
        content = end_lines(rng, lines)
        for spoil in self.byte_spoils:
            content = spoil(rng, content)
        return content


def head(rng, message, file, files):
    first, last = rng.choice((('2024-01-01', '2024-01-31'), ('2024-02-29', '2024-02-29'), ('1999-12-31', '2000-03-01')))
    return Record('HEAD', MessageId=message, FileNumber=str(file), NumberOfFiles=str(files), UsageStartDate=first,
                  UsageEndDate=last, Sender=rng.choice(('', 'Northwind Music', 'caf\u00e9')), Recipient=rng.choice(('', 'L')))


def block(rng, name, summaries):
    """The records of a block that is booked, mostly."""
    records = [Record('AS', BlockId=name, Isrc=rng.choice(ISRCS), Titles=rng.choice(('', 'Song', 'A|B')), Artists='Band')]
    room = 100
    for _ in range(rng.choice((0, 1, 1, 2, 3))):
        parties = [rng.choice(PARTIES) for _ in range(rng.choice((0, 1, 2, 2, 3, 20)))]
        shares = [rng.choice(SHARES) if rng.random() < 0.1 else rng.choice(('5', '0.5', '0.0001', '1.25')) for _ in parties]
        if parties == ['']:
            parties = ['P1']
        room -= sum(float(share) for share in shares)
        records.append(Record('MW', BlockId=name, WorkId=rng.choice(('', 'W1')), Title='Song',
                              Parties='|'.join(parties), Shares='|'.join(shares)))
    for _ in range(rng.choice((1, 1, 2, 3, 6))):
        records.append(Record('SU', BlockId=name, SummaryRecordId=rng.choice(summaries) if summaries else 'S1',
                              Usages=rng.choice(USAGES), Amount=rng.choice(AMOUNTS)))
    return records


def count(records):
    """FOOT's three counts, and the stated sums of the summaries, made to agree."""
    sums = {}
    for record in records:
        if record.role == 'SU':
            name = record.cells['SummaryRecordId']
            usages, units = sums.get(name, (0, 0))
            sums[name] = usages + int(record.cells['Usages']), units + amount(record.cells['Amount'].encode())
    for record in records:
        if record.role == 'SY':
            usages, units = sums.get(record.cells['SummaryRecordId'], (0, 0))
            if abs(usages) < 10 ** 12 and abs(units) < 10 ** 22:
                sign = '-' if units < 0 else ''
                record.cells['Usages'] = str(usages)
                record.cells['Amount'] = f'{sign}{abs(units) // 10 ** 10}.{abs(units) % 10 ** 10:010d}'
    foot = records[-1]
    foot.cells['NumberOfLinesInFile'] = str(len(records))
    foot.cells['NumberOfSummaryRecords'] = str(sum(record.role == 'SY' for record in records))
    foot.cells['NumberOfBlocksInFile'] = str(sum(record.role == 'AS' for record in records))


def comments(rng, records, layout):
    """Lines that are skipped, and records of skipped types, at places where they are allowed."""
    for record in records:
        while rng.random() < 0.08:
            record.before.append(rng.choice((b'', b'#', b'# a comment', b'#\t\t\t', '#caf\u00e9'.encode(), b'#' + b'\t' * 70)))
    extra = 0
    for skip in layout.skips:
        if rng.random() < 0.6:
            other = Record('SKIP')
            other.kind, other.more = skip, rng.choice(([], ['x'], [''] * 5, ['x'] * 63))
            records.insert(rng.randrange(len(records)), other)
            extra += 1
    foot = records[-1]
    skipped = sum(len(record.before) for record in records) if rng.random() < 0.5 else 0
    foot.cells['NumberOfLinesInFile'] = str(int(foot.cells['NumberOfLinesInFile']) + extra + skipped)


def whole(rng, message, file, files, layout, like=None):
    """A valid file."""
    first = head(rng, message, file, files)
    if like is not None:
        for name in ('UsageStartDate', 'UsageEndDate'):
            first.cells[name] = like.cells[name]
    summaries = [f'S{at}' for at in range(rng.choice((0, 1, 2, 3, 8)))]
    records = [first] + [Record('SY', SummaryRecordId=name, Territory=rng.choice(TERRITORIES), UseType=rng.choice(USES),
                                Currency=rng.choice(CURRENCIES)) for name in summaries]
    for record in records[1:]:
        record.cells.update(Usages='0', Amount='0')
    numbers = list(range(1, 1 + (rng.choice((0, 1, 2, 3, 8)) if summaries else 0)))
    if rng.random() < 0.2:
        rng.shuffle(numbers)
    for name in numbers:
        records += block(rng, str(name), summaries)
    records.append(Record('FOOT'))
    count(records)
    comments(rng, records, layout)
    return Text(records)


# ------------------------------------------------------------ spoilings of a file

def of_role(rng, text, *roles):
    """A record of these roles, or None."""
    found = [record for record in text.records if record.role in roles]
    return rng.choice(found) if found else None


def place(text, record):
    return next(at for at, other in enumerate(text.records) if other is record)


def foots(text):
    return [record for record in text.records if record.role == 'FOOT']


def of(roles, change):
    """Changes a record of these roles, if there is one."""
    def spoil(rng, text):
        record = of_role(rng, text, *roles)
        if record:
            change(rng, text, record)
    return spoil


def with_column(name):
    return [role for role, columns in COLUMNS.items() if name in dict(columns)]


def odd_column(name, cell):
    """One column with this cell in some record that has it."""
    return of(with_column(name), lambda rng, text, record: record.cells.update({name: cell}))


def cut_at(name):
    """A record that ends before a column (where the columns stand in their order)."""
    def change(rng, text, record):
        names = [column for column, _ in COLUMNS[record.role]]
        record.cut = len(names) - names.index(name)
    return of(with_column(name), change)


def odd_cell(rng, text, record):
    record.cells[rng.choice(COLUMNS[record.role])[0]] = rng.choice(ODD_CELLS)


def cut_record(rng, text, record):
    record.cut = rng.randrange(1, 8)


def many_cells(rng, text, record):
    record.more += rng.choice(([''], ['x'])) * rng.choice((1, 30, 55, 56, 57, 58, 59, 60, 61, 62, 63, 64, 70))


def uneven(rng, text, record):
    record.cells['Parties'], record.cells['Shares'] = rng.choice((('P1', ''), ('', '10'), ('P1|P2', '10'), ('|', '10'), ('a', '1|2')))


def other_block(rng, text, record):
    record.cells['BlockId'] = rng.choice(('1', '2', '01', '9', 'a'))


def other_sums(rng, text, record):
    record.cells[rng.choice(('Usages', 'Amount'))] = rng.choice(('1', '-7', '999999999999'))


def unknown_record(rng, text):
    record = rng.choice(text.records)
    record.kind = rng.choice(('SY02', 'head', 'AS01.01', '', 'X', ' HEAD', 'HEAD ', 'caf\u00e9', 'MW01', 'SU01', 'FOOT', 'RE01'))


def drop(*roles):
    return of(roles, lambda rng, text, record: text.records.remove(record))


def again(*roles):
    """A record once more: behind itself, or anywhere."""
    def change(rng, text, record):
        at = place(text, record) + 1 if rng.random() < 0.4 else rng.randrange(len(text.records) + 1)
        text.records.insert(at, record.copy())
    return of(roles, change)


def swap(rng, text):
    if text.records:
        first, second = (rng.randrange(len(text.records)) for _ in range(2))
        text.records[first], text.records[second] = text.records[second], text.records[first]


def behind(first, second):
    """A record of one role behind one of another."""
    def spoil(rng, text):
        other, record = of_role(rng, text, first), of_role(rng, text, second)
        if other and record:
            new = record.copy()
            if second in ('MW', 'SU') and first in ('AS', 'MW', 'SU'):
                new.cells['BlockId'] = other.cells['BlockId']
            if second == 'AS':
                new.cells['BlockId'] = 'new'
            text.records.insert(place(text, other) + 1, new)
    return spoil


def whole_block(change):
    """Changes all records of one block."""
    return of(['AS'], lambda rng, text, resource: change(rng, text, [record for record in text.records if record.cells.get('BlockId') == resource.cells['BlockId']]))


def doubled_block(rng, text, records):
    name = rng.choice([record for record in text.records if record.role == 'AS']).cells['BlockId']
    for record in records:
        record.cells['BlockId'] = name


def no_isrc(rng, text, records):
    records[0].cells['Isrc'] = ''


def bad_isrc(rng, text, records):
    records[0].cells['Isrc'] = rng.choice(BAD_ISRCS)


def unknown_summary(rng, text, records):
    records[-1].cells['SummaryRecordId'] = rng.choice(('S9', 'S', 's0', 'S0 '))


def share_over(rng, text, records):
    parties, shares = rng.choice((('P1|P2', '60|60'), ('P1|P2', '50|50.0001'), ('P1', '100'), ('A|B|C', '100|100|100'), ('P1|P1', '50|50')))
    work = Record('MW', BlockId=records[0].cells['BlockId'], WorkId='W', Title='', Parties=parties, Shares=shares)
    text.records.insert(place(text, records[0]) + 1, work)


def copied_block(rng, text, records):
    at = rng.choice([place(text, record) for record in text.records if record.role in ('AS', 'FOOT')] or [0])
    text.records[at:at] = [record.copy() for record in records]


def long_block(size):
    def change(rng, text, records):
        at = place(text, records[-1])
        text.records[at + 1:at + 1] = [records[-1].copy() for _ in range(size - len(records))]
        recount(text)
    return whole_block(change)


def recount(text):
    """FOOT's first count, of the records as they now stand."""
    for foot in foots(text):
        foot.cells['NumberOfLinesInFile'] = str(len(text.records))


def many_summaries(size):
    def spoil(rng, text):
        have = sum(record.role == 'SY' for record in text.records)
        text.records[1:1] = [Record('SY', SummaryRecordId=f'T{at}', Territory='GB', UseType='U', Currency='GBP', Usages='0', Amount='0')
                             for at in range(size - have)]
        recount(text)
        for foot in foots(text):
            foot.cells['NumberOfSummaryRecords'] = str(size)
    return spoil


def other_count(name):
    def spoil(rng, text):
        for foot in foots(text):
            was = foot.cells[name]
            foot.cells[name] = str(max(0, int(was) + rng.choice((-1, 1, 2, 5)))) if was.isdigit() else '3'
    return spoil


def empty_file(rng, text):
    text.records.clear()


def comments_alone(rng, text):
    text.records.clear()
    text.line_spoils.append(lambda rng, lines: lines.extend([b'#', b'', b'# x']))


def first_lines(rng, text):
    del text.records[rng.randrange(len(text.records) + 1):]


def line_spoil(change):
    def spoil(rng, text):
        text.line_spoils.append(change)
    return spoil


def not_utf8(rng, lines):
    if lines:
        at = rng.randrange(len(lines))
        bad = rng.choice((b'\xff', b'\xc0\x80', b'\xed\xa0\x80', b'\xf4\x90\x80\x80', b'\xe2\x82', b'\x80', b'\xc3', b'\xf8\x88\x80\x80\x80'))
        cut = rng.randrange(len(lines[at]) + 1)
        lines[at] = lines[at][:cut] + bad + lines[at][cut:]


def long_line(rng, lines):
    size = rng.choice((8191, 8192, 8193, 9000, 20_000))
    kind = rng.randrange(3)
    at = rng.randrange(len(lines) + 1)
    if kind == 0 or not lines:
        lines.insert(at, b'#' + b'x' * (size - 1))
    elif kind == 1:
        at = min(at, len(lines) - 1)
        lines[at] += b'\t' + b'y' * (size - len(lines[at]) - 1)
    else:
        lines.insert(at, b'#' + b'z' * (size - 2) + b'\r')


def last_long_line(rng, lines):
    lines.append(b'#' + b'w' * rng.choice((8190, 8191, 8192)))


def odd_line(rng, lines):
    lines.insert(rng.randrange(len(lines) + 1), rng.choice((b'', b'\r', b'\r\r', b'#', b'\t', b' ', b'\xef\xbb\xbf', b'\xef\xbb\xbf#', b'\t#', b'#\xff', b'\0',
                                                            b'HEAD', b'SY01', b'AS01', b'MW01', b'SU01', b'FOOT', b'\x0b', b'\xc2\x85')))


def byte_spoil(change):
    def spoil(rng, text):
        text.byte_spoils.append(change)
    return spoil


def cut_bytes(rng, content):
    return content[:rng.randrange(len(content) + 1)]


def other_byte(rng, content):
    at = rng.randrange(len(content) + 1)
    new = rng.choice((b'', b'\t', b'\n', b'\r', b'\0', b'|', b'\\', b'#', b'0', b'A', b'\xff', bytes([rng.randrange(256)])))
    return content[:at] + new + content[at + rng.choice((0, 1)):]


def swapped_bytes(rng, content):
    first, second = sorted(rng.randrange(len(content) + 1) for _ in range(2))
    third = rng.randrange(second, len(content) + 1)
    return content[:first] + content[second:third] + content[first:second] + content[third:]


def ends(ending):
    def spoil(rng, text):
        text.ending = ending
    return spoil


def long_end(rng, text):
    """A read fails, or the limit of reads comes, within a line that no line feed ends: 8,192 bytes of it are no line yet, one more are."""
    text.byte_spoils.append(lambda rng, content: content.rstrip(b'\r\n') + b'\n#' + b'v' * rng.choice((8191, 8192)))
    text.ending = rng.choice(('Read', 'Read', 'Reads'))


# The longest and greatest spellings of a column, and ones past them.
BOUNDS = {
    'MessageId': ('x' * 64, 'x' * 65), 'SummaryRecordId': ('x' * 32, 'x' * 33), 'BlockId': ('x' * 32, 'x' * 33), 'Territory': ('x' * 16, 'x' * 17),
    'UseType': ('x' * 64, 'x' * 65), 'Currency': ('XXX', 'XXXX'), 'FileNumber': ('000000000001', '0000000000001'), 'NumberOfFiles': ('9999', '10000'),
    'Usages': ('-999999999999', '1000000000000'), 'Amount': ('-999999999999.9999999999', '0.00000000000'),
    'Shares': ('100.0000', '100.0001'), 'NumberOfLinesInFile': ('000000000008', '0000000000008'), 'NumberOfSummaryRecords': ('000000000001', '0000000000001'),
    'NumberOfBlocksInFile': ('000000000001', '0000000000001'),
}
EACH_COLUMN = [name for columns in COLUMNS.values() for name, empty in columns if not empty]
SPOILS = [
    *(odd_column(name, cell) for name in dict.fromkeys([*EACH_COLUMN, 'Shares']) for cell in ('', '101') if (name, cell) != ('Shares', '')),
    *(odd_column(name, 'x\u00e9') for name in dict.fromkeys(EACH_COLUMN)),
    *(cut_at(name) for name in dict.fromkeys(EACH_COLUMN)),
    *(odd_column(name, cell) for name, cells in BOUNDS.items() for cell in cells),
    odd_column('NumberOfFiles', '0'), odd_column('UsageEndDate', '1999-01-01'),
    of([*COLUMNS, 'SKIP'], many_cells), unknown_record, of(['MW'], uneven), drop('HEAD'), drop('SU'), drop('AS'), drop('FOOT'), again('HEAD'), again('SY'),
    again('FOOT'), again('AS'), again('MW'), again('SU'), swap, behind('HEAD', 'MW'), behind('SY', 'SU'), behind('SU', 'MW'),
    behind('SU', 'SY'), behind('AS', 'SY'), behind('AS', 'AS'), behind('SU', 'HEAD'), behind('AS', 'FOOT'), behind('FOOT', 'SY'), behind('FOOT', 'SU'),
    behind('HEAD', 'FOOT'), of(['MW', 'SU', 'AS'], other_block), whole_block(doubled_block), whole_block(no_isrc), whole_block(bad_isrc),
    whole_block(unknown_summary), whole_block(share_over), whole_block(copied_block), long_block(64), long_block(65),
    many_summaries(1000), many_summaries(1001), other_count('NumberOfLinesInFile'), other_count('NumberOfSummaryRecords'),
    other_count('NumberOfBlocksInFile'), of(['SY'], other_sums), empty_file, comments_alone, first_lines, line_spoil(not_utf8), line_spoil(long_line),
    line_spoil(last_long_line), line_spoil(odd_line), byte_spoil(cut_bytes), byte_spoil(other_byte), byte_spoil(swapped_bytes),
    ends('Read'), ends('Reads'), long_end, of(COLUMNS, odd_cell), of(COLUMNS, cut_record),
]
HEAVY = {spoil for spoil in SPOILS if spoil.__qualname__.startswith('many_summaries')}


# ------------------------------------------------------------ spoilings of a layout

def lines_of(change):
    """Changes the lines of a layout."""
    def spoil(rng, content):
        lines = content.split(b'\n')
        change(rng, lines)
        return b'\n'.join(lines)
    return spoil


def large(rng, content):
    size = rng.choice((65_536, 65_537, 70_000))
    comment = b'#' + b'x' * 999 + b'\n'
    content = content if content.endswith(b'\n') else content + b'\n'
    content += comment * ((size - len(content)) // 1000)
    return content + b'\n' * (size - len(content))


def any_line(rng, lines):
    return rng.randrange(len(lines))


def layout_role(rng, lines):
    lines[any_line(rng, lines)] = rng.choice((b'XX\tAS01', b'as\tAS01\t1\t2\t3\t4', b'\t', b'AS01\tAS01\t1\t2\t3\t4', b'skip\tX', b' '))


def layout_type(rng, lines):
    lines.insert(any_line(rng, lines), rng.choice((b'SKIP', b'SKIP\t', b'SKIP\t' + b'a' * 17, b'SKIP\ta b', b'SKIP\ta-b', b'HEAD', b'MW\t\t1',
                                                  'SKIP\t\u00e9'.encode())))


def layout_role_twice(rng, lines):
    roles = [line for line in lines if line.count(b'\t') > 1]
    if roles:
        cells = rng.choice(roles).split(b'\t')
        cells[1] = b'Twice'
        lines.insert(any_line(rng, lines), b'\t'.join(cells))


def layout_type_twice(rng, lines):
    kinds = [line.split(b'\t')[1] for line in lines if b'\t' in line]
    if kinds:
        lines.append(b'SKIP\t' + rng.choice(kinds).rstrip(b'\r'))


def layout_position(rng, lines):
    at = any_line(rng, lines)
    cells = lines[at].split(b'\t')
    if len(cells) > 2:
        cells[rng.randrange(2, len(cells))] = rng.choice((b'0', b'64', b'-', b'', b'x', b'+1', b'-1', b'063', b'1000000000000', b'63', b'01'))
        lines[at] = b'\t'.join(cells[:rng.choice((len(cells), len(cells) - 1, len(cells) + 1))])


def layout_skips(rng, lines):
    have = sum(line.startswith(b'SKIP') for line in lines)
    lines[0:0] = [b'SKIP\tK%d' % at for at in range(rng.choice((64, 65, 66)) - have)]


def layout_missing(rng, lines):
    del lines[any_line(rng, lines)]


def layout_empty(rng, content):
    return rng.choice((b'', b'\n', b'\xef\xbb\xbf', b'#\n'))


LAYOUT_SPOILS = [large, lines_of(layout_role), lines_of(layout_type), lines_of(layout_role_twice), lines_of(layout_type_twice),
                 lines_of(layout_position), lines_of(layout_skips), lines_of(layout_missing), lines_of(not_utf8), lines_of(long_line),
                 lines_of(odd_line), layout_empty, cut_bytes, other_byte]


# ------------------------------------------------------------ reports

@dataclasses.dataclass
class Case:
    """A report as it is handed to a program: a layout or None, the files with their endings, capacity and limit of reads."""
    layout: bytes
    texts: list
    capacity: int
    max_reads: int


def files_of(rng, layout):
    """The files of a report: in order or not, some missing, doubled, or of another report."""
    files = rng.choice((1, 1, 1, 2, 2, 3, 4, 6))
    first = whole(rng, 'R1', 1, files, layout)
    texts = [first] + [whole(rng, 'R1', file, files, layout, heads(first)) for file in range(2, files + 1)]
    if rng.random() < 0.15:
        texts.append(whole(rng, 'R1', rng.randrange(1, files + 1), files, layout, heads(first)))
    if rng.random() < 0.1:
        texts.append(whole(rng, rng.choice(('Q9', 'R', 'R1 ')), 1, 1, layout))
    if rng.random() < 0.1 and len(texts) > 1:
        texts.pop(rng.randrange(len(texts)))
    if rng.random() < 0.3:
        rng.shuffle(texts)
    return texts


def has_all(text):
    """Whether a file has a record of every role."""
    return {record.role for record in text.records} >= set(COLUMNS)


def heads(text):
    return next(record for record in text.records if record.role == 'HEAD')


def spoil_some(rng, number, texts):
    """The spoilings of a case: one that its number gives, or some that are drawn; about one in twelve has none."""
    if number < 3 * len(SPOILS):
        SPOILS[number % len(SPOILS)](rng, rng.choice([text for text in texts if has_all(text)]))
        return
    for _ in range(rng.choice((0, 1, 1, 1, 2, 2, 3, 5))):
        spoil = rng.choice(SPOILS)
        if spoil not in HEAVY or rng.random() < 0.05:
            text = rng.choice(texts)
            if text.records:
                spoil(rng, text)


def case(seed, number):
    """The case with this number; the same seed and number give the same bytes."""
    rng = random.Random(f'{seed}:{number}')
    directed = number < 3 * len(SPOILS)
    layout = Layout(rng, directed and number < len(SPOILS) or rng.random() < 0.6)
    texts = files_of(rng, layout)
    while directed and not any(has_all(text) for text in texts):
        texts = files_of(rng, layout)
    spoil_some(rng, number, texts)
    made = [(text.bytes(rng, layout), text.ending) for text in texts]
    given = None if layout.standard and rng.random() < 0.8 else layout.bytes
    at = number - 3 * len(SPOILS)
    if 0 <= at < 6 * len(LAYOUT_SPOILS) or rng.random() < 0.04:
        spoil = LAYOUT_SPOILS[at % len(LAYOUT_SPOILS)] if 0 <= at else rng.choice(LAYOUT_SPOILS)
        given = spoil(rng, layout.bytes)
    return Case(given, made, rng.choice((None, 1, 2, 16, 1024)), None)
