"""A seeded generator of statements to be added up: given and paid ones, good and spoilt in every way.

Most good statements are those of reports.py's reports, by statement.py; the others are drawn line by line, with greatest
and odd cells. Most are sealed. The first cases each apply one spoiling of the list to one statement, so that a short run meets
all of them; half of the lines that were spoilt have an end that is theirs.
"""
import dataclasses
import random

import reports
import statement
import totals

GREATEST = 2 ** 123 - 1
AMOUNTS = (0, 0, 1, -1, 5 * 10 ** 9, -5 * 10 ** 9, 10 ** 22 - 1, 2 ** 64, GREATEST, -GREATEST)
USAGES = (0, 1, 10, -5, 2 ** 64, -2 ** 64, 2 ** 127 - 1, -2 ** 127)
PARTIES = (b'P1', b'P2', b'P10', b'', b' ', b'\r', b'a\rb', 'Zo\u00eb'.encode(), '\U0001d11e'.encode(), b'"P1"', b'P,1', b'GB', b'\0', b'x' * 300)
TERRITORIES = (b'GB', b'DE', b'US-CA', b'G', b'Z' * 16)
USES = (b'OnDemandStream', b'1', b'u' * 64)
CURRENCIES = (b'GBP', b'EUR', b'AAA')
FAULTS = totals.NAMED['fault']
DAYS = ((b'2024-01-01', b'2024-01-31', b'31'), (b'2024-02-29', b'2024-02-29', b'1'), (b'0000-01-01', b'9999-12-31', b'3652425'))


# ------------------------------------------------------------ good statements, as lists of lists of cells

def of_report(rng):
    """The statement of a generated report; some have faults."""
    layout = reports.Layout(rng, True)
    texts = reports.files_of(rng, layout)
    while rng.random() < 0.3:
        spoil = rng.choice(reports.SPOILS)
        text = rng.choice(texts)
        if spoil not in reports.HEAVY and text.records:
            spoil(rng, text)
    layouts = statement.STANDARD if rng.random() < 0.3 else None
    written = statement.statement([(text.bytes(rng, layout), text.ending) for text in texts], layouts, True)[1]
    return [line.split(b'\t') for line in written.split(b'\n')[:-1]]


def drawn(rng):
    """A statement that is drawn line by line."""
    clean = rng.random() < 0.5
    first, last, days = rng.choice(DAYS)
    lines = [[b'REPORT', rng.choice((b'R1', b'x' * 64, b' ', b'~')), rng.choice((b'1', b'0', b'4294967295')), first, last, days]]
    files = rng.choice((1, 1, 2, 3, 12))
    lines += [[b'FILE', b'%d' % file, *(drawn_file(rng) if not clean else (b'1', b'Ours', b'2', b'Whole'))] for file in range(1, files + 1)]
    if not clean:
        lines += [[b'MISSING', b'%d' % at] for at in sorted(rng.sample((0, 1, 2, 9, 10, 4294967295), rng.choice((0, 1, 3))))]
        lines += [[b'SUMMARY', b'%d' % file, rng.choice((b'S1', b'x' * 32)), *(b'%d' % rng.choice(USAGES) for _ in range(2)),
                   *(statement.written(rng.choice(AMOUNTS)) for _ in range(2))] for file in places(rng)]
    for key in sorted(drawn_keys(rng)):
        lines += drawn_ledger(rng, list(key))
    if not clean:
        blocks = sorted((file, rng.choice((0, 1, 2, 9, 10, 2 ** 64 - 1))) for file in places(rng))
        lines += [[b'REJECT', b'%d' % file, b'%d' % at, rng.choice((b'1', b'x' * 32, b' ')), rng.choice(totals.NAMED['reason']).encode()]
                  for file, at in dict.fromkeys(blocks)]
    return lines + drawn_seal(rng, lines, files)


def drawn_seal(rng, lines, files):
    """The seal of these lines, of any bytes."""
    def digest():
        return rng.choice((b'0', b'1', b'4096', b'18446744073709551615')), b'%064x' % rng.getrandbits(256)
    before = [[b'LAYOUT', *digest()]] if rng.random() < 0.3 else []
    before += [[b'INPUT', b'%d' % file, *digest()] for file in range(1, files + 1)]
    return [*before, end_of(lines + before)]


def end_of(lines):
    """The END that stands behind these lines."""
    remarks = any(cells[0].decode() in totals.REMARKS or cells[0] == b'FILE' and cells[3:4] + cells[5:] != [b'Ours', b'Whole'] for cells in lines)
    return [b'END', b'%d' % len(lines), b'Remarks' if remarks else b'Clean']


def is_seal(cells):
    return cells[0] in (b'LAYOUT', b'INPUT', b'END')


def places(rng):
    return sorted(rng.choice((0, 1, 2, 10, 2 ** 64 - 1)) for _ in range(rng.choice((0, 1, 2, 4))))


def drawn_file(rng):
    """The cells of a FILE line after the first two."""
    number = rng.choice((b'-', b'0', b'1', b'4294967295'))
    standing = rng.choice(totals.NAMED['standing']).encode()
    blocks = rng.choice((b'0', b'3', b'18446744073709551615'))
    if rng.random() < 0.5:
        return number, standing, blocks, b'Whole'
    fault = rng.choice((*FAULTS, 'MissingCell', 'BadCell'))
    column = (rng.choice(totals.NAMED['column']).encode(),) if fault in ('MissingCell', 'BadCell') else ()
    return number, standing, blocks, b'Fault', rng.choice((b'0', b'1', b'18446744073709551615')), fault.encode(), *column


def drawn_keys(rng):
    isrcs = [isrc.encode() for isrc in reports.ISRCS]
    return {(rng.choice(isrcs), rng.choice(TERRITORIES), rng.choice(USES), rng.choice(CURRENCIES)) for _ in range(rng.choice((0, 1, 2, 5, 25)))}


def drawn_ledger(rng, key):
    """A LEDGER line with what stands under it."""
    pool = AMOUNTS if rng.random() < 0.3 else AMOUNTS[:6]
    amount = rng.choice(pool)
    parts = {rng.choice(PARTIES): rng.choice(pool) for _ in range(rng.choice((0, 1, 2, 6)))}
    rest = amount - sum(parts.values())
    if abs(rest) > GREATEST:
        parts, rest = {}, amount
    usages = rng.choice(USAGES if rng.random() < 0.2 else USAGES[:4])
    return [[b'LEDGER', *key, b'%d' % usages, statement.written(amount)],
            *([b'PARTY', *key, party, statement.written(part)] for party, part in sorted(parts.items())),
            [b'UNCLAIMED', *key, statement.written(rest)]]


# ------------------------------------------------------------ spoilings

NUMBERS = (b'', b'-', b'-1', b'+1', b'01', b'00', b'-0', b'1.0', b' 1', b'1 ', b'0x1', b'1e3', '\u0661'.encode(), b'4294967296', b'18446744073709551616',
           b'9' * 60)
AMOUNT_CELLS = (b'', b'0', b'0.0', b'-0.0000000000', b'00.0000000000', b'.0000000000', b'1.', b'1.00000000000', b'1.000000000', b'1,0000000000',
                b'+1.0000000000', b'--1.0000000000', b'01.0000000000', b'1.000000000\r', statement.written(GREATEST + 1), statement.written(-GREATEST - 1))
USAGE_CELLS = (b'', b'-0', b'01', b'-01', b'+1', b'1.0', b'--1', b'-', b'170141183460469231731687303715884105728', b'-170141183460469231731687303715884105729')
TEXTS = (b'', b'\x1f', b'\x7f', b'x' * 65, b'x' * 33, 'caf\u00e9'.encode(), b'a b', b'gb', b'ours', b'Ours ', b'Memory', b'Whole', b'Fault', b'Amount')
DAY_CELLS = (b'2024-02-30', b'2023-02-29', b'2024-1-01', b'10000-01-01', b'', b'2024-13-01', b'2025-12-31', b'-001-01-01')
DIGESTS = (b'', b'0' * 63, b'0' * 65, b'F' * 64, b'g' * 64, b'0' * 63 + b' ', b'0' * 63 + b'\r', b'sha256:' + b'0' * 57, b'0' * 64)
CELLS = {
    'REPORT': (TEXTS[:6], NUMBERS, DAY_CELLS, DAY_CELLS, (*NUMBERS, b'32', b'30')),
    'FILE': (NUMBERS, NUMBERS, TEXTS, NUMBERS, TEXTS, NUMBERS, TEXTS, TEXTS),
    'MISSING': (NUMBERS,),
    'SUMMARY': (NUMBERS, TEXTS[:6], USAGE_CELLS, USAGE_CELLS, AMOUNT_CELLS, AMOUNT_CELLS),
    'LEDGER': ((b'', *map(str.encode, reports.BAD_ISRCS)), TEXTS[:7], TEXTS[:7], TEXTS[:8], USAGE_CELLS, AMOUNT_CELLS),
    'PARTY': ((b'', *map(str.encode, reports.BAD_ISRCS)), TEXTS[:7], TEXTS[:7], TEXTS[:8], PARTIES, AMOUNT_CELLS),
    'UNCLAIMED': ((b'', *map(str.encode, reports.BAD_ISRCS)), TEXTS[:7], TEXTS[:7], TEXTS[:8], AMOUNT_CELLS),
    'REJECT': (NUMBERS, NUMBERS, TEXTS[:6], TEXTS),
    'LAYOUT': (NUMBERS, DIGESTS),
    'INPUT': (NUMBERS, NUMBERS, DIGESTS),
    'END': ((*NUMBERS, b'0', b'3'), (b'', b'clean', b'Clean', b'Remarks', b'Clean ', b'Whole')),
}


def of_kind(rng, lines, kind):
    """The place of a line of a kind, or None."""
    found = [at for at, cells in enumerate(lines) if cells[0] == kind.encode()]
    return rng.choice(found) if found else None


def of(kind, change):
    """Changes a line of a kind, if there is one, by its place."""
    def spoil(rng, lines):
        at = of_kind(rng, lines, rng.choice(kind) if isinstance(kind, tuple) else kind)
        if at is not None:
            change(rng, lines, at)
    return spoil


def other_cell(kind, column):
    """A line of a kind with another cell in a column."""
    def change(rng, lines, at):
        if column < len(lines[at]):
            lines[at][column] = rng.choice(CELLS[kind][column - 1])
    return of(kind, change)


def other_count(kind, by):
    """A line of a kind with some cells more or less."""
    def change(rng, lines, at):
        lines[at][len(lines[at]) + min(by, 0):] = [b'x'] * max(by, 0)
    return of(kind, change)


def unknown_line(rng, lines):
    rng.choice(lines)[0] = rng.choice((b'', b'ledger', b'LEDGER ', b'TOTAL', b'\xef\xbb\xbfREPORT', b'STATEMENT', b'HEAD', b'"LEDGER"', b'# x', b'REPORT\r'))


def line_end(rng, lines):
    """CR line ends, on one line or on all."""
    for cells in lines if rng.random() < 0.5 else [rng.choice(lines)]:
        cells[-1] += b'\r'


def drop_line(kind):
    return of(kind, lambda rng, lines, at: lines.pop(at))


def again(kind):
    return of(kind, lambda rng, lines, at: lines.insert(at + 1 if rng.random() < 0.5 else rng.randrange(len(lines) + 1), list(lines[at])))


def swap(rng, lines):
    first = rng.randrange(len(lines))
    second = min(first + 1, len(lines) - 1) if rng.random() < 0.6 else rng.randrange(len(lines))
    lines[first], lines[second] = lines[second], lines[first]


def other_sum(kind):
    """Another amount, by one unit or much, so that a ledger line's amounts no longer add up."""
    def change(rng, lines, at):
        sign, digits = lines[at][-1][:1] == b'-', lines[at][-1].lstrip(b'-').replace(b'.', b'')
        if digits.isdigit():
            lines[at][-1] = statement.written((-1 if sign else 1) * int(digits) + rng.choice((1, -1, 10 ** 10, -2 ** 64)))
    return of(kind, change)


def wrapped_sum(rng, lines):
    """Amounts that add up only where a sum of 128 bits wraps."""
    key = [b'AAAAA0000000', b'GB', b'1', b'GBP']
    at = next((at for at, cells in enumerate(lines) if cells[0] in (b'LEDGER', b'REJECT') or is_seal(cells)), len(lines))
    times = rng.choice((64, 63))
    lines[at:at] = [[b'LEDGER', *key, b'0', b'0.0000000000'],
                    *([b'PARTY', *key, b'p%02d' % party, statement.written(2 ** 122)] for party in range(times)),
                    [b'UNCLAIMED', *key, b'0.0000000000']]


def other_outcome(rng, lines, at):
    """A file that ended by any fault, with or without a column."""
    column = [rng.choice(totals.NAMED['column']).encode()] if rng.random() < 0.7 else []
    lines[at][5:] = [b'Fault', b'7', rng.choice(FAULTS).encode(), *column]


def other_period(rng, lines, at):
    """A last day that is before the first, with the number of days that this gives."""
    lines[at][3:] = rng.choice(([b'2024-01-02', b'2024-01-01', b'0'], [b'2024-03-01', b'2024-02-28', b'-1'], [b'2024-03-01', b'2024-02-29', b'0']))


def other_key(rng, lines, at):
    """A line under a LEDGER line with one other cell of the key, which is spelled well."""
    column = rng.choice((1, 2, 3, 4))
    lines[at][column] = (b'GBABC2400009', b'FR', b'PermanentDownload', b'USD')[column - 1]


def ledger_again(rng, lines, at):
    """A LEDGER line once more, with all that stands under it."""
    end = next((other for other in range(at + 1, len(lines)) if lines[other][0] == b'UNCLAIMED'), at) + 1
    lines[end:end] = [list(cells) for cells in lines[at:end]]


def other_end(change):
    """An end with another number, or with the other status."""
    def spoil(rng, lines):
        if lines and lines[-1][0] == b'END' and len(lines[-1]) == 3 and lines[-1][1].isdigit():
            number, status = int(lines[-1][1]), lines[-1][2]
            lines[-1][1:] = [b'%d' % max(number + change, 0), {b'Clean': b'Remarks'}.get(status, b'Clean') if change == 0 else status]
    return spoil


def behind_the_end(rng, lines):
    lines.append(list(rng.choice(lines)))


def early_end(rng, lines):
    """An end in front of the last lines, with the number that is right there."""
    at = rng.randrange(1, len(lines) + 1)
    lines.insert(at, end_of(lines[:at]))


def seal_line_elsewhere(rng, lines):
    """A line of the seal at another place."""
    found = [at for at, cells in enumerate(lines) if is_seal(cells)]
    if found:
        lines.insert(rng.randrange(len(lines)), lines.pop(rng.choice(found)))


def file_of_no_line(rng, lines):
    """An INPUT of a file that has no line, or no INPUT of the last file."""
    at = max((at for at, cells in enumerate(lines) if cells[0] == b'INPUT'), default=None)
    if at is not None and rng.random() < 0.5:
        lines.insert(at + 1, [b'INPUT', b'%d' % (int(lines[at][1]) + 1), *lines[at][2:]])
    elif at is not None:
        del lines[at]


def no_seal(rng, lines):
    lines[:] = [cells for cells in lines if not is_seal(cells)]


def no_report(rng, lines):
    lines[0] = [b'NOREPORT']


def no_report_with_a_cell(rng, lines):
    lines[0] = [b'NOREPORT', b'']


def no_report_below(rng, lines):
    lines.insert(rng.randrange(1, len(lines) + 1), [b'NOREPORT'])


def first_lines(rng, lines):
    del lines[rng.randrange(len(lines) + 1):]


def header_alone(rng, lines):
    del lines[1:]


def no_lines(rng, lines):
    lines.clear()


def long_party(rng, lines, at):
    """A line of exactly as many bytes as there may be, or of one more."""
    cell = 5 if lines[at][0] == b'PARTY' else len(lines[at]) - 1
    lines[at][cell] += b'~' * (rng.choice((16_384, 16_385, 20_000)) - len(b'\t'.join(lines[at])))


LINE_SPOILS = [
    *(other_cell(kind, column) for kind, columns in CELLS.items() for column in range(1, len(columns) + 1)),
    *(other_count(kind, change) for kind in CELLS for change in (1, -1)), other_count('FILE', 2),
    *(drop_line(kind) for kind in CELLS), *(again(kind) for kind in CELLS), *(other_sum(kind) for kind in ('LEDGER', 'PARTY', 'UNCLAIMED')),
    unknown_line, line_end, swap, swap, wrapped_sum, no_report,
    no_report_with_a_cell, no_report_below, *[of('FILE', other_outcome)] * 2, of('REPORT', other_period), *[of(('PARTY', 'UNCLAIMED'), other_key)] * 2,
    of('LEDGER', ledger_again), first_lines, header_alone, no_lines, *[of(('PARTY', 'PARTY', 'UNCLAIMED'), long_party)] * 2,
    *(other_end(change) for change in (0, 1, -1)), behind_the_end, early_end, seal_line_elsewhere, file_of_no_line, no_seal,
]


def not_utf8(rng, content):
    return reports_bytes(rng, content, (b'\xff', b'\xc0\x80', b'\xed\xa0\x80', b'\xe2\x82', b'\x80'))


def reports_bytes(rng, content, pieces):
    at = rng.randrange(len(content) + 1)
    return content[:at] + rng.choice(pieces) + content[at:]


def no_last_feed(rng, content):
    return content[:-1]


def long_end(rng, content):
    return content + b'x' * rng.choice((16_384, 16_385, 40_000))


BYTE_SPOILS = [reports.cut_bytes, reports.other_byte, reports.swapped_bytes, not_utf8, no_last_feed, long_end,
               lambda rng, content: b'\xef\xbb\xbf' + content, lambda rng, content: content + b'\n', lambda rng, content: content + content]
SPOILS = LINE_SPOILS + BYTE_SPOILS
# what spoils an end is left as it is
ENDS = [spoil for spoil in LINE_SPOILS if spoil.__qualname__.startswith(('other_end', 'behind_the_end'))]


# ------------------------------------------------------------ cases

@dataclasses.dataclass
class Case:
    """Given and paid statements, each its bytes and how it ends (Whole, or Read), and what is let through."""
    given: list
    paid: list
    rules: totals.Rules
    words: float


def good(rng, name):
    """A good statement, of a report with this MessageId; a few have no seal."""
    lines = of_report(rng) if rng.random() < 0.6 else drawn(rng)
    if rng.random() < 0.1:
        no_seal(rng, lines)
    if lines[0][0] == b'REPORT' and rng.random() < 0.95:
        lines[0][1] = name
    return lines


def text_of(lines):
    return b''.join(b'\t'.join(cells) + b'\n' for cells in lines)


def spoilt(rng, lines, spoil):
    """The bytes of lines that this spoiling was applied to."""
    if spoil in LINE_SPOILS:
        lines = [list(cells) for cells in lines]
        spoil(rng, lines)
        if lines and lines[-1][0] == b'END' and spoil not in ENDS and rng.random() < 0.5:
            lines[-1] = end_of(lines[:-1])
        return text_of(lines)
    return spoil(rng, text_of(lines))


def earlier(rng, given):
    """A paid statement: one of the given as it is, another of its report, one of its message alone, or one of another report."""
    kind = rng.random()
    lines = rng.choice(given)
    if kind < 0.5:
        return lines
    other = good(rng, b'other')
    if kind < 0.95 and lines and lines[0][0] == other[0][0] == b'REPORT':
        other[0] = lines[0] if kind < 0.85 else [*lines[0][:2], *other[0][2:]]
    return other


def case(seed, number):
    """The case with this number; the same seed and number give the same bytes."""
    rng = random.Random(f'{seed}:{number}')
    directed = number < 6 * len(SPOILS)
    given = [good(rng, b'R%d' % at) for at in range(rng.choice((1, 1, 1, 2, 3, 5)))]
    if rng.random() < 0.05:
        given.append(rng.choice(given))
    if rng.random() < 0.1:
        given.append(good(rng, b'R0'))
    paid = [earlier(rng, given) for _ in range(rng.choice((0, 0, 0, 1, 1, 2)))]
    texts = [text_of(lines) for lines in given + paid]
    if directed:
        spoil = SPOILS[number % len(SPOILS)]
        given[0] = good_for(rng, spoil, given[0])
        texts[0] = spoilt(rng, given[0], spoil)
    elif rng.random() < 0.6:
        at = rng.randrange(len(texts))
        lines = (given + paid)[at]
        if lines:
            texts[at] = spoilt(rng, lines, rng.choice(SPOILS))
    endings = ['Read' if rng.random() < 0.02 else 'Whole' for _ in texts]
    pairs = list(zip(texts, endings))
    rules = totals.Rules(rng.random() < 0.7 or directed, rng.random() < 0.4, rng.random() < 0.4)
    return Case(pairs[:len(given)], pairs[len(given):], rules, rng.random())


def good_for(rng, spoil, lines):
    """A statement that this spoiling changes, if a few tries find one."""
    for _ in range(30):
        if spoilt(random.Random(1), lines, spoil) != text_of(lines):
            return lines
        lines = drawn(rng)
    return lines
