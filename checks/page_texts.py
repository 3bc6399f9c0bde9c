"""Checks of dsr_page and dsr_explain without a browser."""
import concurrent.futures
import glob
import os
import re
import subprocess
import tempfile

import case_files
from page_tools import EXAMPLE, content_of, example, of_page, reports, sealed, second
from running import TOP, content, put, text_of

CASES = case_files.placed()
REPORTS = 400
CAUSES = {
    'gzip_not_unpacked': r'looks like one that is packed by gzip \(\.gz\)', 'xlsx': r'a workbook of a spreadsheet \(\.xlsx\)',
    'xlsx_without_compression': r'a workbook of a spreadsheet \(\.xlsx\)', 'utf_16': 'in UTF-16', 'latin_1': 'in Latin-1 or Windows-1252',
    'commas_in_place_of_tabs': 'with commas between its cells', 'semicolons_in_place_of_tabs': 'with semicolons between its cells',
    'spaces_in_place_of_tabs': 'with spaces between its cells', 'quoted_cells': 'with each cell in quotes',
    'line_of_column_names': 'with a line of column names', 'web_page_in_place_of_a_file': 'a web page',
    'statement_among_the_files': 'a statement, and no file of a report', 'cr_line_ends': 'lines that end in CR alone',
    'cr_line_ends_of_thirty_lines': 'lines that end in CR alone', 'cr_line_ends_of_a_large_file': 'lines that end in CR alone',
    'thousands_separator': 'comma, which separates decimals or thousands|thousands separators', 'space_before_a_number': 'a space before or after',
    'decimal_comma': 'decimal comma', 'exponent_of_a_spreadsheet': 'the number with an exponent',
    'days_of_a_spreadsheet': 'the day in its own form', 'unknown_record_type': 'record types have a version',
}
HEAD = 'HEAD\tR1\t1\t1\t2024-01-01\t2024-01-31\tS\tL\nSY01\tS1\tGB\tStream\tGBP\t1\t1\n'


def at_once(function, things):
    """The results of a function for each of these things, four at a time."""
    with concurrent.futures.ThreadPoolExecutor(4) as pool:
        return list(pool.map(function, things))


# ------------------------------------------------------------ the acceptance cases

def cases():
    """The cases with a statement: name, folder, the words for a tool without the statement's name, and the sealed statement."""
    for path in sorted(glob.glob(os.path.join(CASES, '*/expected'))):
        path, name = os.path.dirname(path), os.path.basename(os.path.dirname(path))
        if not re.match('REPORT|NOREPORT', text_of(os.path.join(path, 'expected'))):
            continue
        words = text_of(os.path.join(path, 'args')).splitlines()
        layout = words[words.index('--layout'):][:2] if '--layout' in words else []
        most = int(words[words.index('--max-reads') + 1]) if '--max-reads' in words else None
        given = case_files.read(name).given
        files = [given if word == '-' else word for word in words if word.endswith(('.tsv', '/-')) or word == '-' if word not in layout] or [
            '.' if '.' in words else given]
        text = sealed([content_of(os.path.join(path, file), most) for file in files],
                      content_of(os.path.join(path, layout[1]))[0] if layout else None)
        if not text.startswith(text_of(os.path.join(path, 'expected'))):
            raise RuntimeError(f'{name}: the sealed statement is another one')
        yield name, path, [*layout, '-', *files], text


def names_told(statement, entries):
    """What an explanation of a statement has to say, as patterns: each remark, and what the guide says of it."""
    lines = [line.split('\t') for line in statement.splitlines()]
    for cells in lines:
        name = cells[0]
        if name == 'FILE' and cells[5] == 'Fault':
            name = cells[7]
            yield rf'^File {cells[1]} \(.*\), line {cells[6]}: {" ".join(cells[7:])}$'
        elif name == 'REJECT':
            name = cells[4]
            yield rf'^File {cells[1]} \(.*\), line \d+, block {cells[2]} \(BlockId {re.escape(cells[3])}\): {name}'
        elif name == 'MISSING':
            yield r'^Number .*: MISSING$'
        elif name == 'SUMMARY':
            yield (rf'^  Summary {re.escape(cells[2])}\. Usages: stated {cells[3]}, found {cells[4]}\. '
                   rf'Amount: stated {cells[5]}, found {cells[6]}\.$')
        if name in entries:
            yield rf'^  Meaning: {re.escape(entries[name].meaning)}$'
    if lines[-1][2] == 'Clean':
        yield r'^The statement has no remarks\.$'


def follow_cases(count, tools):
    entries = of_page('guide').read_guide()

    def follow(case):
        name, folder, words, statement = case
        status, told, error = tools.run('dsr_explain', ['--all', *words], folder, statement.encode())
        missing = [it for it in names_told(statement, entries) if not re.search(it, told, re.M)]
        missing += [CAUSES[name]] if name in CAUSES and not re.search(f'A guess: .*(?:{CAUSES[name]})', told) else []
        yield f'dsr_explain: {name}', [f'status {status} {error}'] * (status != 0) + [f'no {it}' for it in missing]
        status, told, error = tools.run('dsr_page', words, folder, statement.encode())
        yield f'dsr_page: {name}', [] if status == 0 and told.endswith('</html>\n') else [f'status {status} {error}']
        status, told, error = tools.run('dsr_explain', ['--letters', *words], folder, statement.encode())
        said = re.search(CAUSES[name], told) if name in CAUSES else told
        yield f'letters: {name}', [] if status == 0 and said and not re.search(r'section|profile', told) else [f'status {status} {error}{told}']
    known = list(cases())
    count.check('each cause has its case', sorted(set(CAUSES) - {name for name, *_ in known}))
    for results in at_once(lambda case: list(follow(case)), known):
        for name, problems in results:
            count.check(name, problems)


def has(count, name, text, *wanted):
    """Checks that a text has these."""
    count.check(name, [f'no {it!r} in {text}' for it in wanted if it not in text])


def follow_marks(count, tools):
    """The line of a fault with its cell in brackets, and its entry."""
    def told(name):
        _, folder, words, statement = next(it for it in cases() if it[0] == name)
        return tools.run('dsr_explain', words, folder, statement.encode())[1]
    has(count, 'the marked cell', told('space_before_a_number'), '     5  SU01    1        S1               10      [<U+0020>0.5]', '  Meaning: A cell is not spelled as its column says')
    has(count, 'a byte that is not UTF-8', told('latin_1'), '[Caf\\xe9]')
    has(count, 'a missing cell of a file that was cut off', told('cut_after_record_type'), '6  AS01    [BlockId is missing]', 'it may have been cut off here')
    text = told('shares_without_parties')
    has(count, 'each party beside its share', text, '2 parties, 1 shares', '                50  P1\n                 ?  P2\n')
    count.check('a file that was not cut off', [text] if 'cut off here' in text else [])


# ------------------------------------------------------------ refusals

def spoilt_statements(whole):
    """Statements that are not those of the files, each with what is said of it."""
    lines = whole.splitlines(True)
    sum_, place, cut, spelling = 'line 6: Sum', 'Place', 'Cut|cut off|Unsealed|has no seal|no line of a seal', 'Spelling'
    yield 'with another amount', whole.replace('P2\t0.1250000000', 'P2\t0.1260000000'), sum_
    yield 'without a decimal', whole.replace('0.5000000000', '0.500000000'), spelling
    yield 'with lines exchanged', ''.join([lines[0], *lines[2:8], lines[1], *lines[8:]]), place
    yield 'with its end twice', ''.join([*lines, lines[-1]]), 'behind the end|Place|Cells'
    yield 'with a part of it twice', ''.join([*lines[:6], *lines[2:6], *lines[6:]]), place
    yield 'with its last line of the ledger twice', ''.join([*lines[:8], *lines[6:]]), place
    yield 'that is empty', '', cut
    yield 'with a line of its own', ''.join([lines[0], 'TOTAL\t1\n', *lines[1:]]), 'line 2: UnknownLine'
    yield 'with a cell more', whole.replace('P1\t', 'P1\tP1\t', 1), 'line 4: Cells'
    yield 'that is refused early, and goes on', ''.join([lines[0], lines[0]]) + ''.join(lines[1:8]) * 20000, 'line 2: Place'
    yield 'without a report, but with a ledger', ''.join(['NOREPORT\n', *lines[1:]]), 'line 2: it is no line of a statement without a report'
    yield 'without its seal', ''.join(lines[:8]), 'has no seal.*--unsealed|Unsealed'
    yield 'without its second recording', ''.join([*lines[:6], *lines[8:]]), 'its seal says 9 lines|Seal'
    yield 'with another status', whole.replace('Clean', 'Remarks'), 'its seal says|Seal'
    yield 'of one more line', whole.replace('END\t9', 'END\t10'), 'its seal says|Seal'
    yield 'with another digest', re.sub(r'(INPUT\t1\t\d+\t)....', r'\g<1>0000', whole), 'not the bytes of file 1.*0000.*[0-9a-f]{64}'
    for at in range(1, len(lines)):
        yield f'cut after line {at}', ''.join(lines[:at]), cut
        yield f'cut in line {at + 1}', ''.join(lines[:at]) + lines[at][:len(lines[at]) // 2], cut


def refusal(tools, tool, words, wanted, folder=TOP, given=None):
    """What is wrong if a tool does not refuse these words with a line that has this expression."""
    status, told, error = tools.run(tool, words, folder, given)
    right = status == 1 and not told and re.match(f'{tool}: ', error) and re.search(wanted, error)
    return [] if right else [f'status {status}, {told[:80]!r}, {error!r}']


def follow_refusals(count, tools):
    folder = os.path.join(CASES, 'clean_report')
    whole = sealed([content_of(os.path.join(folder, 'in1.tsv'))])

    def refused(thing):
        tool, name, text, wanted = thing
        return f'{tool}: a statement {name}', refusal(tools, tool, ['-', 'in1.tsv'], wanted, folder, text.encode())
    things = [(tool, *spoilt) for spoilt in spoilt_statements(whole) for tool in ('dsr_page', 'dsr_explain')]
    for name, problems in at_once(refused, things):
        count.check(name, problems)
    status, told, error = tools.run('dsr_page', ['--unsealed', '-', 'in1.tsv'], folder, ''.join(whole.splitlines(True)[:8]).encode())
    count.check('--unsealed', [] if status == 0 and 'Without a seal' in told else [error])
    cut = refusal(tools, 'dsr_explain', ['--unsealed', '-', 'in1.tsv'], 'cut off|Cut', folder, ''.join(whole.splitlines(True)[:9]).encode())
    count.check('--unsealed does not take what is cut in its seal', cut)


def follow_files(count, tools):
    """Files whose bytes are not those of the statement."""
    block = b'AS01\t9\tGBABC2400009\tNew\tBand\nSU01\t9\tS1\t1\t1\n'
    with tempfile.TemporaryDirectory() as room:
        texts = [content_of(os.path.join(CASES, 'missing_and_doubled_files', f'in{at}.tsv'))[0] for at in (1, 2, 3)]
        paths = [put(os.path.join(room, f'{at}.tsv'), text) for at, text in enumerate(texts, 1)]
        statement = sealed(texts).encode()
        inserted = put(os.path.join(room, 'inserted.tsv'), texts[0].replace(b'FOOT', block + b'FOOT'))
        longer = put(os.path.join(room, 'longer.tsv'), texts[1] + b'\n')
        for name, files, wanted in (
                ('a block that was inserted after the run', [inserted, *paths[1:]], r'inserted\.tsv: these are not the bytes of file 1.*[0-9a-f]{64}'),
                ('a line feed more at the end', [paths[0], longer, paths[2]], r'longer\.tsv: these are not the bytes of file 2'),
                ('files in another order', [paths[1], paths[0], paths[2]], r'2\.tsv: these are not the bytes of file 1'),
                ('a file that is not there', [*paths[:2], os.path.join(room, 'none.tsv')], r'cannot read .*none\.tsv'),
                ('one file of three', paths[:1], 'the statement has 3 files, but 1 are named')):
            for tool in ('dsr_page', 'dsr_explain'):
                count.check(f'{tool}: {name}', refusal(tools, tool, ['-', *files], wanted, given=statement))
        layout = content_of(os.path.join(TOP, 'examples', 'layout.tsv'))[0]
        other = put(os.path.join(room, 'layout.tsv'), layout + b'# another\n')
        laid = sealed(texts, layout).encode()
        for name, words, given, wanted in (
                ('without its layout', [], laid, 'give it by --layout'),
                ('with another layout', ['--layout', other], laid, 'not the bytes of the layout'),
                ('with a layout that was not given', ['--layout', other], statement, 'read without a layout')):
            count.check(name, refusal(tools, 'dsr_explain', [*words, '-', *paths], wanted, given=given))
        faulty = b'HEAD\tR1\n' + b'#' * 5000
        path = put(os.path.join(room, 'faulty.tsv'), faulty + b'changed behind what was read')
        status, told, error = tools.run('dsr_explain', ['-', path], given=sealed([faulty]).encode())
        count.check('bytes behind what was read of a file with a fault', [] if status == 0 else [error])


def follow_unsealed(count, tools):
    """Files that are not those of a statement without a seal, as far as it shows."""
    folder = os.path.join(CASES, 'missing_and_doubled_files')
    for files, wanted in ((['in2.tsv', 'in1.tsv', 'in3.tsv'], 'name the files that dsr was given, in their order'),
                          (['in1.tsv'], 'the statement has 3 files, but 1 are named'),
                          (['in1.tsv', 'in2.tsv', 'none.tsv'], 'cannot read none.tsv'),
                          (['in1.tsv', 'in2.tsv', '../foreign_file/in1.tsv'], r'File 3 \(../foreign_file/in1.tsv\)')):
        count.check(f'files without a seal {files}', refusal(tools, 'dsr_page', ['--unsealed', 'expected', *files], wanted, folder))


# ------------------------------------------------------------ what is told of a report

def read_here(texts, layout, room):
    """The page's report of texts, whose files were read, without a program."""
    statement, layouts, report_of = of_page('statement'), of_page('layouts'), of_page('report')
    found = statement.Statement(lambda booked: None)
    for number, raw in enumerate(sealed(texts, layout).encode().splitlines(True), 1):
        if found.seal.is_next(raw):
            found.seal.take(number, raw)
        else:
            found.take(*raw[:-1].decode().split('\t'))
    found.seal.end(found, False)
    names = [put(os.path.join(room, f'{at}.tsv'), text) for at, text in enumerate(texts, 1)]
    report = report_of.Report(found, names, layouts.Layout(layout))
    for file in report.files:
        report.read_file(file, lambda *block: None)
        list(report.file_remarks(file))
    return report


def left_by_the_second(texts, layout):
    """What was left out by the second program: for each file and reason the blocks, and usages and amount of each currency."""
    table = second.Layout(second.STANDARD if layout is None else layout)
    report, found = second.Report([second.File(table, text, 'Whole') for text in texts]), {}
    for place, position, _, reason in report.rejects:
        file = report.files[place - 1]
        known = {it['SummaryRecordId']: it['Currency'].decode() for it in file.summaries}
        left = found.setdefault((place, reason), [0, {}])
        left[0] += 1
        for usage in file.blocks[position - 1].usages:
            sums = left[1].setdefault(known.get(usage['SummaryRecordId']), [0, 0])
            sums[0] += usage['Usages']
            sums[1] += usage['Amount']
    return report, found


def compare_report(number, room):
    """What differs between the page's reading of a generated report and the second program's, as texts."""
    case = reports.case('page', number)
    texts, checking, raw_lines = [text for text, _ in case.texts], of_page('checking'), of_page('files').raw_lines
    try:
        second_report, left = left_by_the_second(texts, case.layout)
    except second.LayoutFault:
        return
    report = read_here(texts, case.layout, room)
    found = {(file.line.place, reason): [it.blocks, it.sums] for file in report.files for reason, it in file.left.items()}
    if found != left:
        yield f'report {number}: left out {found} in place of {left}'
    for file, text, there in zip(report.files, texts, second_report.files):
        told = list(checking.all_found(report.layout, raw_lines([text])))
        first = next(((it.line, it.name, it.column) for it in told if not it.is_reason), None)
        fault = (there.fault[0], there.fault[1].name, there.fault[1].column) if there.fault else None
        if first != fault:
            yield f'report {number}, file {file.line.place}: first {first} in place of {fault}'
        reasons = [it.name for it in told if it.is_reason]
        if not fault and file.line.standing == 'Ours' and reasons != [it.reason for it in file.rejects]:
            yield f'report {number}, file {file.line.place}: {reasons}'


def follow_reports(count, tools):
    """Generated reports: their first faults, their reasons and what was left out, as the second program has them."""
    with tempfile.TemporaryDirectory() as room:
        problems = [text for number in range(REPORTS) for text in compare_report(number, room)]
    count.check(f'{REPORTS} generated reports', problems[:5])


def follow_all(count, tools):
    """What follows the first fault."""
    text = HEAD + ('AS01\t1\tGBABC2400001\tSong\tBand\nSU01\t1\tS1\t1\t1,5\nAS01\t2\tGB-ABC-24-1\tSong\tBand\nSU01\t2\tS1\t1.5\t2\n'
                   'AS01\t3\tGBABC24-0003\tSong\tBand\nSU01\t3\tS1\t3\t3\nSY01\tS2\tGB\tStream\tEUR\t1\t1\nFOOT\t9\t1\t7\n')
    with tempfile.TemporaryDirectory() as room:
        path = put(os.path.join(room, 'in1.tsv'), text)
        statement = sealed([text.encode()]).encode()
        told = tools.run('dsr_explain', ['--all', '-', path], given=statement)[1]
        letter = tools.run('dsr_explain', ['--letters', '-', path], given=statement)[1]
        plain = tools.run('dsr_explain', ['-', path], given=statement)[1]
    found = re.findall(r'^  line (\d+): (\w+(?: [A-Z]\w+)?)', told, re.M)
    count.check('all faults', [] if found == [('5', 'BadIsrc'), ('6', 'BadCell Usages'), ('7', 'BadIsrc'), ('9', 'LateSummary'), ('10', 'FootLines'), (
        '10', 'FootSummaries'), ('10', 'FootBlocks')] else [told])
    count.check('what follows is a guess', [] if 'What follows is a guess' in told and 'after its first fault' not in plain else [told])
    wanted = ['In file number 1 of 1 (which we have as in1.tsv, ', 'Line 4, column Amount (cell 5 of the line): 1,5', 'a point and at most ten digits', 'A guess: It looks as if the number has a decimal comma.',
              '3 recordings with 3 usages and GBP 3.00, as far as the lines can be read', 'As a guess, also line 6, column Usages']
    has(count, 'the letter has them', letter, *wanted)


def follow_left(count, tools):
    """Blocks that were left out beside nothing that is owed."""
    blocks = ''.join(f'AS01\t{at}\t\tSong\tBand\nSU01\t{at}\tS1\t2\t10\n' for at in range(5000))
    text = f'{HEAD}{blocks}FOOT\t10003\t1\t5000\n'
    with tempfile.TemporaryDirectory() as room:
        path = put(os.path.join(room, 'in1.tsv'), text)
        statement = sealed([text.encode()]).encode()
        page = tools.run('dsr_page', ['-', path], given=statement)[1]
        told = tools.run('dsr_explain', ['-', path], given=statement)[1]
    row = re.sub(r'<[^>]*>', ' ', re.search(r'<table role="table" class="plain left">.*?</tbody>', page, re.S)[0])
    right = 'Nothing is owed.' in page and re.search(r'NoIsrc\s+5\s*000\s+GBP\s+10\s*000\s+50\s*000\s*\.00', row)
    count.check('what was left out, on the page', [] if right else [row])
    count.check('what was left out', [] if '(' + path + '), NoIsrc: 5000 recordings with 10000 usages and GBP 50000.00' in told else [told[-400:]])


def follow_letter(count, tools):
    """The letter on a file of the example, as it is."""
    letters = tools.run('dsr_explain', ['--letters', '-', '1.tsv', '2.tsv', '3.tsv'], EXAMPLE, example().encode())[1].split(f'\n{"-" * 72}\n\n')
    wanted = """1. Line 6, column Isrc (cell 3 of the line): it is empty (recording 2, BlockId 2)
   Expected: an ISRC of twelve characters without hyphens: two capital letters, three capital letters or digits, seven digits, such as GBAYE0601498
   What waits for it: 1 recording with 10 usages and GBP 7.10.

2. Line 9, column SummaryRecordId (cell 3 of the line): GB-upload (recording 3, BlockId 3)
   Expected: a summary (SY01) of the same file with the identifier that the usage names
   What waits for it: 1 recording with 10 usages and an unknown currency 6.00.

3. Summary GB-download states 30 usages and 21.00; the usages that name it add up to 20 and 15.00.
   Expected: sums that agree. Which of the two is right?
"""
    count.check('a letter', [] if len(letters) == 3 and wanted in letters[0] else letters)
    count.check('a letter on files that have not come', [] if 'could not be read: 2.' in letters[-1] else letters[-1:])


def follow_terminal(count, tools):
    """Characters that a terminal obeys, or that turn a line round or are not seen, are written out, wherever they come from."""
    hostile = '\x1b[2J\u202eGB\x9b\x7f\u200b\u2066'
    name = 'a\x1b[2J\u202e\u200b.tsv'
    parties = '|'.join(['Ada\xa0', '\u05d0\u05d1\u05d2', f'Ben{hostile}', 'Ada'])
    text = HEAD.replace('\tS\t', f'\t{hostile}\t') + (
        f'AS01\t1\t{hostile}\tSong\tBand\nMW01\t1\tW\t{hostile}\t{parties}\t40|30|20|10\nSU01\t1\tS1\t1\t1\n'
        f'AS01\t2\tGBABC2400001\tSong\tBand\nMW01\t2\tW\tT\t{parties}\t40|30|20|10\nSU01\t2\tS1\t1\t1\nFOOT\t9\t1\t2\n{hostile}\n')
    with tempfile.TemporaryDirectory() as room:
        put(os.path.join(room, name), text)
        statement = sealed([text.encode()]).encode()
        runs = [tools.run('dsr_explain', words, room, statement) for words in (['--all', '-', name], ['--letters', '-', name], ['-', name])]
        runs += [tools.run(tool, words, room, statement[:-3]) for tool in ('dsr_explain', 'dsr_page') for words in (
            [name, name], ['-', name], ['-', name + '\x9b'], ['--\x1b[2J', '-'], ['--layout', name, '-', name])]
    for status, told, error in runs:
        found = sorted({it for it in told + error if it != '\n' and (ord(it) < 32 or 127 <= ord(it) < 160 or it in '\u202e\u200b\u2066\xa0')})
        count.check('no character that a terminal obeys', [f'{found} in {ascii(told + error)[:300]}'] if found or not told + error else [])
    told = runs[0][1]
    wanted = ['[<U+001B>[2J<U+202E>GB<U+009B><U+007F><U+200B><U+2066>]', '(a<U+001B>[2J<U+202E><U+200B>.tsv)', '        40  Ada<U+00A0>  (looks like another',
              '        30  \u05d0\u05d1\u05d2\n', '        10  Ada  (looks like another', 'Parties that look alike, and are paid each by itself: [Ada], [Ada<U+00A0>]']
    has(count, 'characters that are written out', told, *wanted)


def follow_alike(count, tools):
    """Names that look alike."""
    names = of_page('names')
    groups = [['Ada Hart', '\u0410da Hart', 'Ada\u200b Hart', 'Ada  Hart', 'Ada Hart\xa0', 'ADA HART'], ['O\u2019Neil', "O'Neil"], ['Zo\xeb', 'Zoe\u0308'],
              ['Al', 'AI', 'A1']]
    found = names.alike([*sum(groups, []), 'Ben Cole', 'Bob', 'Zoe', 'B0b'])
    count.check('names that look alike', [] if found == [*groups, ['Bob', 'B0b']] else [ascii(found)])


def follow_program(count, tools, program):
    """From the files of a report to its page and its letters by the programs alone; and nothing of files that have changed since."""
    names = [f'{at}.tsv' for at in (1, 2, 3)]
    layout = os.path.join(TOP, 'examples/layout.tsv')
    for title, words in (('with the standard layout', []), ('with a layout', ['--layout', layout])):
        with tempfile.TemporaryDirectory() as room:
            for name in names:
                put(os.path.join(room, name), content(EXAMPLE, name))
            run = subprocess.run([program, '--seal', '--output', 'statement.tsv', *words, *names], cwd=room, capture_output=True)
            wanted = sealed([content(EXAMPLE, name) for name in names], content(layout) if words else None)
            found = text_of(room, 'statement.tsv')
            count.check(f'a sealed statement {title}', [] if run.returncode == 1 and found == wanted else [run.stderr, found])
            status, page, error = tools.run('dsr_page', [*words, 'statement.tsv', *names], room)
            count.check(f'its page {title}', [] if status == 0 and 'Without a seal' not in page and page.endswith('</html>\n') else [error])
            status, letters, error = tools.run('dsr_explain', ['--letters', *words, 'statement.tsv', *names], room)
            count.check(f'its letters {title}', [] if status == 0 and 'Line 6, column Isrc' in letters else [error, letters])
            put(os.path.join(room, '2.tsv'), content(room, '2.tsv').replace(b'Band', b'Bond', 1) + b'#\n')
            for tool in ('dsr_page', 'dsr_explain'):
                changed = refusal(tools, tool, [*words, 'statement.tsv', *names], '2.tsv: these are not the bytes of', room)
                count.check(f'{tool}: a file that has changed {title}', changed)
    count.check('nothing at all', refusal(tools, 'dsr_page', ['--layout', layout, '-'], '', given=b''))


def follow_broken(count, tools):
    """An output that takes only a part, though Python has no buffer, is no page; what is closed, or no layout, is named in a line."""
    with tempfile.TemporaryDirectory() as room:
        path = put(os.path.join(room, 'statement.tsv'), sealed([content(EXAMPLE, '1.tsv')]))
        bad = put(os.path.join(room, 'layout.tsv'), 'HEAD\tHEAD\tone\n')
        for tool in ('dsr_page', 'dsr_explain'):
            for title, words, told in (
                    *([('a disk that takes a part', f'ulimit -f 20; "$0" {path} > {room}/out', 'File too large')] if tool == 'dsr_page' else []),
                    ('a full disk', f'"$0" {path} > /dev/full', 'No space left on device'),
                    ('a closed output', f'"$0" {path} >&-', 'standard output is closed'),
                    ('a closed input', '"$0" - <&-', 'standard input is closed'),
                    ('a bad layout', f'"$0" --layout {bad} {path}', f'{bad} is not a layout: `dsr --layout` says which line is wrong'),
                    ('a layout that is not there', f'"$0" --layout {room}/none {path}', f'{room}/none: No such file or directory')):
                run = subprocess.run(['bash', '-c', words, os.path.join(TOP, 'page', tool)], capture_output=True, text=True, timeout=60,
                                     env={**tools.environment, 'PYTHONUNBUFFERED': '1'})
                ends = (run.returncode, run.stderr) == (1, f'{tool}: {told}\n')
                count.check(f'{tool}: {title}', [] if ends else [run.returncode, run.stderr])


def follow_texts(count, tools):
    for follow in (follow_broken, follow_cases, follow_marks, follow_refusals, follow_files, follow_unsealed, follow_reports, follow_all, follow_left, follow_letter,
                   follow_terminal, follow_alike):
        follow(count, tools)
