"""The sections of the page that are made of a statement and its files, as HTML."""
import collections
import html

from blocks import RejectedBlocks
from letters import Letter, missing_letter
from markup import amount, currency_cards, escaped, remark_card, table, whole
from remarks import ranges
from titles import Titles

MOST_FURTHER = 1000


def counted(count, one, many):
    return [f'{count} {one if count == 1 else many}'] if count else []


def state_of(statement):
    """How complete the report is, and whether it is sealed."""
    told = (counted(sum(bool(it.fault) for it in statement.files), 'file has a fault', 'files have a fault')
            + counted(sum(it.standing in ('Foreign', 'Doubled') for it in statement.files), 'file does not count', 'files do not count')
            + counted(len(statement.missing), 'file is missing', 'files are missing')
            + counted(len(statement.differences), 'sum differs', 'sums differ')
            + counted(len(statement.rejects), 'block was left out', 'blocks were left out'))
    state = ('<p class="state good">Complete, without remarks.</p>' if statement.is_clean()
             else f'<p class="state bad">Remarks: {", ".join(told)}.</p>')
    sealed = '' if statement.seal.has_begun else (
        '<p class="state bad">Without a seal: nothing shows that these are the files of the statement, nor that it is whole.</p>')
    return state + sealed


def head_of(report):
    """What the report is, in a line for each fact."""
    if not report.statement.report:
        return '<p>No file has an opening, so there is no report.</p>'
    message, files, first, last, days = report.statement.report
    heads = [it.scan.head for it in report.files if it.scan and it.scan.head and it.line.standing == 'Ours']
    named = [report.layout.cell(heads[0], column) for column in ('Sender', 'Recipient')] if heads else []
    facts = [('Period', f'{first} to {last} ({days} days)'), ('Files', files)]
    facts += [(label, name) for label, name in zip(('Sender', 'Recipient'), named) if name]
    return '<dl class="facts">' + ''.join(f'<div><dt>{label}</dt><dd>{escaped(text)}</dd></div>' for label, text in facts) + '</dl>'


def outcome(line):
    fault = line.fault
    told = f'Fault in line {fault.line}: {fault.name}{" " + fault.column if fault.column else ""}' if fault else 'Whole'
    return f'<span class="{"bad" if fault else "good"}">{told}</span>'


def file_table(report):
    rows = [(line.place, escaped(file.name or ''), line.number,
             f'<span class="{"good" if line.standing == "Ours" else "bad"}">{line.standing}</span>',
             whole(line.blocks), outcome(line)) for file in report.files for line in [file.line]]
    return table(['Place', 'File', 'Number', 'Standing', 'Blocks', 'Outcome'], rows, 'files', (4,))


def left_rows(report):
    """What was left out: for each file and reason its blocks, and below them its usages and amount in each currency."""
    for file in report.files:
        counts = collections.Counter(reject.reason for reject in file.rejects)
        for reason, count in counts.items():
            yield from rows_of_left(file, reason, count, file.left.get(reason))
        rest = file.rest()
        if rest and rest.left.blocks:
            unread = f'; {rest.unread} usages cannot be read' if rest.unread else ''
            reason = f'not read: line {file.line.fault.line} and what follows (a guess{unread})'
            yield from rows_of_left(file, reason, rest.left.blocks, rest.left)


def rows_of_left(file, reason, count, left):
    name, blocks = escaped(file.called()), whole(count)
    sums = left.in_order() if left else []
    for currency, (usages, units) in sums or [(None, (None, None))]:
        told = (escaped(currency or 'unknown'), whole(usages), amount(units)) if usages is not None else ('not known', '', '')
        yield name, reason, blocks, *told
        blocks = ''


def left_section(report):
    """The table of what was left out, with what is not known."""
    rows = list(left_rows(report))
    notes = [f'{it.called()} ended by its fault in line {it.line.fault.line}: what stands there and behind it is not in the statement.'
             for it in report.files if it.line.fault and not it.rest() and not it.line.fault.name.startswith('Foot')]
    if report.statement.missing:
        notes.append(f'What the files with number {ranges(report.statement.missing)} would add is not known.')
    if report.statement.rejects and any(it.name is None for it in report.files):
        notes.append('The amounts are known if the files are named, too.')
    shown = table(['File', 'Reason', 'Blocks', 'Currency', 'Usages', 'Amount'], rows, 'left', (2, 4, 5)) if rows else ''
    return shown + ''.join(f'<p class="hint">{escaped(note)}</p>' for note in notes) or '<p>Nothing.</p>'


def owed_section(report):
    totals = report.statement.totals
    cards = ''.join(currency_cards(totals.currencies)) if totals else ''
    has_left = any(file.rejects or file.rest() for file in report.files)
    more = ' Blocks were left out: see <a href="#left">Left out</a>.' if has_left else ''
    if not cards:
        return f'<p>Nothing is owed.{more}</p>'
    return f'<div class="totals">{cards}</div>' + (f'<p class="hint">{more}</p>' if more else '')


def letter_section(letters):
    """The letters, each to copy."""
    return ''.join(f'<article class="letter"><details><summary>{escaped(title)}</summary>'
                   f'<pre dir="auto" tabindex="0">{escaped_lines(text)}</pre>'
                   '<p><button type="button" class="copy">Copy</button> <span role="status"></span></p></details></article>\n'
                   for title, text in letters)


def escaped_lines(text):
    """A letter, in which names are written out already."""
    return '\n'.join(f'<bdi>{html.escape(line)}</bdi>' if line else '' for line in text.split('\n'))


class Sections:
    """Reads the files of a report once, and has what the page says of them."""

    def __init__(self, report, entries, titles):
        self.remarks = []
        self.letters = []
        seen = Titles(report.layout, titles)
        for file in report.files:
            blocks, letter = RejectedBlocks(report.layout), Letter(report, file)

            def take(reject, lines, note, blocks=blocks, letter=letter):
                blocks.take(reject, lines, note)
                letter.take(reject, lines, note)
            report.read_file(file, take, seen.take)
            report.look_further(file, MOST_FURTHER)
            self.remarks += [remark_card(report.layout, it, entries[it.name]) for it in report.file_remarks(file)]
            self.remarks += blocks.cards(file, entries)
            self.letters.append((f'On {file.called()[0].lower()}{file.called()[1:]}', letter.text()))
        self.remarks += [remark_card(report.layout, it, entries[it.name]) for it in report.other_remarks()]
        self.letters.append(('On files that have not come', missing_letter(report.statement)))
        self.letters = [(title, text) for title, text in self.letters if text]
