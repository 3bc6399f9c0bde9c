"""The parts of the page as HTML. Every text is escaped here; nothing from a report is ever markup."""
import html

from columns import list_of, unescaped
from names import alike, told_alike
from showing import pieces, rows_of, visible
from units import UNITS, percent_of

MOST_CELLS = 70
PAPER_CELLS, PAPER = 12, 120   # what of a line fits beside one another on paper
LISTS = ('Titles', 'Artists', 'Parties', 'Shares')


def escaped(text):
    """A text in which every character is seen, escaped for HTML and kept apart from the text around it."""
    return f'<bdi>{html.escape(visible(text))}</bdi>'


def shown(text):
    """A text whose hidden characters are written out in another style."""
    return '<bdi>' + ''.join(f'<i>{html.escape(piece)}</i>' if hidden else html.escape(piece) for piece, hidden in pieces(text)) + '</bdi>'


def listed(text):
    """The values of a list cell as they are written, each kept apart, so that they stay in their order."""
    return '|'.join(shown(value.decode('utf-8', 'surrogateescape')) for value in list_of(text.encode('utf-8', 'surrogateescape')))


def grouped(digits):
    """Digits in groups of three, by style alone, so that a copy has no other characters."""
    first = len(digits) % 3 or 3
    parts = [digits[:first], *(digits[at:at + 3] for at in range(first, len(digits), 3))]
    return parts[0] + ''.join(f'<b>{part}</b>' for part in parts[1:])


def whole(number):
    return f'<span class="number">{"-" if number < 0 else ""}{grouped(str(abs(number)))}</span>'


def amount(units):
    """An amount with two decimals; the other eight are shown on demand, and a sign says that there are some."""
    sign, decimals = '-' if units < 0 else '', f'{abs(units) % UNITS:010}'
    cut = ' cut' if decimals[2:].strip('0') else ''
    return (f'<span class="number{cut}">{sign}{grouped(str(abs(units) // UNITS))}.{decimals[:2]}'
            f'<s>{decimals[2:]}</s></span>')


def table(names, rows, style='', numbers=()):
    """A table; the cells are HTML. Those of the columns `numbers` stand at the right."""
    sides = [' class="right"' if at in numbers else '' for at in range(len(names))]
    head = ''.join(f'<th scope="col" role="columnheader"{side}>{name}</th>' for name, side in zip(names, sides))
    body = ''.join('<tr role="row">' + ''.join(f'<td role="cell" data-name="{name}"{side}>{text}</td>' for name, side, text in zip(names, sides, row))
                   + '</tr>\n' for row in rows)
    return (f'<table role="table" class="plain {style}"><thead role="rowgroup"><tr role="row">{head}</tr></thead>\n'
            f'<tbody role="rowgroup">{body}</tbody></table>\n')


def line_row(number, cells, marked, names):
    """A row of a table of lines: names, or a line with its number."""
    if number is None:
        heads = ''.join(f'<th role="columnheader">{escaped(cell)}</th>' for cell in cells[:MOST_CELLS])
        return f'<tr class="names" role="row"><th role="columnheader">Line</th>{heads}</tr>'

    def cell(at, text):
        named = f' data-name="{html.escape(names[at])}"' if at < len(names) and names[at] else ''
        value = listed(text) if at < len(names) and names[at] in LISTS else shown(text)
        text = f'<mark>{value if text else "(empty)"}</mark>' if at in marked else value
        return f'<td role="cell"{named}>{text}</td>'
    found = ''.join(cell(at, text) for at, text in enumerate(cells[:MOST_CELLS]))
    found += f'<td role="cell">and {len(cells) - MOST_CELLS} more cells</td>' if len(cells) > MOST_CELLS else ''
    faulty = ' class="faulty"' if marked else ''
    return f'<tr{faulty} role="row"><th role="rowheader" scope="row" data-name="Line">{number}</th>{found}</tr>'


def parties_row(layout, line):
    """Below a work: each of its parties beside its own share, which stays there whatever way the names are written."""
    if line.role != 'MW' or not layout.raw_cell(line, 'Parties'):
        return ''
    parties, shares = (list_of(layout.raw_cell(line, column)) for column in ('Parties', 'Shares'))
    names = [unescaped(it).decode('utf-8', 'surrogateescape') for it in parties]
    like = {name for group in alike(names) for name in group}
    rows = ''.join(f'<li>{shown(name) if name else "(no name)"} <span class="share-of">{html.escape(visible(share))}</span>'
                   f'{f" <em>{told_alike(name)}</em>" if name in like else ""}</li>'
                   for name, share in zip(names, [it.decode("utf-8", "surrogateescape") for it in shares] + ['?'] * len(names)))
    return (f'<tr class="parties" role="row"><th role="rowheader">of {line.number}</th>'
            f'<td role="cell" colspan="{len(line.cells)}"><ul>{rows}</ul></td></tr>')


def line_table(layout, lines):
    """Lines of a file in columns, with the names of their cells; the end of the file is a row of its own."""
    ends = bool(lines) and lines[-1].number is None
    rows, names, by_number = [], [], {line.number: line for line in lines}
    for number, cells, marked in rows_of(layout, lines[:-1] if ends else lines):
        names = cells if number is None else names if by_number[number].role else []
        rows.append(line_row(number, cells, marked, names))
        rows.append(parties_row(layout, by_number[number]) if number is not None else '')
    if ends:
        rows.append('<tr class="faulty" role="row"><th role="rowheader"></th><td role="cell"><mark>the file ends here</mark></td></tr>')
    is_wide = any(len(line.cells) > PAPER_CELLS or len(line.raw) > PAPER for line in lines)
    return ('<div class="wide" tabindex="0" role="group" aria-label="Lines of the file">'
            f'<table role="table" class="lines{" long" * is_wide}">\n' + '\n'.join(row for row in rows if row) + '\n</table></div>\n')


def entry_list(entry):
    """What the guide says of a name."""
    points = [('Meaning', entry.meaning), *entry.points]
    return '<dl>' + ''.join(f'<dt>{html.escape(label)}</dt><dd>{html.escape(text)}</dd>' for label, text in points) + '</dl>\n'


def remark_card(layout, remark, entry):
    """A remark with its lines and its entry of the guide."""
    name = f'{remark.name} {remark.column}' if remark.column else remark.name
    groups = ''.join((f'<h4>{escaped(title)}</h4>' if title else '') + (line_table(layout, lines) if lines else '')
                     for title, lines in remark.groups)
    notes = ''.join(f'<p>{escaped(note)}</p>' for note in remark.notes)
    return (f'<article><h3>{escaped(remark.where)} <code>{escaped(name)}</code></h3>\n'
            f'{groups}{notes}{entry_list(entry)}</article>\n')


def currency_cards(totals):
    """The total of each currency, and how much of it parties have."""
    for currency, (usages, units, claimed, unclaimed) in sorted(totals.items()):
        width = percent_of(claimed, units) if (claimed < 0) == (units < 0) else '0.0'
        yield (f'<article class="total"><h3>{escaped(currency)}</h3><p class="sum">{amount(units)}</p>'
               f'<div class="share" aria-hidden="true"><div style="width:{width}%"></div></div>'
               f'<dl><dt>claimed</dt><dd>{amount(claimed)}</dd><dt>unclaimed</dt><dd>{amount(unclaimed)}</dd>'
               f'<dt>usages</dt><dd>{whole(usages)}</dd></dl></article>\n')
