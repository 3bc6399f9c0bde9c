"""Manual pages, made from a program's --help, and what tools/installed lists."""
import os
import re
import subprocess
import textwrap

TOP = os.path.dirname(os.path.dirname(os.path.abspath(__file__)))
# The longest line of a page's source; what is shown as it stands is indented by 7 and 4 columns, of 80.
LINE, SHOWN = 76, 69


def installed(of_programs):
    """The rows of tools/installed for programs, or for documents: the name, its folder, and what it is."""
    with open(os.path.join(TOP, 'tools', 'installed'), encoding='utf-8') as lines:
        rows = [line.strip().split(maxsplit=2) for line in lines if line.strip() and not line.startswith('#')]
    return [row for row in rows if ('/' not in row[0]) == of_programs]


def program_of(name, folder):
    """The path of a program: the one that checks/built has, or the one in its folder."""
    if folder != 'crate':
        return os.path.join(TOP, folder, name)
    return subprocess.run([os.path.join(TOP, 'checks', 'built'), name], capture_output=True, check=True, text=True).stdout.strip()


def path_of(name):
    """The path of a program's manual page."""
    return os.path.join(TOP, 'docs', f'{name}.1')


def version_and_day():
    """The version and the day of the newest changes."""
    with open(os.path.join(TOP, 'CHANGELOG.md'), encoding='utf-8') as text:
        return re.search(r'^## (\S+) \((\S+)\)$', text.read(), re.M).groups()


def plain(text):
    """A text without marks of its own for the formatter."""
    text = text.replace('\\', '\\e').replace('-', '\\-')
    return '\\&' + text if text.startswith(('.', "'")) else text


def wrapped(text, width, indent=''):
    """A text in lines of at most this width, broken between words; the later ones are indented."""
    return textwrap.wrap(text, width, subsequent_indent=indent, break_long_words=False, break_on_hyphens=False)


def filled(text):
    """A paragraph; a line of it never begins with a mark of the formatter."""
    return [plain(line) for line in wrapped(text, LINE - 8)]


def shown(lines):
    """Lines that are shown as they stand; one that is too long goes on below its last column."""
    lines = textwrap.dedent('\n'.join(lines)).split('\n')
    indents = [' ' * max((gap.end() for gap in re.finditer(r'(?:^|\S) {2,}', line)), default=4) for line in lines]
    parts = [part for line, indent in zip(lines, indents) for part in wrapped(line, SHOWN, indent)]
    return ['.RS 4', '.nf', *map(plain, parts), '.fi', '.RE']


def examples(commands):
    """Examples, each in one line or broken as a shell takes it."""
    for lines in (wrapped(command, SHOWN - 2, '    ') for command in commands):
        yield from [f'{line} \\' for line in lines[:-1]] + lines[-1:]


def written(words):
    """How options, values and arguments are written: names in bold, what stands for something else in italics."""
    text = re.sub(r'[<>]', '', plain(words))
    text = re.sub(r'((?:\\-){1,2}[A-Za-z](?:\w|\\-)*)', r'\\fB\1\\fR', text)
    return re.sub(r'(?<!\w)([A-Z][A-Z_]*)(?!\w)', r'\\fI\1\\fR', text)


def listed(entries, style=written):
    """A list of entries."""
    for entry in entries:
        yield from ('.TP', style(entry.written), *filled(entry.text))


def commands(interface):
    """The commands of a program, each with its own arguments and options."""
    for entry, own in interface.commands:
        words = ' '.join(word.written for word in own.arguments)
        options = [option for option in own.options if '--help' not in option.names()]
        yield from ('.TP', f'.B {entry.written}' if not words else f'\\fB{entry.written}\\fR {written(words)}', *filled(entry.text))
        yield from ['.RS', *listed([word for word in own.arguments if word.text] + options), '.RE'] if options else ()


def page(name, interface):
    """The manual page of a program, as a text."""
    return '\n'.join(lines_of(name, interface)) + '\n'


def lines_of(name, interface):
    programs = {row[0]: row[2] for row in installed(True)}
    version, day = version_and_day()
    yield f'.TH {name.upper()} 1 {day} "{name} {version}" "Viyekun"'
    yield from ('.nh', '.ad l')
    yield from ('.SH NAME', f'{name} \\- {programs[name]}', '.SH SYNOPSIS', f'.B {name}')
    yield from wrapped(written(' '.join(interface.usage[1:])), LINE)
    yield '.SH DESCRIPTION'
    for at, (text, lines) in enumerate(interface.about):
        yield from ['.PP'] * (at > 0 and bool(text))
        yield from filled(text)
        yield from shown(lines) if lines else ()
    yield from ['.SH COMMANDS', *commands(interface)] if interface.commands else ()
    yield from ('.SH OPTIONS', *listed(interface.arguments), *listed(interface.options))
    yield from ('.SH "EXIT STATUS"', *listed(interface.statuses, lambda status: f'.B {status}'))
    yield from ('.SH FILES', *listed(interface.files, lambda path: f'.I {plain(path)}'), *['.PP'] * bool(interface.files))
    yield from filled('Below the folder of the installation (/usr for the package, ~/.local for ./install):')
    for path, _, text in installed(False):
        yield from ('.TP', f'.I {plain("share/doc/viyekun/" + os.path.basename(path))}', *filled(text))
    yield from ('.SH EXAMPLES', *shown(list(examples(interface.examples))), '.SH "SEE ALSO"')
    others = [other for other in programs if other != name]
    yield from (f'.BR {other} (1){"," if other != others[-1] else ""}' for other in others)
