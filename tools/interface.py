"""What a program's `--help` says, as a table: its arguments, options and commands, and the sections that follow them.

The help is that of clap, or of argparse with RawDescriptionHelpFormatter. Its blocks are parted by empty lines, and a line at the
margin that ends in a colon is the heading of what is indented below it.
"""
import os
import re
import subprocess

HEADINGS = {'Arguments': 'arguments', 'positional arguments': 'arguments', 'Options': 'options', 'options': 'options',
            'Exit status': 'statuses', 'Example': 'examples', 'Examples': 'examples', 'Files': 'files'}
# Where an entry of a list begins; what is indented further belongs to the one before.
BEGINS = {'arguments': r' {2,4}\S', 'options': r' {2,6}-', 'statuses': r' {2}\S', 'files': r' {2}\S'}
WIDTH = 80


class Entry:
    """A line of a list: how it is written, and what it is."""

    def __init__(self, line):
        self.indent = len(line) - len(line.lstrip())
        self.written, _, self.text = re.match(r' *(\S.*?)(?:(  +)(\S.*))?$', line).group(1, 2, 3)
        self.text = self.text or ''

    def add(self, line):
        self.text = f'{self.text} {line.strip()}'.strip()

    def names(self):
        """The spellings of an option, without its value."""
        return re.findall(r'(?:^|(?<=[ ,]))--?[\w-]+', self.written)

    def value(self):
        """The name of an option's value, or its choices in braces; None if it has none."""
        found = re.search(r'[ =]<?(\{[^}]*\}|[A-Z][A-Z_]*)>?', self.written)
        return found[1] if found else None

    def wants_equals(self):
        """Whether the value stands behind an equals sign, and not in a word of its own."""
        return '=' in self.written


class Interface:
    """The help of a program, or of one of its commands: its text, its usage, what it is about, as pairs of a text and the lines
    that it shows, and its lists."""

    def __init__(self, program, words=()):
        self.program = program
        self.words = list(words)
        self.usage, self.about, self.examples = [], [], []
        self.arguments, self.options, self.statuses, self.files = [], [], [], []
        self.text = self.printed('--help')
        for block in self.text.rstrip('\n').split('\n\n'):
            for told, lines in parts_of(block):
                self.add(told, lines)
        self.commands = [(entry, Interface(program, [*words, entry.written])) for entry in self.arguments if entry.indent == 4]
        self.arguments = [entry for entry in self.arguments if entry.indent == 2 and not (self.commands and entry.written == 'COMMAND')]

    def printed(self, *words):
        """What the program prints for these words."""
        return subprocess.run([self.program, *self.words, *words], capture_output=True, check=True, text=True, timeout=60,
                              env={**os.environ, 'COLUMNS': str(WIDTH)}).stdout

    def whole_text(self):
        """Its help, with that of its commands."""
        return self.text + ''.join(own.text for _, own in self.commands)

    def add(self, told, lines):
        """Takes in a part of the help: a text at the margin, and the lines below it."""
        usage = re.fullmatch(r'[Uu]sage: (.*)', told)
        kind = HEADINGS.get(told.removesuffix(':'))
        if usage:
            self.usage = ' '.join([usage[1], *map(str.strip, lines)]).split()
        elif kind == 'examples':
            self.examples += [line.strip() for line in lines]
        elif kind:
            for line in lines:
                if re.match(BEGINS[kind], line):
                    getattr(self, kind).append(Entry(line))
                else:
                    getattr(self, kind)[-1].add(line)
        else:
            self.about.append((told, lines))


def parts_of(block):
    """The texts at the margin of a block, each with the indented lines below it."""
    parts = [['', []]]
    for line in block.split('\n'):
        if line.startswith(' '):
            parts[-1][1].append(line)
        elif not parts[-1][1]:
            parts[-1][0] = f'{parts[-1][0]} {line}'.strip()
        else:
            parts.append([line, []])
    return parts
