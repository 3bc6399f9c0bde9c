"""The command line that `dsr_page` and `dsr_explain` share."""
import argparse
import contextlib
import os
import signal
import sys

from layouts import Layout
from refused import Refused
from report import Report
from showing import CleanStream
from statement import read_statement


VERSION = '0.9.0'


class Parser(argparse.ArgumentParser):
    """A parser whose lines on standard error go through the stream that passes no control character on."""

    def error(self, message):
        sys.stderr.write(f'{self.prog}: {message}\n{self.format_usage()}')
        sys.exit(2)


def parser_of(name, text):
    """The words that both programs have: the statement, the files that `dsr` was given, and the layout."""
    sys.stderr = CleanStream(sys.stderr)
    purpose, _, more = text.partition('\n\n')
    parser = Parser(prog=name, description=purpose, epilog=more, formatter_class=argparse.RawDescriptionHelpFormatter)
    parser.add_argument('--layout', metavar='FILE', help='the layout that dsr was given')
    parser.add_argument('--version', action='version', version=f'{name} {VERSION}', help='print the version and exit')
    parser.add_argument('--unsealed', action='store_true', help='take a statement without a seal, too: nothing shows then of which files it is, nor that it is whole')
    parser.add_argument('statement', metavar='STATEMENT', help='a statement of dsr; - is standard input')
    parser.add_argument('files', metavar='FILE', nargs='*', help='the files that dsr was given, in their order')
    return parser


def layout_of(path):
    """The layout of this file, or the standard one."""
    if path is None:
        return Layout()
    with open(path, 'rb') as file:
        text = file.read()
    try:
        return Layout(text)
    except (ValueError, IndexError):
        raise Refused(f'{path} is not a layout: `dsr --layout` says which line is wrong') from None


def report_of(given, on_booked):
    """The report of the statement that was given, with its files."""
    if given.statement == '-' and sys.stdin is None:
        raise Refused('standard input is closed')
    file = contextlib.nullcontext(sys.stdin.buffer) if given.statement == '-' else open(given.statement, 'rb')
    with file as lines:
        statement = read_statement(given.statement, lines, on_booked, given.unsealed)
    layout = layout_of(given.layout)
    if given.files:
        statement.seal.check_layout(layout, given.layout)
    return Report(statement, given.files, layout)


def printing():
    """Standard output, once there is something to print: a reader that ends takes this program with it."""
    if sys.stdout is None:
        raise Refused('standard output is closed')
    signal.signal(signal.SIGPIPE, signal.SIG_DFL)
    # Always with a buffer: without one (PYTHONUNBUFFERED) what a full disk does not take is lost, and no error says so.
    sys.stdout = open(sys.stdout.fileno(), 'w', encoding='utf-8', errors='backslashreplace', newline='\n', closefd=False)
    return sys.stdout


def ending(name, run):
    """Runs a program; a refusal is its exit status 1, with a line on standard error."""
    try:
        run()
        sys.stdout.flush()
    except Refused as refused:
        sys.exit(f'{name}: {refused}')
    except OSError as error:
        # Bytes that could not be written are not written once more at the end.
        if error.filename is None and sys.stdout:
            os.dup2(os.open(os.devnull, os.O_WRONLY), sys.stdout.fileno())
        sys.exit(': '.join([name, *([os.fspath(error.filename)] if error.filename else []), error.strerror]))
