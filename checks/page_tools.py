"""What the checks of the page share: sealed statements of the second program, and runs of dsr_page and dsr_explain."""
import importlib
import os
import subprocess
import sys
import tempfile

from running import TOP, content

PAGE = os.path.join(TOP, 'page')
PIECE = 4096
EXAMPLE = os.path.join(TOP, 'examples', 'report')
# the modules of the second program, which have names that those of the page have too
second, reports = importlib.import_module('statement'), importlib.import_module('reports')
for name in ('statement', 'files', 'totals'):
    sys.modules.pop(name, None)


def of_page(name):
    """A module of the page."""
    if PAGE not in sys.path:
        sys.path.insert(0, PAGE)
    return importlib.import_module(name)


class Tools:
    """The programs of the page, which find dsr_totals in PATH."""

    def __init__(self, totals):
        self.room = tempfile.TemporaryDirectory()
        os.symlink(os.path.abspath(totals), os.path.join(self.room.name, 'dsr_totals'))
        self.environment = {**os.environ, 'PATH': f'{self.room.name}:{os.environ["PATH"]}'}

    def run(self, tool, words, folder=TOP, given=None, out=subprocess.PIPE):
        """The status, output and standard error of a program of the page."""
        run = subprocess.run([os.path.join(PAGE, tool), *words], cwd=folder, input=given, stdout=out, stderr=subprocess.PIPE,
                             timeout=900, env=self.environment)
        return run.returncode, (run.stdout or b'').decode(), run.stderr.decode()


def content_of(path, most=None):
    """The bytes of a file and how it ends for a program with this limit of reads."""
    if os.path.isdir(path):
        return b'', 'Read'
    text = content(path)
    return (text[:PIECE * most], 'Reads') if most and len(text) > PIECE * (most - 1) else (text, 'Whole')


def sealed(texts, layout=None):
    """The sealed statement of texts, each its bytes or a pair with its ending."""
    pairs = [text if isinstance(text, tuple) else (text, 'Whole') for text in texts]
    return second.statement(pairs, layout, True)[1].decode()


def sealed_lines(lines):
    """A statement of one file of which nothing is read again, with a seal."""
    text = ''.join(lines)
    count, status = text.count('\n'), 'Remarks' if '\nREJECT' in text or 'Fault' in text else 'Clean'
    nothing = 'e3b0c44298fc1c149afbf4c8996fb92427ae41e4649b934ca495991b7852b855'
    return f'{text}INPUT\t1\t0\t{nothing}\nEND\t{count + 1}\t{status}\n'


def example():
    """The sealed statement of the files of examples/report."""
    return sealed([content(EXAMPLE, f'{at}.tsv') for at in (1, 2, 3)])
