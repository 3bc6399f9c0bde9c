"""What a statement adds up to: `dsr_totals` reads the same lines, and what it says of them holds here."""
import os
import shutil
import subprocess
import sys

from refused import Refused
from units import units_of

HERE = os.path.dirname(os.path.realpath(__file__))


def program():
    """The path of dsr_totals: beside this program, in PATH, or that of the clone in which this folder is."""
    beside = os.path.join(os.path.dirname(os.path.abspath(sys.argv[0])), 'dsr_totals')
    found = beside if os.access(beside, os.X_OK) else shutil.which('dsr_totals')
    built = os.path.join(HERE, '..', 'checks', 'built')
    if not found and os.access(built, os.X_OK):
        found = subprocess.run([built, '--tell', 'dsr_totals'], stdout=subprocess.PIPE, check=False, text=True).stdout.strip()
    if not found:
        raise Refused('dsr_totals is needed, and is neither beside this program nor in PATH')
    return found


class Totals:
    """The sums: of each currency usages, amount, claimed and unclaimed; of each market usages and amount; of each party and currency."""

    def __init__(self, text):
        self.currencies = {}
        self.markets = {}
        self.parties = {}
        for kind, *cells in (line.split('\t') for line in text.split('\n')):
            if kind == 'CURRENCY':
                self.currencies[cells[0]] = int(cells[1]), *map(units_of, cells[2:])
            elif kind == 'MARKET':
                self.markets[tuple(cells[:3])] = int(cells[3]), units_of(cells[4])
            elif kind == 'PARTY':
                self.parties[cells[0], cells[1]] = units_of(cells[2])


class Adder:
    """A run of dsr_totals, which is given a statement line by line."""

    def __init__(self, name):
        self.name = name
        self.is_refused = False
        self.process = subprocess.Popen([program(), '--with-remarks', '--unsealed'], stdin=subprocess.PIPE, stdout=subprocess.PIPE, stderr=subprocess.PIPE)

    def __enter__(self):
        return self

    def __exit__(self, *raised):
        if self.process.returncode is None:
            self.process.kill()
            self.process.communicate()

    def take(self, raw):
        try:
            self.process.stdin.write(raw)
        except BrokenPipeError:
            self.is_refused = True

    def end(self):
        """The totals, or a refusal in the words of dsr_totals."""
        text, told = self.process.communicate()
        words = told.decode('utf-8', 'replace').strip().replace('dsr_totals: -: ', f'dsr_totals: {self.name}: ')
        if self.process.returncode:
            raise Refused(words or f'dsr_totals ended with status {self.process.returncode}')
        if self.is_refused:
            raise Refused(f'{self.name}: dsr_totals has taken it, but it cannot be read here')
        return Totals(text.decode())
