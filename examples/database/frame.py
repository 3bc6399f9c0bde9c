#!/usr/bin/env python3
"""frame.py STATEMENT..: what parties are owed in each currency, with pandas and exact decimals.

The statements, which may be pipes, are first given to dsr_totals (or what DSR_TOTALS names), which refuses what is not a whole,
sealed one. pandas adds in floating point by itself: amounts are `Decimal` here, and each sum is exact below 10^90.
"""
import os
import re
import subprocess
import sys
import tempfile
from decimal import Decimal, getcontext

getcontext().prec = 100


def checked(names, room):
    """The lines of statements, each read once; what dsr_totals accepts is what is returned."""
    copies = [os.path.join(room, str(place)) for place in range(len(names))]
    for name, copy in zip(names, copies):
        with open(name, 'rb') as given, open(copy, 'wb') as file:
            file.write(given.read())
    told = subprocess.run([os.environ.get('DSR_TOTALS', 'dsr_totals'), '--with-remarks', *copies], stdout=subprocess.DEVNULL, stderr=subprocess.PIPE)
    if told.returncode:
        raise ValueError(re.sub(f'{re.escape(room)}/([0-9]+)', lambda copy: names[int(copy[1])], told.stderr.decode().strip()))
    for copy in copies:
        with open(copy, encoding='utf-8', newline='\n') as file:
            yield from (line.rstrip('\n').split('\t') for line in file)


def main():
    if len(sys.argv) < 2:
        sys.exit(__doc__)
    try:
        import pandas
        with tempfile.TemporaryDirectory() as room:
            parts = pandas.DataFrame([cells[4:] for cells in checked(sys.argv[1:], room) if cells[0] == 'PARTY'], columns=['currency', 'party', 'amount'])
    except (ImportError, OSError, ValueError) as error:
        sys.exit(f'frame.py: {error}')
    parts['amount'] = parts['amount'].map(Decimal)
    for (party, currency), amounts in parts.groupby(['party', 'currency'])['amount']:
        print(party, currency, f'{sum(amounts, Decimal(0)):.10f}', sep='\t')


main()
