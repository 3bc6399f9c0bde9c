#!/usr/bin/env python3
"""Writes a large statement to standard output, for dsr_totals. The same arguments give the same bytes.

  statement.py [--ledger-lines N] [--parties N] [--names N]

--ledger-lines is the number of LEDGER lines (1,200,000, which is about 350 MB), --parties the parties below each (2), and
--names how many different parties there are (2,000).
"""
import argparse
import random
import sys

TERRITORIES = ('BR', 'DE', 'FR', 'GB', 'JP', 'NO', 'SE', 'US')
CURRENCIES = ('BRL', 'EUR', 'EUR', 'GBP', 'JPY', 'NOK', 'SEK', 'USD')
UNITS = 10 ** 10


def written(units):
    return f'{units // UNITS}.{units % UNITS:010d}'


def ledger(asked, rng, number):
    """The lines of a ledger line: itself, its parties, and what is unclaimed."""
    song, place = divmod(number, len(TERRITORIES))
    key = f'GBX{song // 10_000_000:02d}{song // 100_000 % 100:02d}{song % 100_000:05d}\t{TERRITORIES[place]}\tOnDemandStream\t{CURRENCIES[place]}'
    units = rng.randrange(1, 10 ** 14)
    parts = sorted((f'Northwind Publishing {name:06d}', rng.randrange(units // (asked.parties + 1) + 1)) for name in rng.sample(range(asked.names), asked.parties))
    yield f'LEDGER\t{key}\t{rng.randrange(1, 100_000)}\t{written(units)}\n'
    for party, part in parts:
        yield f'PARTY\t{key}\t{party}\t{written(part)}\n'
    yield f'UNCLAIMED\t{key}\t{written(units - sum(part for _, part in parts))}\n'


def main():
    parser = argparse.ArgumentParser(description=__doc__, formatter_class=argparse.RawDescriptionHelpFormatter)
    for name, standard in (('ledger-lines', 1_200_000), ('parties', 2), ('names', 2000)):
        parser.add_argument(f'--{name}', type=int, default=standard)
    asked = parser.parse_args()
    rng = random.Random('statement')
    sys.stdout.write('REPORT\tBENCH\t1\t2024-01-01\t2024-01-31\t31\nFILE\t1\t1\tOurs\t1200000\tWhole\n')
    for number in range(asked.ledger_lines):
        sys.stdout.writelines(ledger(asked, rng, number))


main()
