"""Amounts in whole units of 0.0000000001, and shares in units of 0.0001 percent: integers have no limit here, so nothing is
rounded."""
import re

UNITS = 10 ** 10
WHOLE = 1_000_000
SHARE = re.compile(rb'([0-9]{1,3})(?:\.([0-9]{1,4}))?')
AMOUNT = re.compile(rb'(-?)([0-9]{1,12})(?:\.([0-9]{1,10}))?')


def units_of(amount):
    """The units of an amount as a statement has it, with its ten decimals."""
    return int(amount.replace('.', '', 1))


def units_of_cell(cell):
    """The units of an amount as a file has it, with up to ten decimals; None if it is not spelled so."""
    found = AMOUNT.fullmatch(cell)
    if not found:
        return None
    size = int(found[2]) * UNITS + int((found[3] or b'').ljust(10, b'0'))
    return -size if found[1] else size


def share_of(value):
    """The units of a share; None if it is not spelled so, or above 100 percent."""
    found = SHARE.fullmatch(value)
    units = int(found[1]) * 10_000 + int((found[2] or b'').ljust(4, b'0')) if found else WHOLE + 1
    return units if units <= WHOLE else None


def written(units):
    """Units as a statement has an amount."""
    return f'{"-" if units < 0 else ""}{abs(units) // UNITS}.{abs(units) % UNITS:010}'


def plain(units):
    """Units with the decimals that they need, and at least two."""
    whole, decimals = written(units).split('.')
    return f'{whole}.{decimals[:2]}{decimals[2:].rstrip("0")}'


def percent_of(part, whole):
    """A part of a whole in percent with one decimal, rounded down, as a text; 0.0 if there is no whole."""
    tenths = abs(part) * 1000 // abs(whole) if whole else 0
    return f'{tenths // 10}.{tenths % 10}'
