"""Loads current statements into PostgreSQL, by psql, each in one transaction, and tells what it left and why."""
import contextlib
import os
import subprocess

from outside import Refused, note, one_line, shown
from table import CURRENT, KEY, looked_up

# An index has room for some 2,700 bytes, of which the other cells of a key take at most 130.
MOST_PARTY = 2500
PSQL = ['psql', '--no-psqlrc', '--quiet', '--no-align', '--tuples-only', '--field-separator=\t', '--set=ON_ERROR_STOP=1']
THERE = "select encode(name, 'hex'), register, sha256, turn, message_id, number_of_files, first_day, last_day from report;\n"
BEGIN = '\\o /dev/null\ncreate temporary table line (at bigint, kind text, a text, b text, c text, d text, e text, f text, g text, h text) on commit delete rows;\n'
TAKE_OUT, PUT_IN = "begin;\nselect take_out('{}', '\\x{}', {});\n", "select put_in('{}', '\\x{}', '{}', {});\ncommit;\n"


def do(conninfo, pieces):
    """Gives psql commands and lines, and ends at the first error. The rows that it prints."""
    process = subprocess.Popen([*PSQL, '--dbname=' + conninfo], env=dict(os.environ, PGCLIENTENCODING='UTF8', LC_ALL='C'), stdin=subprocess.PIPE,
                               stdout=subprocess.PIPE, stderr=subprocess.PIPE)
    with contextlib.suppress(BrokenPipeError):
        process.stdin.writelines(piece if isinstance(piece, bytes) else piece.encode() for piece in pieces)
    rows, errors = process.communicate()
    if process.returncode:
        raise Refused(3, one_line(errors) or f'psql ended with {process.returncode}')
    return [line.split('\t') for line in rows.decode().split('\n')[:-1]]


def unloadable(table, row):
    """Why PostgreSQL could not hold a statement, or None."""
    for at, cells in enumerate(table.lines_of(row), 1):
        if cells[0] == b'REPORT' and b'0000' in (cells[3][:4], cells[4][:4]):
            return f'line {at}: a year below 1'
        if cells[0] == b'PARTY' and len(cells[5]) > MOST_PARTY:
            return f'line {at}: a party whose name is too long for an index'
        if any(b'\0' in cell for cell in cells):
            return f'line {at}: a zero byte'


def left(table, there, owners, one):
    """Why a report is left as it is in the database; empty if its statement is there, and None if it is to be loaded."""
    mine, newest = (table.id, one.name), one.newest
    sha256, turn = there.get(mine, ('', 0))
    if one.state not in CURRENT:
        return f'it is {one.state}' + '; an earlier statement stays' * bool(sha256)
    if newest['sha256'] == sha256:
        return ''
    if turn > newest['turn']:
        return 'a newer statement is there'
    if (owner := owners.setdefault(tuple(str(newest[cell]) for cell in KEY), mine)) != mine:
        return f'its MessageId, number of files and period are those of {shown(owner[1])}'
    return table.spoilt(newest) or unloadable(table, newest)


def commands(table, gone, wanted):
    """What takes statements out and loads them. In COPY's text a backslash begins an escape, and a carriage return has one."""
    yield BEGIN
    for one in gone:
        yield TAKE_OUT.format(table.id, one.name.hex(), 2 ** 63 - 1) + 'commit;\n'
    for one in wanted:
        yield TAKE_OUT.format(table.id, one.name.hex(), one.newest['turn']) + 'copy line from stdin;\n'
        for at, cells in enumerate(table.lines_of(one.newest), 1):
            yield b'%d\t%s\n' % (at, b'\t'.join(cells + [b''] * (9 - len(cells))).replace(b'\\', b'\\\\').replace(b'\r', b'\\r'))
        yield '\\.\n' + PUT_IN.format(table.id, one.name.hex(), one.newest['sha256'], one.newest['turn'])


def load(table, asked):
    """Loads what is not there, and takes out what was withdrawn. What is refused is told before anything is loaded."""
    rows, found = do(asked.conninfo, [THERE]), list(looked_up(table))
    there = {(register, bytes.fromhex(name)): (sha256, int(turn)) for name, register, sha256, turn, *_ in rows}
    gone = {(table.id, one.name): one for one in found if one.state == 'withdrawn' and (table.id, one.name) in there}
    owners = {tuple(key): (register, bytes.fromhex(name)) for name, register, _, _, *key in rows if (register, bytes.fromhex(name)) not in gone}
    reasons = {one: left(table, there, owners, one) for one in found if one.state != 'withdrawn'}
    told = [(one, f'taken out: {one.reason}') for one in gone.values()] + [(one, f'not loaded: {reason}') for one, reason in reasons.items() if reason]
    for one, line in told:
        print(f'{shown(one.name)}\t{line}')
    wanted = [one for one, reason in reasons.items() if reason is None]
    do(asked.conninfo, commands(table, gone.values(), wanted))
    note(f'{len(wanted)} loaded, {len(gone)} taken out, {sum(reason == "" for reason in reasons.values())} left as they are there')
    return int(any(reasons.values()))
