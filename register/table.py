"""The table: which statement is of which bytes, and which was paid; the state of each report, and what changed in it. Times are in UTC."""
import collections
import fcntl
import json
import os
import sqlite3
import time

from outside import MAY_PASS, Entry, Refused, digest_at, folders_of, is_of, looked_at, note, shown

# A file that was changed so shortly before it was read may change again and look the same.
UNSETTLED = 2 * 10 ** 9
# The newest statement of a report has the greatest turn; one that failed has no path, and a reason.
SCHEMA = '''
begin immediate;
create table if not exists register (id text not null, reports blob);
create table if not exists report (id integer primary key, name blob not null unique, here integer not null);
create table if not exists file (report integer not null references report, name blob not null, size integer not null, mtime integer not null,
    ctime integer not null, inode integer not null, sha256 text not null, primary key (report, name)) without rowid;
create table if not exists statement (id integer primary key, report integer not null references report, turn integer not null unique,
    inputs text not null, layout text, sealed integer, sha256 text, path text unique, message text, files integer, first_day text, last_day text,
    remarks integer, status integer not null, reason text, made text not null, host text, seconds real);
create table if not exists accepted (statement integer not null references statement, who text not null, at text not null, why text not null);
create table if not exists payment (id integer primary key, path text not null, sha256 text not null, prepared text not null, confirmed text, turn integer);
create table if not exists part (payment integer not null references payment, statement integer not null references statement,
    subtracted integer not null, primary key (payment, statement, subtracted)) without rowid;
create index if not exists turns on statement (report, turn);
create index if not exists parts on part (statement);
insert into register select hex(randomblob(16)), null where not exists (select * from register);
commit;
'''
ARRIVED = 'insert into report (name, here) values (?, 1) on conflict (name) do update set here = 1'
LAST_PAID = '''select statement.* from statement join part on part.statement = statement.id join payment on payment.id = part.payment
    where report = ? and confirmed is not null and not subtracted order by payment.turn desc limit 1'''

CELLS = ('inputs', 'layout', 'sealed', 'sha256', 'message', 'files', 'first_day', 'last_day', 'remarks', 'status', 'reason', 'made', 'host', 'seconds')
STATES = ('withdrawn', 'changed', 'failed', 'paid', 'clean', 'accepted', 'remarks')
CURRENT = STATES[3:]
# How many cells of a line are its key, of which the first may be the place of a file; the last cell of a line of the ledger is its amount.
KEYS = dict(REPORT=0, FILE=1, MISSING=1, SUMMARY=2, LEDGER=4, PARTY=5, UNCLAIMED=4, REJECT=2, LAYOUT=0, INPUT=1, END=0)
OF_A_FILE, OF_THE_LEDGER, UNITS = ('FILE', 'SUMMARY', 'REJECT', 'INPUT'), ('LEDGER', 'PARTY', 'UNCLAIMED'), 10 ** 10
KEY = ('message', 'files', 'first_day', 'last_day')
# The newest statement of a report, the one before it, and the one that was paid last; the status is 1 if it wants a person, 3 if another run may do.
State = collections.namedtuple('State', 'name state reason status newest before paid')


class Table:
    """The table in a file, and the folders beside it."""

    def __init__(self, path, moved):
        self.path, self.beside = path, os.path.dirname(path)
        self.statements, self.payments = (os.path.join(self.beside, name) for name in (b'statements', b'payments'))
        self.base = sqlite3.connect(path, timeout=60, isolation_level='IMMEDIATE')
        self.base.row_factory = sqlite3.Row
        if not self.first("select * from sqlite_master where name = 'parts'"):
            self.base.executescript(SCHEMA)
        self.base.execute('pragma foreign_keys = on')
        self.id, self.reports = self.first('select id, coalesce(?, reports) from register', moved)

    def first(self, query, *values):
        return self.base.execute(query, values).fetchone()

    def lock(self):
        """Only one process at a time writes the table."""
        self.locked = open(self.path + b'.lock', 'wb')
        try:
            fcntl.flock(self.locked, fcntl.LOCK_EX | fcntl.LOCK_NB)
        except BlockingIOError:
            raise Refused(3, f'another process writes {shown(self.path)}; run again later') from None

    def called(self, text):
        """The name of the report that has it, or for which it is shown."""
        names = [row['name'] for row in self.base.execute('select name from report')]
        for name in [name for name in names if name == os.fsencode(text)] + [name for name in names if shown(name) == text]:
            return name
        raise Refused(2, f'no report is called {shown(text)}')

    def keep_files(self, report, digests, seen):
        """Keeps how the files of a report look; of one that was changed just before, so that it is read again."""
        self.base.execute('delete from file where report = ?', (report,))
        self.base.executemany('insert into file values (?, ?, ?, ?, ?, ?, ?)', [
            (report, entry.name, entry.size, entry.mtime, entry.ctime if entry.ctime < seen - UNSETTLED else -1, entry.inode, digest)
            for entry, digest in digests.items() if digest and not entry.kind])

    def keep(self, name, result, entries, path=None):
        """Keeps a result as the newest of a report, in one transaction: a statement, or the reason why there is none."""
        with self.base:
            self.base.execute(ARRIVED, (name,))
            report = self.first('select id from report where name = ?', name)['id']
            self.keep_files(report, {entry: digest for entry, (*_, digest) in zip(entries, result['read'])}, result['seen'])
            self.base.execute('delete from statement where report = ? and path is null', (report,))
            turn = self.first('select coalesce(max(turn), 0) + 1 from statement')[0]
            self.base.execute(f'insert into statement (report, path, turn, {", ".join(CELLS)}) values (?, ?, ?{", ?" * len(CELLS)}) on conflict (path)'
                              f' do update set {", ".join(f"{cell} = excluded.{cell}" for cell in ("turn", *CELLS))}', [report, path, turn, *map(result.get, CELLS)])

    def place_of(self, row):
        return os.path.join(self.beside, row['path'].encode())

    def spoilt(self, row):
        """Why a statement is of no use any more; empty if its bytes are those that were made."""
        return '' if digest_at(self.place_of(row)) == row['sha256'] else f'the bytes of {row["path"]} are not those that were made'

    def lines_of(self, row):
        """The lines of a statement, as lists of cells."""
        with open(self.place_of(row), 'rb') as file:
            yield from (line.rstrip(b'\n').split(b'\t') for line in file)


def state_of(table, name, keep=False):
    """The state of a report; what was read of its files is kept if that is asked for."""
    folder, report, seen = os.path.join(table.reports, name), table.first('select max(id) from report where name = ?', name)[0], time.time_ns()
    rows = table.base.execute('select * from statement where report = ? order by turn desc limit 3', (report,)).fetchall()
    kept = {Entry(row['name'], '', *row[2:6]): row['sha256'] for row in table.base.execute('select * from file where report = ?', (report,))}
    newest, paid, known, entries = rows[0] if rows else None, table.first(LAST_PAID, report), dict(kept), looked_at(folder)
    made = newest and newest['path']
    is_current = newest and entries is not None and is_of(newest['inputs'], folder, entries, known)
    if keep and made and is_current and any(entry not in kept for entry in entries):
        with table.base:
            table.keep_files(report, {entry: known[entry] for entry in entries}, seen)
    accepted = made and table.first('select why from accepted where statement = ?', newest['id'])
    if entries is None:
        told = 'withdrawn', 'its folder is gone', int(paid is not None)
    elif newest is None:
        told = 'changed', 'it was not made yet', 1
    elif not is_current:
        told = 'changed', 'its files are not those of its newest statement', 1
    elif not made:
        told = 'failed', newest['reason'], MAY_PASS if newest['status'] == MAY_PASS else 1
    elif paid and paid['id'] == newest['id']:
        told = 'paid', '', 0
    elif not newest['remarks']:
        told = 'clean', '', 0
    else:
        told = ('accepted', accepted['why'], 0) if accepted else ('remarks', '', 1)
    return State(name, *told, *([row for row in rows if row['path']] + [None, None])[:2], paid)


def looked_up(table, keep=False):
    """The states of all reports, in the order of their names' bytes, also of those that came since the last `make`."""
    kept = {row['name'] for row in table.base.execute('select name from report')}
    return (state_of(table, name, keep) for name in sorted(kept.union(folders_of(table.reports)[0])))


def show(table, asked):
    """Prints a line for each report, or one list of objects; after `make` what wants a person, and on standard error how many have each state."""
    is_list, counts = asked.command == 'list', collections.Counter()
    found = [one for one in looked_up(table) if counts.update([one.state]) or (asked.state in (None, one.state) if is_list else one.status)]
    if is_list and asked.json:
        print(json.dumps([dict(
            name=os.fsdecode(one.name), state=one.state, paid=one.paid is not None, reason=one.reason,
            statement=one.newest and os.fsdecode(table.place_of(one.newest)), **{key: one.newest and one.newest[key] for key in (*KEY, 'sha256')})
            for one in found]))
    else:
        for one in found:
            told = [one.newest['message'], f'{one.newest["first_day"]} {one.newest["last_day"]}', str(one.newest['files'])] if one.newest else ['-'] * 3
            print('\t'.join([shown(one.name), one.state, *told, shown(one.reason)]))
    if not is_list:
        note(f'{sum(counts.values())} reports: ' + ', '.join(f'{counts[state]} {state}' for state in STATES if counts[state]))
    return max((one.status for one in found), default=0)


def asked_for(table, text, states=STATES):
    """The state of the report that is called so, which has to be one of these."""
    folders_of(table.reports)
    one = state_of(table, table.called(text))
    if one.state not in states:
        raise Refused(1, f'{shown(one.name)} is {one.state}, and not {" or ".join(states)}' + f': {shown(one.reason)}' * bool(one.reason))
    return one


def keyed(table, row):
    """The lines of a statement, each as its key and its other cells. A file has its name, since another may come before it."""
    names = [name for name, _ in json.loads(row['inputs'])]
    for line in table.lines_of(row):
        kind, *cells = map(bytes.decode, line)
        if kind in OF_A_FILE:
            cells[0] = names[int(cells[0]) - 1]
        yield json.dumps([kind, *cells[:KEYS[kind]]]), json.dumps(cells[KEYS[kind]:])


def became(kind, key, old, new):
    """What became of a line, by how much if it is one of the ledger, its key, and its other cells before and after."""
    more = sum(sign * int(cells[-1].replace('.', '')) for sign, cells in ((-1, old), (1, new)) if cells and kind in OF_THE_LEDGER)
    word = 'came' if old is None else 'went' if new is None else 'rose' if more > 0 else 'fell' if more < 0 else 'changed'
    amount = f'{"-" * (more < 0)}{abs(more) // UNITS}.{abs(more) % UNITS:010}' if kind in OF_THE_LEDGER else '-'
    return [word, amount, kind, *key, *(old or []), *(['->'] if old is not None and new is not None else []), *(new or [])]


def compare(table, asked):
    """Prints how the last two statements of a report differ, also of one that is withdrawn or changed, as its first line says."""
    one, lines, status = asked_for(table, asked.name), sqlite3.connect(''), 0
    if not one.before:
        raise Refused(1, f'{shown(one.name)} has not two statements to compare')
    print(shown(one.name), one.state, shown(one.reason), sep='\t')
    lines.execute('create table line (key text primary key, old text, new text)')
    for which, row in (('old', one.before), ('new', one.newest)):
        if reason := table.spoilt(row):
            raise Refused(1, reason)
        print(which, row['made'], row['path'], sep='\t')
        lines.executemany(f'insert into line (key, {which}) values (?, ?) on conflict (key) do update set {which} = excluded.{which}', keyed(table, row))
    for texts in lines.execute('select key, old, new from line where old is not new order by rowid'):
        (kind, *key), old, new = (text and json.loads(text) for text in texts)
        print('\t'.join(map(shown, became(kind, key, old, new))))
        status = 1
    return status
