"""Payment runs: what is owed over the current statements that count, less what was paid; and what was confirmed."""
import getpass
import os
import shutil
import subprocess
import sys

from outside import Refused, digest_at, note, now, one_line, program, shown
from table import KEY, LAST_PAID, asked_for, looked_up


def accept(table, asked):
    """Lets a current statement with remarks through."""
    table.lock()
    one = asked_for(table, asked.name, ['remarks'])
    with table.base:
        table.base.execute('insert into accepted values (?, ?, ?, ?)', (one.newest['id'], getpass.getuser(), now(), asked.why))


def rows_of(one):
    return [row for row in (one.newest, one.paid) if row]


def wrong(table, found, given, left_out):
    """What would pay wrongly: the names of reports, each with the reason."""
    of_message, names = {}, {one.name for one in given}
    for one in found:
        for row in rows_of(one) if one.paid or (one.state != 'withdrawn' and one.name not in left_out) else []:
            of_message.setdefault(row['message'], set()).add(one.name)
        if one.state == 'withdrawn' and one.paid and one.name not in left_out:
            yield one.name, 'it was paid, and its folder is gone'
    for message, those in of_message.items():
        if len(those) > 1 and those & names:
            yield from ((name, f'MessageId {message} is also that of {", ".join(map(shown, sorted(those - {name})))}') for name in sorted(those))
    for one in given:
        if one.paid and any(one.paid[key] != one.newest[key] for key in KEY):
            yield one.name, f'it was paid as {" ".join(str(one.paid[key]) for key in KEY)}: dsr_totals takes off what the same report gave, and no other'
        for row in rows_of(one):
            if reason := table.spoilt(row):
                yield one.name, reason


def add_up(table, given, out):
    """Runs dsr_totals over the statements of these reports, less those that were paid. What it refuses."""
    rows = [row for one in given for row in rows_of(one)]
    # Statements of an earlier dsr have no seal.
    words = [program('dsr_totals'), *['--unsealed'][:not all(row['sealed'] for row in rows)],
             *['--with-remarks'][:any(one.newest['remarks'] for one in given)], '--output', out,
             *(b'--paid=' + os.path.basename(table.place_of(one.paid)) for one in given if one.paid), '--',
             *(os.path.basename(table.place_of(one.newest)) for one in given)]
    ended = subprocess.run(words, cwd=table.statements, stdin=subprocess.DEVNULL, stdout=subprocess.DEVNULL, stderr=subprocess.PIPE)
    if ended.returncode not in (0, 1):
        raise Refused(3, one_line(ended.stderr))
    refused = [one.name for one in given if any(os.path.basename(table.place_of(row)) in ended.stderr for row in rows_of(one))]
    return [(name, one_line(ended.stderr)) for name in refused or [b'-']] if ended.returncode else []


def owed(table, asked):
    """Prepares a payment run, or prints what would pay wrongly."""
    table.lock()
    os.makedirs(table.payments, exist_ok=True)
    found, left_out, new = list(looked_up(table)), set(map(table.called, asked.but)), os.path.join(table.payments, b'.new.' + table.id.encode())
    given = [one for one in found if one.state in ('clean', 'accepted') and one.name not in left_out]
    refused = list(wrong(table, found, given, left_out)) or (add_up(table, given, new) if given else [])
    for name, reason in refused:
        print(f'{shown(name)}\t{reason}')
    if refused or not given:
        note('no payment run was prepared' if refused else 'nothing is owed: each statement that counts was paid')
        return int(bool(refused))
    with table.base:
        number = table.first('select coalesce(max(id), 0) + 1 from payment')[0]
        path = os.path.join(table.payments, b'%d.tsv' % number)
        table.base.execute('insert into payment (id, path, sha256, prepared) values (?, ?, ?, ?)', (number, f'payments/{number}.tsv', digest_at(new), now()))
        table.base.executemany('insert into part values (?, ?, ?)', [(number, row['id'], row is one.paid) for one in given for row in rows_of(one)])
        os.rename(new, path)
    with open(path, 'rb') as totals, open(asked.output + b'.part' if asked.output else sys.stdout.fileno(), 'wb', closefd=bool(asked.output)) as out:
        shutil.copyfileobj(totals, out)
    if asked.output:
        try:
            os.rename(asked.output + b'.part', asked.output)
        except OSError:
            os.remove(asked.output + b'.part')
            raise
    note(f'payment run {number}, of {len(given)} reports; `dsr_register paid {number}` confirms it')


def paid(table, asked):
    """Confirms a payment run, unless one of its reports was paid by another since."""
    table.lock()
    run = table.first('select * from payment where id = ?', asked.run)
    if run is None:
        raise Refused(2, f'there is no payment run {asked.run}')
    if run['confirmed']:
        note(f'payment run {asked.run} was confirmed already, at {run["confirmed"]}')
        return 0
    if digest_at(table.place_of(run)) != run['sha256']:
        raise Refused(1, f'{run["path"]} is not what was prepared')
    parts = table.base.execute('select report, name, max(statement * subtracted) as taken_off from part join statement on statement.id = part.statement'
                               ' join report on report.id = report where payment = ? group by report order by name', (asked.run,)).fetchall()
    stale = [row['name'] for row in parts if ((last := table.first(LAST_PAID, row['report'])) and last['id'] or 0) != row['taken_off']]
    for name in stale:
        print(f'{shown(name)}\tit was paid by another run since this one was prepared')
    if not stale:
        with table.base:
            table.base.execute('update payment set confirmed = ?, turn = (select coalesce(max(turn), 0) + 1 from payment) where id = ?', (now(), asked.run))
    return int(bool(stale))
