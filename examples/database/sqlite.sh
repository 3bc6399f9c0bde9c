#!/usr/bin/env bash
# sqlite.sh DATABASE STATEMENT..: adds statements to a SQLite database, each in one transaction, once dsr_totals has accepted
# it; makes the database and its tables where they are not there, and never deletes anything. Amounts are whole units of
# 0.0000000001 in 64 bits, up to 922 million: a greater one is refused, and a sum that leaves 64 bits is an error (`integer
# overflow`), never another number. A report that is there already is refused. What each party is owed, and in each currency:
#   sqlite3 DATABASE 'select * from owed' 'select * from currency_total'
# Exit status: 0 if each was added, else 1; the others are added all the same. SQLite 3.37 or later.
set -euo pipefail
export LC_ALL=C
[ $# -gt 1 ] || { sed -n '2,/^set/s/^# //p' "$0" >&2; exit 2; }
here=$(dirname "$(realpath "$0")")
database=$(realpath -m -- "$1")
shift
room=$(mktemp -d)
trap 'rm -rf "$room"' EXIT
cat >"$room/tables" <<'SQL'
create table if not exists report(id integer primary key, message_id text not null, number_of_files integer not null, first_day text not null,
    last_day text not null, unique(message_id, number_of_files, first_day, last_day)) strict;
create table if not exists ledger(report integer not null references report, isrc text, territory text, use_type text, currency text,
    usages integer not null, units integer not null, unclaimed integer not null, primary key(report, isrc, territory, use_type, currency)) strict;
create table if not exists party(report integer not null, isrc text, territory text, use_type text, currency text, party text,
    units integer not null, primary key(report, isrc, territory, use_type, currency, party),
    foreign key(report, isrc, territory, use_type, currency) references ledger) strict;
create table if not exists remark(report integer not null references report, line integer, text text not null, primary key(report, line)) strict;
create view if not exists owed as select party, currency, sum(units) as units from party group by party, currency;
create view if not exists currency_total as select currency, sum(usages) as usages, sum(units) as units, sum(units - unclaimed) as claimed,
    sum(unclaimed) as unclaimed from ledger group by currency;
SQL
cat >"$room/load" <<'SQL'
insert into report select null, a, b, c, d from line where kind = 'REPORT';
insert into ledger select (select max(id) from report), book.a, book.b, book.c, book.d, book.e, replace(book.f, '.', ''), replace(rest.e, '.', '')
    from line as book join line as rest on rest.kind = 'UNCLAIMED' and (rest.a, rest.b, rest.c, rest.d) = (book.a, book.b, book.c, book.d)
    where book.kind = 'LEDGER';
insert into party select (select max(id) from report), a, b, c, d, e, replace(f, '.', '') from line where kind = 'PARTY';
insert into remark select (select max(id) from report), at, rtrim(kind || ' ' || a || ' ' || b || ' ' || c || ' ' || d || ' ' || e || ' ' || f || ' ' || g || ' ' || h)
    from line where kind in ('MISSING', 'SUMMARY', 'REJECT') or kind = 'FILE' and (c <> 'Ours' or e <> 'Whole');
SQL
status=0
for statement in "$@"; do
    if "$here/lines.sh" "$statement" >"$room/lines" && sqlite3 -batch -bail "$database" '.timeout 60000' 'pragma foreign_keys = on' 'begin immediate' \
        ".read $room/tables" 'create temp table line(at, kind, a, b, c, d, e, f, g, h)' '.mode ascii' '.separator "\t" "\n"' \
        ".import $room/lines line" ".read $room/load" 'commit'; then
        printf 'added: %s\n' "$statement"
    else
        printf 'sqlite.sh: not added: %s\n' "$statement" >&2
        status=1
    fi
done
exit "$status"
