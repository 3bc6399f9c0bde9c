-- The tables for statements in PostgreSQL, whose database has the encoding UTF8. Amounts are exact: `numeric`, with the
-- range that a statement has. A report is there once, by its key, and what belongs to it goes with it.
create domain amount as numeric(38, 10);
create domain usages as numeric(39);
create table report (
    id bigint generated always as identity primary key,
    -- whose statement it is: the register's identifier, and the report's name there; a later statement has a greater turn
    register text not null, name bytea not null, sha256 text not null, turn bigint not null,
    message_id text not null, number_of_files bigint not null, first_day date not null, last_day date not null,
    days bigint not null check (days = last_day - first_day + 1),
    loaded_at timestamptz not null default now(),
    unique (register, name), unique (message_id, number_of_files, first_day, last_day)
);
create table file (
    report bigint references report on delete cascade, file bigint, number bigint,
    standing text not null check (standing in ('Ours', 'Foreign', 'Doubled', 'Headless')),
    blocks numeric(20) not null, fault_line numeric(20), fault text, fault_column text,
    primary key (report, file), check ((fault is null) = (fault_line is null))
);
create table missing (report bigint references report on delete cascade, number bigint, primary key (report, number));
create table difference (
    report bigint, file bigint, summary_id text, stated_usages usages not null, found_usages usages not null,
    stated_amount amount not null, found_amount amount not null,
    primary key (report, file, summary_id), foreign key (report, file) references file on delete cascade
);
create table ledger (
    report bigint references report on delete cascade, isrc text, territory text, use_type text, currency text,
    usages usages not null, amount amount not null, unclaimed amount not null,
    primary key (report, isrc, territory, use_type, currency)
);
create table party (
    report bigint, isrc text, territory text, use_type text, currency text, party text, amount amount not null,
    primary key (report, isrc, territory, use_type, currency, party),
    foreign key (report, isrc, territory, use_type, currency) references ledger on delete cascade
);
create table reject (
    report bigint, file bigint, position numeric(20), block_id text not null, reason text not null,
    primary key (report, file, position), foreign key (report, file) references file on delete cascade
);
-- What was paid: it is taken off what is owed, also after a report was replaced.
create table payment (
    id bigint generated always as identity primary key,
    party text not null, currency text not null, amount amount not null, paid_on date not null default current_date
);

-- As dsr_totals prints them for the same statements: CURRENCY, MARKET, and PARTY with what was paid.
create view currency_total as
    select currency, sum(usages) as usages, sum(amount) as amount, sum(amount - unclaimed) as claimed, sum(unclaimed) as unclaimed
    from ledger group by currency;
create view market_total as
    select territory, use_type, currency, sum(usages) as usages, sum(amount) as amount from ledger group by 1, 2, 3;
create view owed as
    select party, currency, sum(earned) as earned, sum(paid) as paid, sum(earned) - sum(paid) as owed
    from (select party, currency, amount as earned, 0.0000000000 as paid from party
          union all select party, currency, 0.0000000000, amount from payment) as both_sides
    group by party, currency;

-- What `dsr_register load` calls. One load at a time; what is not newer gives way.
create function take_out(of_register text, of_name bytea, until bigint) returns void language plpgsql as $$
begin
    perform pg_advisory_xact_lock(717274737);
    delete from report where register = of_register and name = of_name and turn <= until;
end $$;
-- Puts a statement in place, whose lines are in the session's table `line`: the number of a line, its kind, and eight further cells.
create function put_in(of_register text, of_name bytea, its_sha256 text, its_turn bigint) returns void language plpgsql as $$
declare its_report bigint;
begin
    insert into report (register, name, sha256, turn, message_id, number_of_files, first_day, last_day, days)
        select of_register, of_name, its_sha256, its_turn, a, b::bigint, c::date, d::date, e::bigint from line where kind = 'REPORT'
        returning id into its_report;
    insert into file select its_report, a::bigint, nullif(b, '-')::bigint, c, d::numeric, nullif(f, '')::numeric, nullif(g, ''), nullif(h, '')
        from line where kind = 'FILE';
    insert into missing select its_report, a::bigint from line where kind = 'MISSING';
    insert into difference select its_report, a::bigint, b, c::numeric, d::numeric, e::numeric, f::numeric from line where kind = 'SUMMARY';
    insert into ledger select its_report, book.a, book.b, book.c, book.d, book.e::numeric, book.f::numeric, rest.e::numeric from line as book
        left join line as rest on rest.kind = 'UNCLAIMED' and (rest.a, rest.b, rest.c, rest.d) = (book.a, book.b, book.c, book.d)
        where book.kind = 'LEDGER';
    insert into party select its_report, a, b, c, d, e, f::numeric from line where kind = 'PARTY';
    insert into reject select its_report, a::bigint, b::numeric, c, d from line where kind = 'REJECT';
end $$;
