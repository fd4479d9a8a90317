-- Puts the rows of a book into the table `results`. Its input is what `dlmsfw status --report csv` prints of that book:
--
--     dlmsfw status --book head.book --report csv | psql fleet -f load.sql
--
-- Its campaigns are loaded before (load_campaigns.sql): a row of another one, as of one that was opened in between, is refused, and all of the
-- report, until that is there. A row that ended never changes again, so a report that is older than what is there changes nothing of it.
\set ON_ERROR_STOP on
begin;
create temporary table reported (head bigint, campaign bigint, meter bigint, state text, opened bigint, ended bigint, reason text)
    on commit drop;
\copy reported from pstdin with (format csv, header match)
insert into results (shard, campaign, meter, state, opened_at, ended_at, reason)
    select head, campaign, meter, state, to_timestamp(opened), to_timestamp(ended), reason from reported
on conflict (shard, campaign, meter) do update
    set state = excluded.state, opened_at = excluded.opened_at, ended_at = excluded.ended_at, reason = excluded.reason, read_at = now()
    where results.state = 'live';
commit;
