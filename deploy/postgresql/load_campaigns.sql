-- Puts the campaigns of a book into the table `campaigns`. Its input is what `dlmsfw status --campaigns --report csv` prints of that book:
--
--     dlmsfw status --book head.book --campaigns --report csv | psql fleet -f load_campaigns.sql
--
-- It comes before load.sql. A campaign that is there already changes nothing; one of which the report says otherwise is refused, and all of it.
\set ON_ERROR_STOP on
begin;
create temporary table reported (place bigint generated always as identity, head bigint, campaign bigint, release bigint, size bigint, digest text,
    opened bigint, live bigint, done bigint, failed bigint, cancelled bigint) on commit drop;
\copy reported (head, campaign, release, size, digest, opened, live, done, failed, cancelled) from pstdin with (format csv, header match)
insert into campaigns (shard, campaign, place, release, digest)
    select head, campaign, place, release, decode(digest, 'hex') from reported
on conflict (shard, campaign, place, release, digest) do nothing;
commit;
