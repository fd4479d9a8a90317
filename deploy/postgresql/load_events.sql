-- Puts what a head end told into the table `events`. Its input is the file of `dlmsfw head --events`, or some of its lines:
--
--     psql fleet -f load_events.sql <head.events
--
-- A line that is there already changes nothing, so a file may be loaded again once it is longer. A last line that isn't whole yet is left.
\set ON_ERROR_STOP on
begin;
create temporary table lines (line text not null) on commit drop;
-- (no line of JSON has a control character, so none of its characters means something to COPY)
\copy lines from pstdin with (format csv, quote e'\x01', delimiter e'\x02')
insert into events (shard, told_at, event, told)
    select (told ->> 'head')::bigint, (told ->> 'time')::timestamptz, told ->> 'event', told
    from (select line::jsonb as told from lines where line like '{%}') l
on conflict do nothing;
commit;
