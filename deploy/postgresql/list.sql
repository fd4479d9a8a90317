-- The list of a shard, for `dlmsfw head --meters`:
--
--     psql fleet -v shard=7 -f list.sql >7.csv
\set ON_ERROR_STOP on
copy (select number, address, wave from lists where shard = :shard order by number) to stdout (format csv);
