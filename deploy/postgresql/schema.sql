-- The fleet of a utility: which meter is where, which shard leads it, what was offered to it, and what became of that.
--
-- The lists of head ends are made of it, and what their books have is put back into it, campaigns (load_campaigns.sql) and then their rows
-- (load.sql), and what they told when (load_events.sql). It decides nothing: what a row is, the book says. PostgreSQL 15.

-- A head end: its number is in each record of its book, and stands on one book alone.
create table shards (
    number bigint primary key check (number between 1 and 4294967295),
    listen text not null unique
);

-- A meter, from when it was put up until it was taken down. A number is never used again for another meter.
create table meters (
    number bigint primary key check (number between 1 and 4294967295),
    place text not null,
    address text not null,
    shard bigint not null references shards,
    -- When it is asked: no meter of a wave is, before all of the earlier waves have ended.
    wave smallint not null default 0 check (wave between 0 and 255),
    up_since timestamptz not null default now(),
    down_since timestamptz check (down_since >= up_since)
);
create unique index one_meter_a_place on meters (place) where down_since is null;
create unique index one_meter_an_address on meters (address) where down_since is null;
create index meters_of_a_shard on meters (shard) where down_since is null;

-- The bytes of an image. Its digest is the SHA-256 that a name has.
create table images (
    digest bytea primary key check (length(digest) = 32),
    size bigint not null check (size between 1 and 16777216),
    file text not null
);

-- An opening of a shard: `head --open SERIAL` with an image under a release, older bytes perhaps under a higher one. Its campaigns are those from
-- SERIAL on that offer this image under this release, as `head` takes them. They may stand above the SERIAL of a later opening, which has others.
create table openings (
    shard bigint not null references shards,
    serial bigint not null check (serial between 1 and 4294967295),
    release bigint not null check (release between 0 and 4294967295),
    digest bytea not null references images,
    made_at timestamptz not null default now(),
    primary key (shard, serial)
);

-- The campaigns of all books, and what each offers, which never changes. Nor does its place among those of its book, in the order in which they
-- were opened. Each report says just this of it: another one is that of another book under this number, and isn't loaded.
create table campaigns (
    shard bigint not null references shards,
    campaign bigint not null,
    place bigint not null,
    release bigint not null,
    digest bytea not null,
    primary key (shard, campaign),
    unique (shard, place),
    unique (shard, campaign, place, release, digest)
);

-- The rows of all books, each as it was read last, or as it was first read once it had ended.
create table results (
    shard bigint not null,
    campaign bigint not null,
    meter bigint not null references meters,
    state text not null check (state in ('live', 'done', 'failed', 'cancelled')),
    -- When its campaign was opened, when it ended, and why it failed, as far as the book knows.
    opened_at timestamptz,
    ended_at timestamptz,
    reason text,
    read_at timestamptz not null default now(),
    primary key (shard, campaign, meter),
    foreign key (shard, campaign) references campaigns
);
create index results_of_a_meter on results (meter);

-- What head ends told, each line as it is: the object of an event, which has its head end and its time.
create table events (
    shard bigint not null references shards,
    told_at timestamptz not null,
    event text not null,
    told jsonb not null,
    primary key (shard, told_at, told)
);
create index events_of_rows on events (shard) where event = 'row';

-- What `dlmsfw head --meters` reads: the number, the address and the wave of each meter that is up.
create view lists as
    select shard, number, address, wave from meters where down_since is null;

-- Each row, with what its campaign offers.
create view offers as
    select shard, campaign, place, meter, state, ended_at, release, digest
    from results join campaigns using (shard, campaign);

-- What each meter that is up runs by the books: the image of its last row that is done. A meter without one runs what it was delivered with.
-- (a meter that changed its shard has rows of two books, and the row of a book of an older release may have no time)
create view running as
    select m.number as meter, m.place, m.shard, d.release, d.digest
    from meters m
    left join lateral (
        select release, digest from offers f
        where f.meter = m.number and f.state = 'done'
        order by f.ended_at desc nulls last, f.place desc limit 1
    ) d on true
    where m.down_since is null;

-- How far each opening is, for the meters that are up. One that was offered its image more than once counts by the row that was opened last.
-- `lacking` are those without a row, as one that was put up later.
create view progress as
    select o.shard, o.serial, o.release, count(*) as meters,
        count(*) filter (where f.state = 'done') as done,
        count(*) filter (where f.state = 'live') as live,
        count(*) filter (where f.state = 'failed') as failed,
        count(*) filter (where f.state = 'cancelled') as cancelled,
        count(*) filter (where f.state is null) as lacking
    from openings o
    join meters m on m.shard = o.shard and m.down_since is null
    left join (
        select distinct on (o.shard, o.serial, f.meter) o.shard, o.serial, f.meter, f.state
        from openings o
        join offers f on f.shard = o.shard and f.campaign >= o.serial and (f.release, f.digest) = (o.release, o.digest)
        order by o.shard, o.serial, f.meter, f.place desc
    ) f on f.shard = o.shard and f.serial = o.serial and f.meter = m.number
    group by o.shard, o.serial;

-- The newest opening of each shard, if some meter of the shard that is up runs another image by the books. One that got this image under
-- another opening, or at another shard, doesn't lack it.
create view behind as
    select o.shard, o.serial, o.release, count(*) as meters,
        count(*) filter (where (r.release, r.digest) is distinct from (o.release, o.digest)) as lacking
    from openings o
    join running r on r.shard = o.shard
    where o.serial = (select max(serial) from openings n where n.shard = o.shard)
    group by o.shard, o.serial
    having count(*) filter (where (r.release, r.digest) is distinct from (o.release, o.digest)) > 0;

-- The events of rows, as rows: how each ended by what its head end told, and how often that was told.
create view told_rows as
    select shard, (told ->> 'campaign')::bigint as campaign, (told ->> 'meter')::bigint as meter, told ->> 'state' as state,
        to_timestamp((told ->> 'ended')::bigint) as ended_at, told ->> 'reason' as reason, count(*) as times
    from events where event = 'row'
    group by 1, 2, 3, 4, 5, 6;

-- Each row that ended by its book, and of which no event tells, or another end, or its end twice; and each of which an event tells and which by
-- its book didn't end so. A shard without events has none of the first. What is told of cancelled rows is that of their campaign, and of each
-- alone at a later start. A head end tells of a row once its book has it, so reports and events of one that runs may differ for a while.
create view disagreeing as
    select shard, campaign, meter, r.state, r.ended_at, r.reason, t.state as told_state, t.ended_at as told_ended_at,
        t.reason as told_reason, coalesce(t.times, 0) as times
    from (select * from results where state <> 'live' and shard in (select shard from events)) r
    full join told_rows t using (shard, campaign, meter)
    where (r.state, r.ended_at, r.reason, 1) is distinct from (t.state, t.ended_at, t.reason, t.times)
        and not (r.state is not distinct from 'cancelled' and t.state is null);
