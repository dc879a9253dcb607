-- The tables of a PostgreSQL database of the service that SQLite does not have, or has otherwise.
create table if not exists schema_version(one boolean primary key check (one), number bigint not null);
-- A standby reads the calls and images since a moment.
create index if not exists call_at on call(at);
create index if not exists image_at on image(at);
create table if not exists clock(one boolean primary key check (one), at bigint not null);
-- The process that leads; an empty name: none. Each time it renews its lease it counts its beat up. If the beat stays the same for the length
-- of the lease, another process takes its place and begins a new epoch.
create table if not exists leader(
    one boolean primary key check (one), name text not null, address text not null, epoch bigint not null, beat bigint not null,
    lease double precision not null, until timestamptz not null);
insert into leader values(true, '', '', 0, 0, 0, '-infinity') on conflict do nothing;
-- Each time a process began to lead: the log's identity since, and how many calls each job had. The number is the epoch.
create table if not exists log_start(number bigint primary key, name text not null, lengths text not null)
