-- The tables of an SQLite database of the service that PostgreSQL has otherwise.
-- Each time a process began to lead: the log's identity since, and how many calls each job had.
create table if not exists log_start(number integer primary key, name text not null unique, lengths text not null) strict;
-- The last moment at which the service ran, which it notes now and then.
create table if not exists clock(one integer primary key check (one = 1), at integer not null) strict;
