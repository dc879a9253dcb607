-- The tables of the history, version 1, which are made from the log.
create table version(number integer primary key) strict;
-- The last entry of the log that was read, and its moment.
create table progress(
    job integer primary key, upto integer not null, at integer not null, shape text not null) strict;
-- Records. The bytes of files are those of its new ones, and of all that its acknowledgements name; the others, and the milliseconds, are what tasks
-- told of their snapshots: their sum, and the greatest. `saved` says whether the database keeps it too.
create table record(
    job integer not null, id integer not null, kind text not null, shape text not null, started integer not null,
    finished integer, how text not null, gone integer, why text, first_ack integer, last_ack integer, slowest text,
    acks integer not null, missing text, saved integer not null default 0, fresh_bytes integer, full_bytes integer,
    median integer, p99 integer, bytes integer, millis integer, reason text,
    primary key(job, id)) strict, without rowid;
create index record_pending on record(job) where how = 'pending';
create index record_unsaved on record(job, id) where gone is not null and saved = 0;
-- A file's number is kept with its 64 bits as a signed one; born, released, taken and deleted are places in the log.
create table file(
    job integer not null, file integer not null, born integer, released integer, taken integer, deleted integer, bytes integer,
    primary key(job, file)) strict, without rowid;
create index file_taken on file(job, taken) where taken is not null and deleted is null;
create index file_deleted on file(job, deleted) where deleted is not null;
-- The files that wait for deletion, in their order, by the call that released them.
create table queue(
    job integer not null, place integer not null, released integer not null, files integer not null,
    primary key(job, place)) strict, without rowid;
-- What the calls said that files name, as the log has them, without their lists of files. The log may be cut behind them.
create table place(
    job integer not null, seq integer not null, at integer not null, record integer, line text not null,
    what integer not null, a integer not null, b integer not null, ended text, waiting integer not null,
    primary key(job, seq)) strict, without rowid;
create table sample(
    job integer not null, at integer not null, in_use integer not null, waiting integer not null, taken integer not null,
    pending integer not null, primary key(job, at)) strict, without rowid;
create index sample_at on sample(at);
