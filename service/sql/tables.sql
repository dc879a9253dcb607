-- The tables that both databases of the service have, version 1, as SQLite makes them. PostgreSQL has `bigint` in place of `integer`, and no words behind a
-- table.
create table if not exists job(
    job integer primary key, name text not null unique, config text not null, shape text not null,
    started integer not null, first integer not null, library text not null) strict;
-- The log. `line` is the line of a call (docs/LOGS.md), and `what`, `a` and `b` are the numbers of its answer in include/relkvanu.h, each kept
-- with its 64 bits as a signed one. `files` are those of a take; else it is null. `ended` has the records that the call ended.
create table if not exists call(
    job integer not null, seq integer not null, at integer not null, record integer, line text not null,
    what integer not null, a integer not null, b integer not null, files text, ended text, waiting integer not null,
    primary key(job, seq)) strict, without rowid;
create index if not exists call_record on call(job, record);
-- The rows that are events for engines, as `Event::of` has them: held ticks (2, 3, 4) are if a record expired.
create index if not exists call_event on call(job, seq)
    where (what in (1, 5, 6, 8, 10, 11, 13, 14, 15, 16, 17) or what in (2, 3, 4) and a > 0);
create table if not exists request(
    job integer not null, key text not null, at integer not null, digest text not null, answers text not null,
    primary key(job, key)) strict, without rowid;
create index if not exists request_at on request(at);
-- Images, each with the digest of all that it says: what the job is after the call at its place.
create table if not exists image(
    job integer not null, seq integer not null, at integer not null, digest text not null, shape text not null,
    completed integer, event integer not null, bytes integer not null, text text not null, primary key(job, seq)) strict;
-- The texts of long images, in parts. The row in `image` comes with the last part, and has no text of its own.
create table if not exists image_part(
    job integer not null, seq integer not null, part integer not null, text text not null, primary key(job, seq, part)) strict;
-- The bytes of the files that are not deleted, as acknowledgements said them; a file's number is kept with its 64 bits as a signed one.
create table if not exists size(
    job integer not null, file integer not null, bytes integer not null, primary key(job, file)) strict, without rowid;
-- What the acknowledgements of the log said: `FILE:BYTES` of each new file, and the bytes of all files that it names.
create table if not exists ack_size(
    job integer not null, seq integer not null, fresh text not null, bytes integer not null, primary key(job, seq)) strict, without rowid;
-- Jobs that were deleted. Their numbers are given to no other job. What is left of one is deleted in pieces; then it is empty.
create table if not exists gone_job(
    job integer primary key, name text not null, at integer not null, is_empty integer not null) strict;
-- What the history has read up to a place of a job's log, in parts, so that it outlives the calls that are cut. The last part says
-- in `whole` how many bytes all parts have, the others 0.
create table if not exists summary(
    job integer not null, seq integer not null, part integer not null, whole integer not null, text text not null,
    primary key(job, seq, part)) strict;
-- Records that ended, as the history has them.
create table if not exists past(
    job integer not null, id integer not null, text text not null, primary key(job, id)) strict, without rowid;
-- The phase of each job that somebody has stopped: the savepoint, the moment of the stop, the term that began as the job had stopped, and
-- why the stop failed.
create table if not exists phase(
    job integer primary key, phase text not null, record integer, at integer, term integer, failed text) strict;
-- What a subtask has in a record beside its files, if its acknowledgement gave it: the files in their order, with a space between, a payload in base64,
-- and the bytes and milliseconds of its snapshot. It goes with its record.
create table if not exists subtask_state(
    job integer not null, record integer not null, vertex integer not null, place integer not null, files text not null,
    payload text not null, bytes integer not null, millis integer not null, primary key(job, record, vertex, place)) strict;
-- What the acknowledgements of the log told for the history: the bytes and milliseconds of a snapshot; and why a subtask declined. The reason of an
-- acknowledgement that told one of both alone is the word for that one: `bytes` or `millis`.
create table if not exists figure(
    job integer not null, seq integer not null, bytes integer not null, millis integer not null, reason text,
    primary key(job, seq)) strict, without rowid;
