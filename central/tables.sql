-- The tables of the energy of all sites: `clickhouse-client -n < tables.sql`, once on each shard of
-- the cluster `energy` (cluster.xml). Tables whose names end in _here hold the sites of one shard.
-- Those of the same name without it cover all shards. All rows of a site are on one shard.
--
-- Energy is whole milliwatt-hours (mWh) in 64 bits, as in an office. A sum is a Decimal(38, 0),
-- which 10^19 such numbers don't fill. Times are whole seconds since 1970-01-01 UTC. A row is
-- replaced by a row of the same key and a later run. A row that no longer exists at its site has
-- `here` 0, and mwh 0. The older row exists beside it until they are merged: query with FINAL, and
-- for here = 1, as the views do.
CREATE DATABASE IF NOT EXISTS energy;

-- each start of `collect`: a run's number is its milliseconds since 1970, or one more than the
-- latest
CREATE TABLE IF NOT EXISTS energy.runs_here (run UInt64, sites UInt32) ENGINE = MergeTree ORDER BY run;

-- each site: when it was last requested, when it last responded (0: never), and its fault, or ''
CREATE TABLE IF NOT EXISTS energy.sites_here (site String, url String, asked UInt32, answered UInt32, fault String, run UInt64)
    ENGINE = ReplacingMergeTree(run) ORDER BY site;

-- a meter when its rows were copied: its last entry, its energy since its opening, and the number
-- of rows of its text
CREATE TABLE IF NOT EXISTS energy.meters_here
    (site String, register String, meter String, at UInt32, last UInt64, sf Int8, total UInt64, ended UInt8, rows UInt32, run UInt64)
    ENGINE = ReplacingMergeTree(run) ORDER BY (site, meter);

-- a meter's energy in the quarter hour from `start` on; a part holds rows of one year (of 31556952
-- s)
CREATE TABLE IF NOT EXISTS energy.intervals_here
    (site String, register String, meter String, start UInt32, mwh UInt64, here UInt8, run UInt64)
    ENGINE = ReplacingMergeTree(run) PARTITION BY intDiv(start, 31556952) ORDER BY (site, meter, start);

-- a register's energy on a civil day of its office's zone, and the number of its quarter hours that
-- have a row
CREATE TABLE IF NOT EXISTS energy.days_here
    (site String, register String, day Date, quarters UInt16, mwh UInt64, here UInt8, run UInt64)
    ENGINE = ReplacingMergeTree(run) PARTITION BY toYear(day) ORDER BY (site, register, day);

CREATE TABLE IF NOT EXISTS energy.runs AS energy.runs_here ENGINE = Distributed(energy, energy, runs_here, run);
CREATE TABLE IF NOT EXISTS energy.sites AS energy.sites_here ENGINE = Distributed(energy, energy, sites_here, sipHash64(site));
CREATE TABLE IF NOT EXISTS energy.meters AS energy.meters_here ENGINE = Distributed(energy, energy, meters_here, sipHash64(site));
CREATE TABLE IF NOT EXISTS energy.intervals AS energy.intervals_here ENGINE = Distributed(energy, energy, intervals_here, sipHash64(site));
CREATE TABLE IF NOT EXISTS energy.days AS energy.days_here ENGINE = Distributed(energy, energy, days_here, sipHash64(site));

-- Energy of a register and of a site, by day and month of each office's own zone. A view reads all
-- days. If that takes too long, query the table for a range of days (bill.sql).
CREATE VIEW IF NOT EXISTS energy.register_days AS
    SELECT site, register, day, quarters, mwh FROM energy.days FINAL WHERE here = 1;
CREATE VIEW IF NOT EXISTS energy.register_months AS
    SELECT site, register, toStartOfMonth(day) AS month, count() AS days, sum(quarters) AS quarters, sum(toDecimal128(mwh, 0)) AS mwh
    FROM energy.days FINAL WHERE here = 1 GROUP BY site, register, month;
CREATE VIEW IF NOT EXISTS energy.site_days AS
    SELECT site, day, count() AS registers, sum(toDecimal128(mwh, 0)) AS mwh FROM energy.days FINAL WHERE here = 1 GROUP BY site, day;
CREATE VIEW IF NOT EXISTS energy.site_months AS
    SELECT site, toStartOfMonth(day) AS month, uniqExact(register) AS registers, sum(toDecimal128(mwh, 0)) AS mwh
    FROM energy.days FINAL WHERE here = 1 GROUP BY site, month;

-- Energy of a meter by quarter hour; `quarter` is its beginning in UTC.
CREATE VIEW IF NOT EXISTS energy.meter_quarters AS
    SELECT site, register, meter, start, toDateTime(start, 'UTC') AS quarter, mwh FROM energy.intervals FINAL WHERE here = 1;

-- When each site was last requested, when it last responded, and its fault.
CREATE VIEW IF NOT EXISTS energy.visits AS
    SELECT site, url, toDateTime(asked, 'UTC') AS asked_at, toDateTime(answered, 'UTC') AS answered_at, fault FROM energy.sites FINAL;

-- Sums and counts that do not match: a meter's rows with its total and with the number of rows of
-- its text, and a register's days with its meters' rows. A register with an earlier meter that was
-- never named to `collect` is here even after a copy.
CREATE VIEW IF NOT EXISTS energy.differences AS
    SELECT site, register, meter, materialize('rows') AS what, sum(part) AS found, sum(told) AS wanted FROM (
        SELECT site, register, meter, toDecimal128(mwh, 0) AS part, materialize(toDecimal128(0, 0)) AS told, materialize(toInt64(1)) AS more
        FROM energy.intervals FINAL WHERE here = 1
        UNION ALL
        SELECT site, register, meter, materialize(toDecimal128(0, 0)) AS part, toDecimal128(total, 0) AS told, -toInt64(rows) AS more
        FROM energy.meters FINAL
    ) GROUP BY site, register, meter HAVING sum(part) != sum(told) OR sum(more) != 0
    UNION ALL
    SELECT site, register, materialize('') AS meter, materialize('days') AS what, sum(part) AS found, sum(told) AS wanted FROM (
        SELECT site, register, toDecimal128(mwh, 0) AS part, materialize(toDecimal128(0, 0)) AS told FROM energy.days FINAL WHERE here = 1
        UNION ALL
        SELECT site, register, materialize(toDecimal128(0, 0)) AS part, toDecimal128(mwh, 0) AS told FROM energy.intervals FINAL WHERE here = 1
    ) GROUP BY site, register HAVING sum(part) != sum(told);
