-- Replaces a meter's quarter hours in PostgreSQL on one machine, from the text that its office
-- prints. A text that was cut short changes nothing. curl -sS URL/meters/m1/intervals | psql -v
-- ON_ERROR_STOP=1 -v site=north -v meter=m1 -f postgres.sql
CREATE TABLE IF NOT EXISTS intervals (site text, meter text, start bigint, mwh numeric(20), PRIMARY KEY (site, meter, start));
BEGIN;
CREATE TEMP TABLE came (word text, mwh numeric(20)) ON COMMIT DROP;
\copy came FROM pstdin (DELIMITER ' ')
SELECT 1 / count(*) AS whole FROM came WHERE word = 'end' AND mwh = (SELECT count(*) - 1 FROM came);
DELETE FROM intervals WHERE site = :'site' AND meter = :'meter';
INSERT INTO intervals SELECT :'site', :'meter', word::bigint, mwh FROM came WHERE word <> 'end';
COMMIT;
