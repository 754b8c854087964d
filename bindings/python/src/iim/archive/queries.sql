-- Questions to an index of iim-archive, each with the statement of SQL that answers it, such
-- as by `sqlite3 -readonly archive.index`. src/iim/archive/schema.py describes the tables. A file
-- that is gone has 1 in `gone`: a statement that counts excludes it.

-- 1. How many files are in each state?
SELECT state, count(*) AS files, sum(size) AS octets FROM files WHERE gone = 0 GROUP BY state;

-- 2. Which envelopes were sent on a day?
SELECT CAST(path AS TEXT) AS file, envelope, service, number
FROM envelopes JOIN files USING (file)
WHERE date_sent = '20240301' AND gone = 0 ORDER BY path, envelope;

-- 3. How many envelopes did each service send in each month?
SELECT service, substr(date_sent, 1, 6) AS month, count(*) AS envelopes
FROM envelopes JOIN files USING (file) WHERE gone = 0 GROUP BY service, month;

-- 4. Which ids occur more than once, and how often?
SELECT service, number, date_sent, count(*) AS times
FROM envelopes JOIN files USING (file) WHERE gone = 0
GROUP BY date_sent, service, number HAVING times > 1 ORDER BY times DESC;

-- 5. Where is a certain envelope?
SELECT CAST(path AS TEXT) AS file, envelope, at, length
FROM envelopes JOIN files USING (file)
WHERE date_sent = '20240301' AND service = 'TST' AND number = '00000001' AND gone = 0;

-- 6. Which numbers of a service are missing on a day?
WITH RECURSIVE sent AS (
    SELECT DISTINCT CAST(number AS INTEGER) AS number FROM envelopes
    WHERE date_sent = '20240301' AND service = 'TST'
), wanted (number) AS (
    SELECT min(number) FROM sent
    UNION ALL SELECT number + 1 FROM wanted WHERE number < (SELECT max(number) FROM sent)
)
SELECT printf('%08d', number) AS number FROM wanted WHERE number NOT IN sent;

-- 7. Which copy is held now, and until when?
SELECT CAST(path AS TEXT) AS file, envelope, datetime(release, 'unixepoch') AS released
FROM envelopes JOIN files USING (file)
WHERE release > CAST(strftime('%s', 'now') AS INTEGER) AND gone = 0 ORDER BY release;

-- 8. Which copy has expired?
SELECT CAST(path AS TEXT) AS file, envelope, datetime(expires, 'unixepoch') AS expired
FROM envelopes JOIN files USING (file)
WHERE expires < CAST(strftime('%s', 'now') AS INTEGER) AND gone = 0 ORDER BY expires;

-- 9. Which envelopes have the highest priority?
SELECT CAST(path AS TEXT) AS file, envelope, date_sent
FROM envelopes JOIN files USING (file) WHERE priority IN ('1', '2', '3') AND gone = 0;

-- 10. Where does the announced number of words differ from the counted one?
SELECT CAST(path AS TEXT) AS file, envelope, announced, counted
FROM envelopes JOIN files USING (file) WHERE announced <> counted AND gone = 0;

-- 11. How often does each cause of refusals occur?
SELECT cause, cause_name, count(*) AS refusals
FROM refusals JOIN files USING (file) WHERE gone = 0 GROUP BY cause ORDER BY refusals DESC;

-- 12. At which octet was each damaged file refused, and on which dataset?
SELECT CAST(path AS TEXT) AS file, json_extract(told, '$.refused.octet_in_file') AS octet,
    json_extract(told, '$.refused.dataset') AS dataset, cause_name
FROM refusals JOIN files USING (file) WHERE gone = 0 ORDER BY path;

-- 13. Which files can't be read, and why?
SELECT CAST(path AS TEXT) AS file, reason FROM files WHERE state = 'failed' AND gone = 0;

-- 14. Which files are gone, and since which run?
SELECT CAST(path AS TEXT) AS file, datetime(started, 'unixepoch') AS missed
FROM events JOIN files USING (file) JOIN runs ON runs.run = events.run
WHERE type = 'deletion' AND gone = 1 ORDER BY path;

-- 15. Which files have the same content?
SELECT sha256, count(*) AS files, group_concat(CAST(path AS TEXT), ' ') AS names
FROM files WHERE sha256 IS NOT NULL AND gone = 0 GROUP BY sha256 HAVING files > 1;

-- 16. Which files are damaged, changed or missing since they were read?
SELECT CAST(path AS TEXT) AS file, fixity, datetime(started, 'unixepoch') AS verified_at
FROM files JOIN runs ON runs.run = files.verified WHERE fixity <> 'intact' AND gone = 0;

-- 17. How many files were last verified in each month?
SELECT coalesce(strftime('%Y-%m', started, 'unixepoch'), 'never') AS month, count(*) AS files
FROM files LEFT JOIN runs ON runs.run = files.verified WHERE gone = 0 GROUP BY month;

-- 18. What did each run do?
SELECT run, command, release, host, datetime(started, 'unixepoch') AS started,
    ended - started AS seconds, sums FROM runs ORDER BY run;

-- 19. Which files were read with other limits than those of the last run?
SELECT CAST(path AS TEXT) AS file, octets, fields
FROM files JOIN runs USING (run)
WHERE gone = 0 AND (octets, fields) IS NOT
    (SELECT octets, fields FROM runs WHERE command = 'index' ORDER BY run DESC LIMIT 1);

-- 20. Which events does PREMIS know of a file?
SELECT eventType, eventDateTime, eventOutcome, eventOutcomeDetailNote, linkingAgentIdentifierValue
FROM premis_events WHERE linkingObjectIdentifierValue LIKE '%story.iim' ORDER BY eventDateTime;

-- 21. Which stories have these words? (After a run with --text.)
SELECT CAST(path AS TEXT) AS file, texts.rowid % 4294967296 AS envelope, headline,
    snippet(texts, 7, '[', ']', '..', 12) AS found
FROM texts JOIN files ON files.file = texts.rowid / 4294967296
WHERE texts MATCH 'rates' AND gone = 0 ORDER BY rank;
