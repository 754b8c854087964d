PRAGMA user_version = 1;
BEGIN TRANSACTION;
CREATE TABLE envelopes (
    file INTEGER NOT NULL,
    envelope INTEGER NOT NULL,   -- its number in the file, from 1
    at INTEGER NOT NULL,         -- offset of its first byte in the file
    length INTEGER NOT NULL,
    service TEXT NOT NULL,       -- as Latin-1
    number TEXT NOT NULL,
    date_sent TEXT NOT NULL,
    priority TEXT,
    size INTEGER NOT NULL,       -- size of its object, in bytes
    subfiles INTEGER NOT NULL,
    announced INTEGER NOT NULL,  -- words
    counted INTEGER NOT NULL,
    sent INTEGER,                -- instants, in seconds since 1970
    release INTEGER,
    expires INTEGER,
    PRIMARY KEY (file, envelope)
) WITHOUT ROWID;
INSERT INTO "envelopes" VALUES(1,1,0,114,'TST','00000001','20240301',NULL,14,1,0,0,NULL,NULL,NULL);
INSERT INTO "envelopes" VALUES(1,2,114,246,'TST','00000002','20240301',NULL,50,1,5,4,NULL,NULL,NULL);
INSERT INTO "envelopes" VALUES(1,3,360,213,'TST','00000002','20240301','4',33,1,5,2,1709290800,1709298000,1709384400);
INSERT INTO "envelopes" VALUES(2,1,0,246,'TST','00000002','20240301',NULL,50,1,5,4,NULL,NULL,NULL);
INSERT INTO "envelopes" VALUES(5,1,0,114,'TST','00000001','20240301',NULL,14,1,0,0,NULL,NULL,NULL);
INSERT INTO "envelopes" VALUES(5,2,114,114,'TST','00000001','20240301',NULL,14,1,0,0,NULL,NULL,NULL);
INSERT INTO "envelopes" VALUES(6,1,0,114,'TST','00000001','20240301',NULL,14,1,0,0,NULL,NULL,NULL);
CREATE TABLE files (
    file INTEGER PRIMARY KEY,
    path BLOB NOT NULL UNIQUE,   -- its name, as bytes
    size INTEGER NOT NULL,       -- in bytes, when it was read
    changed INTEGER NOT NULL,    -- time of its last change then, in nanoseconds since 1970
    read INTEGER NOT NULL,       -- size of its envelopes together, in bytes
    state TEXT NOT NULL,         -- 'accepted', 'refused', 'empty' or 'failed'
    reason TEXT,                 -- why it can't be read
    gone INTEGER NOT NULL        -- 1 if it no longer exists, and 0 otherwise
);
INSERT INTO "files" VALUES(1,X'2F7372762F617263686976652F323032342F612E69696D',573,1709290800123456789,573,'accepted',NULL,0);
INSERT INTO "files" VALUES(2,X'2F7372762F617263686976652F323032342F622E69696D',346,1709290800123456789,246,'refused',NULL,0);
INSERT INTO "files" VALUES(3,X'2F7372762F617263686976652F323032342F656D7074792E69696D',0,1709290800123456789,0,'empty',NULL,0);
INSERT INTO "files" VALUES(4,X'2F7372762F617263686976652F323032342F6669666F2E69696D',0,0,0,'failed','not a regular file',0);
INSERT INTO "files" VALUES(5,X'2F7372762F617263686976652F323032342F676F6E652E69696D',228,1709290800123456789,228,'accepted',NULL,1);
INSERT INTO "files" VALUES(6,X'2F7372762F617263686976652F323032342FFF2E69696D',114,1709290800123456789,114,'accepted',NULL,0);
CREATE TABLE refusals (
    file INTEGER PRIMARY KEY,
    envelope INTEGER NOT NULL,
    at INTEGER NOT NULL,
    cause INTEGER NOT NULL,
    cause_name TEXT NOT NULL,
    service TEXT,                -- the id, as far as it is known
    number TEXT,
    date_sent TEXT,
    told TEXT NOT NULL           -- the refusal, as JSON
);
INSERT INTO "refusals" VALUES(2,2,246,3,'Truncated','TST','00000002','20240301','{"envelope": 2, "at": 246, "refused": {"layer": "dataset", "dataset": "0:00", "octet": 100, "octet_in_file": 346, "cause": 3, "cause_name": "Truncated", "name": null}, "id": {"service": "TST", "number": "00000002", "date_sent": "20240301"}, "fields": [{"dataset": "1:00", "name": "Model Version", "octets": "\u0000\u0004"}, {"dataset": "1:20", "name": "File Format", "octets": "\u0000\u0002"}, {"dataset": "1:22", "name": "File Format Version", "octets": "\u0000\u0001"}, {"dataset": "1:30", "name": "Service Identifier", "octets": "TST"}, {"dataset": "1:40", "name": "Envelope Number", "octets": "00000002"}, {"dataset": "1:70", "name": "Date Sent", "octets": "20240301"}, {"dataset": "2:00", "name": "Record Version", "octets": "\u0000\u0004"}, {"dataset": "2:105", "name": "Headline", "octets": "Rates held"}, {"dataset": "2:80", "name": "By-line", "octets": "A. Moor"}, {"dataset": "2:85", "name": "By-line Title", "octets": "Editor"}]}');
CREATE TABLE sums (name TEXT PRIMARY KEY, value INTEGER NOT NULL) WITHOUT ROWID;
INSERT INTO "sums" VALUES('empty',1);
INSERT INTO "sums" VALUES('envelopes',5);
INSERT INTO "sums" VALUES('failed',1);
INSERT INTO "sums" VALUES('refused',1);
INSERT INTO "sums" VALUES('repeated',3);
CREATE INDEX by_id ON envelopes (date_sent, service, number);
CREATE INDEX by_release ON envelopes (release) WHERE release IS NOT NULL;
CREATE INDEX by_gone ON files (file) WHERE gone = 1;
COMMIT;
