-- A lab: what is kept of many captures. docs/DATABASE.md describes the tables. A statement that makes what is there
-- already changes nothing, so several loaders may run these at once. What the results of many captures have in common,
-- who talks to whom and which methods are called, is there once: a lab of 5,000 captures so takes a quarter of the space.

PRAGMA user_version = 2;

CREATE TABLE IF NOT EXISTS capture(id INTEGER PRIMARY KEY, digest TEXT NOT NULL UNIQUE, build TEXT NOT NULL,
  device TEXT NOT NULL, file TEXT, made REAL NOT NULL, begun INTEGER, seconds REAL, bytes INTEGER, frames INTEGER,
  records INTEGER, missing INTEGER, lost INTEGER, side INTEGER, doubt TEXT, malformed TEXT, failed TEXT, kernel TEXT,
  version TEXT, prints INTEGER, methods INTEGER, left_out INTEGER NOT NULL, basis TEXT);
CREATE TABLE IF NOT EXISTS defect(id TEXT PRIMARY KEY, kind TEXT NOT NULL, who TEXT NOT NULL, path TEXT NOT NULL,
  call TEXT);
CREATE TABLE IF NOT EXISTS found(capture INTEGER NOT NULL, defect TEXT NOT NULL, verdict TEXT NOT NULL,
  n INTEGER NOT NULL, n_all INTEGER, waiting INTEGER, rules TEXT, age INTEGER, place INTEGER, path TEXT, note TEXT,
  PRIMARY KEY(capture, defect));
CREATE TABLE IF NOT EXISTS exchange(id INTEGER PRIMARY KEY, caller TEXT, server TEXT, interface TEXT, method TEXT,
  code INTEGER, call TEXT, oneway INTEGER);
CREATE TABLE IF NOT EXISTS sent(capture INTEGER NOT NULL, exchange INTEGER NOT NULL, sends INTEGER, failed INTEGER,
  refused INTEGER, open INTEGER, bytes INTEGER, buffers INTEGER, longest INTEGER);
CREATE VIEW IF NOT EXISTS talk AS SELECT s.capture, e.caller, e.server, e.interface, e.method, e.code, e.call, e.oneway,
  s.sends, s.failed, s.refused, s.open, s.bytes, s.buffers, s.longest FROM sent s JOIN exchange e ON e.id = s.exchange;
CREATE TABLE IF NOT EXISTS method(id INTEGER PRIMARY KEY, server TEXT, call TEXT);
CREATE TABLE IF NOT EXISTS took(capture INTEGER NOT NULL, method INTEGER NOT NULL, calls INTEGER, queue INTEGER,
  work INTEGER);
CREATE VIEW IF NOT EXISTS method_time AS SELECT t.capture, m.server, m.call, t.calls, t.queue, t.work
  FROM took t JOIN method m ON m.id = t.method;
CREATE TABLE IF NOT EXISTS held(capture INTEGER NOT NULL, process TEXT, buffers INTEGER, buffers_most INTEGER,
  bytes INTEGER, bytes_most INTEGER, refs INTEGER, refs_most INTEGER, calls_most INTEGER);
CREATE TABLE IF NOT EXISTS loaded(text BLOB PRIMARY KEY, digest TEXT NOT NULL, build TEXT NOT NULL,
  device TEXT NOT NULL, made REAL NOT NULL, failed INTEGER NOT NULL) WITHOUT ROWID;
CREATE INDEX IF NOT EXISTS found_of_defect ON found(defect);
CREATE INDEX IF NOT EXISTS sent_of_capture ON sent(capture);
CREATE INDEX IF NOT EXISTS took_of_capture ON took(capture);
CREATE INDEX IF NOT EXISTS held_of_capture ON held(capture);
CREATE INDEX IF NOT EXISTS capture_of_build ON capture(build);
