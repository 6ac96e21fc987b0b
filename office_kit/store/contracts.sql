-- Copies of the notice N0, its lot and tender, its award and contract, which come after so many receipts (large_office.py). The first copy is C1000001.
CREATE TEMP TABLE copies AS WITH RECURSIVE n(k) AS (SELECT 1 UNION ALL SELECT k + 1 FROM n WHERE k < :many)
    SELECT k, 'C' || (1000000 + k) AS copy, :receipts + k AS number, CAST(100000 + k % :lines AS TEXT) AS line FROM n;
CREATE INDEX temp.copies_by_line ON copies (line);
INSERT INTO notices_2 SELECT copy, title, published, deadline, validity, standstill, weight, state, opened, amendments, 0, performance
    FROM copies, notices_2 WHERE notice = 'N0';
INSERT INTO lots SELECT copy, lot, title, copies.line, estimate, security, items, state, reserved FROM copies, lots WHERE notice = 'N0';
INSERT INTO envelopes SELECT number, copy, lot, tenderer, moment, length, digest, security, state, reading, stated, corrected, corrections, responsive, quality,
    failed FROM copies, envelopes WHERE receipt = 1;
INSERT INTO awards SELECT number, copy, lot, number, price, moment, state FROM copies, awards WHERE award = 1;
INSERT INTO contracts SELECT number, copy, lot, tenderer, signed, moment, ended, how, released FROM copies, contracts WHERE contract = 1;
INSERT INTO entries SELECT number, entry, kind, amount, moment, rationale FROM copies, entries WHERE contract = 1;
UPDATE lines SET free = free - :amount * (SELECT count(*) FROM copies WHERE copies.line = lines.line);
UPDATE office SET receipts = :receipts + :many, awards = :receipts + :many;
