-- How a file of version 1 becomes large, for test_formats.py: by copies of the notice N2, or of N9 with all that belongs to it: the tenders 21 to 23, and award
-- and contract 5. These copies have the next numbers, and tools/audit finds nothing wrong with them but that they came later than they say. The test makes MANY
-- a number.

-- notices
CREATE TEMP TABLE copies AS WITH RECURSIVE number(n) AS (SELECT 1 UNION ALL SELECT n + 1 FROM number WHERE n < MANY)
    SELECT 'K' || n AS copy FROM number;
INSERT INTO notices SELECT copy, title, published, deadline, validity, standstill, weight, state, opened, amendments, releases
    FROM copies, notices WHERE notice = 'N2';
-- procurements
CREATE TEMP TABLE copies AS WITH RECURSIVE number(n) AS (SELECT 1 UNION ALL SELECT n + 1 FROM number WHERE n < MANY)
    SELECT n + 1 AS later, 3 * n + 4 AS behind, 'K' || n AS copy, '"' || (n + 6) || '"' AS contract_id FROM number;
INSERT INTO notices SELECT copy, replace(title, 'N9', copy), published, deadline, validity, standstill, weight, state, opened, amendments, releases
    FROM copies, notices WHERE notice = 'N9';
INSERT INTO lots SELECT copy, lot, title, line, estimate, security, items, state, reserved FROM copies, lots WHERE notice = 'N9';
INSERT INTO envelopes SELECT receipt + behind, copy, lot, tenderer, moment, length, digest, security + behind, state, reading, stated, corrected,
    corrections, responsive, quality, failed FROM copies, envelopes WHERE notice = 'N9';
INSERT INTO seals SELECT receipt + behind, bytes FROM copies, seals WHERE receipt BETWEEN 21 AND 23;
INSERT INTO securities SELECT security + behind, tenderer, copy, lot, reference, amount, state FROM copies, securities WHERE notice = 'N9';
INSERT INTO awards SELECT award + later, copy, lot, receipt + behind, price, moment, state FROM copies, awards WHERE notice = 'N9';
INSERT INTO contracts SELECT contract + later, copy, lot, tenderer, signed, moment, ended, how, released FROM copies, contracts WHERE notice = 'N9';
INSERT INTO entries SELECT contract + later, entry, kind, amount, moment, rationale FROM copies, entries WHERE contract = 5;
INSERT INTO releases SELECT copy, seq, moment, replace(replace(text, 'N9', copy), '"5"', contract_id) FROM copies, releases WHERE notice = 'N9';
INSERT INTO compiled SELECT copy, replace(replace(text, 'N9', copy), '"5"', contract_id) FROM copies, compiled WHERE notice = 'N9';
UPDATE lines SET appropriation = appropriation + MANY * (SELECT sum(amount) FROM entries WHERE contract = 5 AND kind = 'payment') WHERE line = '1000';
UPDATE office SET receipts = receipts + 3 * MANY, awards = awards + MANY;
