-- The faults that tests/audit/test_audit.py plants in an office's file, each in a copy of its own. The comment before a script has the rule that must
-- find the fault, the row that it must name and, if only a witness shows it, the arguments that name the witness. office_kit/store/planted_faults.py fills
-- the names in braces.

-- The balances, a release, a security, a compiled release, a late tender and a payment.

-- pots_add_up lines 1000
UPDATE lines SET free = free + 1 WHERE line = '1000';
-- pots_add_up lines 2000
UPDATE lots SET reserved = reserved - 1 WHERE notice = 'N6' AND lot = 'L2';
-- releases_are_numbered releases N1/5
DELETE FROM releases WHERE notice = 'N1' AND seq = 5;
-- rows_have_their_releases notices N1
DELETE FROM releases WHERE notice = 'N1' AND seq = 5;
-- securities_have_their_fate securities {first}
UPDATE securities SET state = 'returned' WHERE security = {first};
-- securities_have_their_fate securities {sealed}
UPDATE securities SET state = 'forfeited' WHERE security = {sealed};
-- failures_are_of_awards envelopes {regretted}
DELETE FROM late_rules;
-- securities_have_their_fate securities {regretted}
UPDATE securities SET state = 'returned' WHERE security = {regretted};
-- merges_are_of_their_releases compiled N1
UPDATE compiled SET text = (SELECT text FROM compiled WHERE notice = 'N2') WHERE notice = 'N1';
-- late_tenders_stay_shut envelopes {late}
UPDATE envelopes SET state = 'opened', reading = 'unreadable' WHERE receipt = {late};
-- releases_are_counted notices N1
INSERT INTO entries SELECT contract, 'P9', kind, amount, moment, rationale FROM entries WHERE entry = 'P2' AND contract = {contract};
-- rows_have_their_releases notices N2
INSERT INTO entries SELECT contract, 'P9', kind, amount, moment, rationale FROM entries WHERE contract = {running};
UPDATE notices_2 SET releases = releases + 1 WHERE notice = 'N2';
-- keys_come_once entries {contract}/P1
ALTER TABLE entries RENAME TO e;
CREATE TABLE entries AS SELECT * FROM e;
INSERT INTO entries SELECT * FROM e WHERE entry = 'P1' AND contract = {contract};
DROP TABLE e;
-- events_come_once notices N1
INSERT INTO releases SELECT notice, (SELECT releases + 1 FROM notices_2 WHERE notice = 'N1'), moment, text
    FROM releases WHERE notice = 'N1' AND text LIKE '%"P1"%';
-- One fault for each other rule.

-- file_is_sound file
PRAGMA ignore_check_constraints = ON;
UPDATE notices_2 SET validity = 999 WHERE notice = 'N5';
-- tables_are_as_made trigger taken
CREATE TRIGGER taken AFTER INSERT ON entries BEGIN UPDATE lines SET free = free - 1; END;
-- tables_are_as_made table lines
ALTER TABLE lines ADD COLUMN note TEXT;
-- tables_are_as_made table entries
PRAGMA writable_schema = ON;
UPDATE sqlite_master SET sql = replace(sql, ' CHECK (amount BETWEEN 1 AND 1000000000000)', '') WHERE name = 'entries';
-- tables_are_as_made index lots_of_line
DROP INDEX lots_of_line;
-- tables_are_as_made table notices
DROP TABLE notices;
-- notices_stand_in_one_table notices N1
INSERT INTO notices SELECT notice, title, published, deadline, validity, standstill, weight, state, opened, amendments, releases
    FROM notices_2 WHERE notice = 'N1';
-- words_are_known lots N5/L1
PRAGMA ignore_check_constraints = ON;
UPDATE lots SET state = 'won' WHERE notice = 'N5';
-- parents_are_there envelopes {quoted}
DELETE FROM tenderers WHERE tenderer = 'T4';
-- nothing_is_after_the_clock awards {failed}
UPDATE office SET moment = moment - 100;
-- numbers_are_given_in_turn envelopes {taken}
DELETE FROM envelopes WHERE receipt = {taken};
-- numbers_follow_time envelopes {cheap}
UPDATE envelopes SET moment = moment - 100 WHERE receipt = {cheap};
-- contracts_are_not_overdrawn contracts {running}
UPDATE entries SET amount = 9999 WHERE contract = {running};
-- contracts_end_settled contracts {contract}
UPDATE contracts SET released = 0 WHERE contract = {contract};
-- reservations_fit_their_lots lots N6/L1
UPDATE lots SET reserved = reserved + 5 WHERE notice = 'N6' AND lot = 'L1';
UPDATE lines SET free = free - 5 WHERE line = '2000';
-- notices_keep_their_time notices N2
UPDATE notices_2 SET opened = deadline - 1 WHERE notice = 'N2';
-- lots_fit_their_notices lots N5/L1
UPDATE lots SET state = 'unsuccessful' WHERE notice = 'N5';
-- lots_fit_their_awards awards {failed}
UPDATE awards SET state = 'active' WHERE award = {failed};
-- contracts_are_signed_awards contracts {contract}
UPDATE contracts SET tenderer = 'T3' WHERE contract = {contract};
-- awards_keep_their_time awards {failed}
UPDATE awards SET moment = moment - 100 WHERE award = {failed};
-- contracts_keep_their_time entries {contract}/P1
UPDATE entries SET moment = moment - 100 WHERE contract = {contract} AND entry = 'P1';
-- awards_go_to_the_best awards {failed}
UPDATE awards SET receipt = {dear}, price = 570 WHERE award = {failed};
-- awards_go_to_the_best awards {running}
UPDATE awards SET receipt = {low}, price = 200 WHERE award = {running};
-- lots_without_a_winner_have_no_offer lots N1/L2
UPDATE envelopes SET reading = 'priced', stated = 1, corrected = 1, corrections = 0, responsive = 1 WHERE receipt = {nothing};
-- tenders_have_their_fate envelopes {nothing}
UPDATE envelopes SET state = 'returned' WHERE receipt = {nothing};
-- tenderers_have_one_tender_a_lot envelopes {other}
UPDATE envelopes SET state = 'sealed' WHERE receipt = {taken};
-- seals_fit_their_tenders envelopes {cheap}
DELETE FROM seals WHERE receipt = {cheap};
-- digests_are_of_the_bytes seals {sealed}
UPDATE seals SET bytes = CAST(replace(bytes, '10', '11') AS BLOB) WHERE receipt = {sealed};
-- readings_are_of_the_bytes envelopes {open}
UPDATE envelopes SET corrected = corrected - 1 WHERE receipt = {open};
-- examinations_fit_their_tenders envelopes {high}
UPDATE envelopes SET quality = 41 WHERE receipt = {high};
-- failures_are_of_awards envelopes {cheap}
UPDATE envelopes SET failed = 0 WHERE receipt = {cheap};
-- securities_come_with_tenders envelopes {sealed}
UPDATE securities SET tenderer = 'T2' WHERE security = {sealed};
-- securities_are_as_asked envelopes {sealed}
UPDATE securities SET amount = 9 WHERE security = {sealed};
-- performances_are_as_asked contracts {running}
UPDATE performance SET amount = 14 WHERE contract = {running};
-- performances_are_as_asked contracts {running}
DELETE FROM performance WHERE contract = {running};
-- performances_have_their_fate performance {running}
UPDATE performance SET state = 'returned' WHERE contract = {running};
-- performances_have_their_fate performance {contract}
UPDATE performance SET state = 'held' WHERE contract = {contract};
-- performances_have_their_fate performance {broken}
UPDATE performance SET state = 'returned' WHERE contract = {broken};
-- kept_texts_are_releases releases N2/1
UPDATE releases SET text = 'no release' WHERE notice = 'N2' AND seq = 1;
-- merges_say_what_the_rows_say notices N4
UPDATE lots SET state = 'unsuccessful' WHERE notice = 'N4' AND lot = 'L1';
-- heads_are_in_sequence releases N1/2
UPDATE releases SET text = replace(text, '-0002"', '-0003"') WHERE notice = 'N1' AND seq = 2;
-- tags_are_of_events releases N1/2
UPDATE releases SET text = replace(text, 'tenderAmendment', 'planning') WHERE notice = 'N1' AND seq = 2;
-- A procurement that is deleted whole, but for the places of rows; an entry from before its place; lines, tenders and texts that no office makes.

-- rows_came_one_after_another releases N8/1
{without_N7}
-- rows_came_one_after_another entries {contract}/P2
UPDATE entries SET moment = moment - 100 WHERE entry = 'P2';
-- lines_come_from_batches office 2
UPDATE batches SET rows = 2;
-- tenders_of_a_lot_follow_each_other envelopes {late}
UPDATE envelopes SET tenderer = 'T1', state = 'withdrawn', moment = {in_time} WHERE receipt IN ({later}, {late});
-- kept_texts_are_compact releases N2/1
UPDATE releases SET text = replace(text, '","', '", "') WHERE notice = 'N2' AND seq = 1;
-- releases_follow_each_other releases N1/10
UPDATE releases SET text = replace(text, '"amount":400,', '"amount":700,') WHERE notice = 'N1';
UPDATE compiled SET text = replace(text, '"amount":400,', '"amount":700,') WHERE notice = 'N1';
-- Only a witness shows these: a procurement that is lost whole, in which nobody took part, and a tender withdrawn after the deadline.

-- saved_notices_are_there notices N7
-- --answers answers
{without_N7}
-- tenders_stay_from_the_deadline_on envelopes {quoted}
-- --earlier behind.db
UPDATE envelopes SET state = 'withdrawn' WHERE receipt = {quoted};
