-- Forgeries that an office's file alone doesn't show, for tests/audit/test_audit.py. The comment before a script has the forgery's name, as docs/AUDITOR.md
-- has it, and each witness that exposes it, with the rule that finds it and the row that is named. A row `front ROUTE` is the place of the route's last line
-- in the front's log. office_kit/store/planted_faults.py fills the names in braces.

-- a whole procurement is deleted, and the gaps are closed
-- earlier answers: saved_notices_are_there notices N7
-- what was handed out: saved_notices_are_there notices N7
-- an earlier copy: rows_of_an_earlier_copy_stay notices N7
-- the log of the clerks: lines_have_a_command front /notices/N7
{without_N7}
UPDATE releases SET rowid = (SELECT count(*) FROM releases AS upto WHERE upto.rowid <= releases.rowid);
UPDATE compiled SET rowid = (SELECT count(*) FROM compiled AS upto WHERE upto.rowid <= compiled.rowid);
UPDATE lots SET rowid = (SELECT count(*) FROM lots AS upto WHERE upto.rowid <= lots.rowid);
UPDATE notices_2 SET rowid = (SELECT count(*) FROM notices_2 AS upto WHERE upto.rowid <= notices_2.rowid);
-- a late tender is shown as withdrawn in time
-- what was handed out: receipts_are_of_the_rows envelopes {late}
-- what was handed out: registers_are_of_the_rows envelopes {late}
-- an earlier copy: what_is_decided_stays envelopes {late}
-- an earlier copy: rows_of_an_earlier_copy_stay envelopes {late}
UPDATE envelopes SET state = 'withdrawn', moment = {in_time} WHERE receipt = {late};
-- a contract that ended by default is shown as ended as agreed, and its security as returned
-- what was handed out: securities_are_as_shown performance {broken}
-- an earlier copy: what_is_decided_stays contracts {broken}
-- an earlier copy: what_is_decided_stays performance {broken}
-- the log of the clerks: bodies_say_what_was_done releases N8/5
UPDATE contracts SET how = 'regular' WHERE contract = {broken};
UPDATE performance SET state = 'returned' WHERE contract = {broken};
-- less was paid
-- earlier answers: saved_releases_stay notices N2
-- earlier answers: paid_never_falls lines 2000
-- what was handed out: contracts_are_as_shown contracts {running}
-- an earlier copy: rows_of_an_earlier_copy_stay entries {running}/P1
-- the log of the clerks: bodies_say_what_was_done releases N2/5
UPDATE entries SET amount = 90 WHERE contract = {running};
UPDATE releases SET text = replace(text, '"amount":100,', '"amount":90,') WHERE notice = 'N2';
UPDATE compiled SET text = replace(text, '"amount":100,', '"amount":90,') WHERE notice = 'N2';
-- a contract was changed for another reason
-- earlier answers: saved_releases_stay notices N1
-- what was handed out: contracts_are_as_shown contracts {contract}
-- an earlier copy: rows_of_an_earlier_copy_stay entries {contract}/A1
-- the log of the clerks: bodies_say_what_was_done releases N1/8
UPDATE entries SET rationale = 'Works' WHERE rationale = 'Kerbs';
UPDATE releases SET text = replace(text, 'Kerbs', 'Works') WHERE notice = 'N1';
UPDATE compiled SET text = replace(text, 'Kerbs', 'Works') WHERE notice = 'N1';
-- an opened tender has another price
-- earlier answers: saved_minutes_stay notices N2
-- what was handed out: receipts_are_of_the_rows envelopes {low}
-- an earlier copy: rows_of_an_earlier_copy_stay seals {low}
UPDATE seals SET bytes = CAST('item,quantity,unit,total
I1,3,0,0
I2,10,21,210
TOTAL,,,210
' AS BLOB) WHERE receipt = {low};
UPDATE envelopes SET digest = X'767a5ff7b0cb7b89c0657c9da59ffb68aca21e2617d12d6a600c85103f181fae', length = 59 WHERE receipt = {low};
UPDATE envelopes SET stated = 210, corrected = 210 WHERE receipt = {low};
-- a sealed tender has another content
-- what was handed out: receipts_are_of_the_rows envelopes {sealed}
-- an earlier copy: rows_of_an_earlier_copy_stay envelopes {sealed}
UPDATE seals SET bytes = CAST('item,quantity,unit,total
I1,3,9,27
I2,10,9,90
TOTAL,,,117
' AS BLOB) WHERE receipt = {sealed};
UPDATE envelopes SET digest = X'5fe8b5486f7ffbad63c4fb3a2bf3cb155ca4ee6c570ac0302fc1b5412bf89e5f', length = 58 WHERE receipt = {sealed};
-- a tenderer has another name
-- earlier answers: saved_releases_stay notices N1
-- earlier answers: saved_minutes_stay notices N1
-- an earlier copy: rows_of_an_earlier_copy_stay tenderers T4
-- the log of the clerks: bodies_say_what_was_done tenderers T4
UPDATE tenderers SET name = 'Firm A4' WHERE tenderer = 'T4';
UPDATE releases SET text = replace(text, 'Firm T4', 'Firm A4') WHERE notice = 'N1';
UPDATE compiled SET text = replace(text, 'Firm T4', 'Firm A4') WHERE notice = 'N1';
-- the deadline is later
-- earlier answers: saved_releases_stay notices N5
-- an earlier copy: rows_of_an_earlier_copy_stay releases N5/2
-- the log of the clerks: bodies_say_what_was_done releases N5/2
UPDATE notices_2 SET deadline = deadline + 90000 WHERE notice = 'N5';
UPDATE releases SET text = replace(text, '{moved}', '{further}') WHERE notice = 'N5';
UPDATE compiled SET text = replace(text, '{moved}', '{further}') WHERE notice = 'N5';
-- a tenderer has another key
-- an earlier copy: rows_of_an_earlier_copy_stay tenderers T1
-- the log of the clerks: bodies_say_what_was_done tenderers T1
UPDATE tenderers SET key = zeroblob(32) WHERE tenderer = 'T1';
-- a security has another reference
-- what was handed out: securities_are_as_shown securities {sealed}
-- an earlier copy: rows_of_an_earlier_copy_stay securities {sealed}
UPDATE securities SET reference = 'G0' WHERE security = {sealed};
-- the standstill is longer
-- earlier answers: saved_terms_stay notices N5
-- an earlier copy: rows_of_an_earlier_copy_stay notices N5
-- the log of the clerks: bodies_say_what_was_done releases N5/1
UPDATE notices_2 SET standstill = 5 WHERE notice = 'N5';
-- a performance security is required
-- earlier answers: saved_terms_stay notices N5
-- an earlier copy: rows_of_an_earlier_copy_stay notices N5
-- the log of the clerks: bodies_say_what_was_done releases N5/1
UPDATE notices_2 SET performance = 5 WHERE notice = 'N5';
-- tenders may be withdrawn after the deadline
-- earlier answers: saved_terms_stay notices N5
-- an earlier copy: nothing_is_put_in_behind late_rules N5
-- the log of the clerks: bodies_say_what_was_done releases N5/1
INSERT INTO late_rules VALUES ('N5');
-- a withdrawn tender had another content
-- what was handed out: receipts_are_of_the_rows envelopes {taken}
-- an earlier copy: rows_of_an_earlier_copy_stay envelopes {taken}
UPDATE envelopes SET digest = zeroblob(32) WHERE receipt = {taken};
-- a tender was found not responsive
-- earlier answers: saved_evaluations_stay notices N2
-- an earlier copy: what_is_decided_stays envelopes {low}
-- the log of the clerks: bodies_say_what_was_done envelopes {low}
UPDATE envelopes SET responsive = 0, quality = NULL WHERE receipt = {low};
-- a tender of an undecided lot was found not responsive
-- what was handed out: saved_evaluations_stay notices N6
-- an earlier copy: what_is_decided_stays envelopes {open}
-- the log of the clerks: bodies_say_what_was_done envelopes {open}
UPDATE envelopes SET responsive = 0 WHERE receipt = {open};
-- a budget file is added
-- an earlier copy: what_is_new_is_later batches B0
-- the log of the clerks: commands_have_a_line batches B0
INSERT INTO batches VALUES ('B0', (SELECT max(moment) FROM batches), 9);
-- a budget line has more money
-- an earlier copy: appropriations_come_from_batches lines 3000
-- the log of the clerks: budget_lines_come_from_the_files lines 3000
UPDATE lines SET appropriation = appropriation + 1, free = free + 1 WHERE line = '3000';
-- a budget line has another title
-- an earlier copy: appropriations_come_from_batches lines 3000
-- the log of the clerks: budget_lines_come_from_the_files lines 3000
UPDATE lines SET title = 'Woods' WHERE line = '3000';
-- a budget file was imported at another time
-- an earlier copy: rows_of_an_earlier_copy_stay batches B1
-- the log of the clerks: commands_have_a_line batches B1
UPDATE batches SET moment = moment - 100;
-- a lot requires another tender security
-- earlier answers: saved_terms_stay notices N5
-- an earlier copy: rows_of_an_earlier_copy_stay lots N5/L1
-- the log of the clerks: bodies_say_what_was_done releases N5/1
UPDATE lots SET security = 15 WHERE notice = 'N5';
-- a lot is on another budget line
-- earlier answers: saved_terms_stay notices N5
-- an earlier copy: rows_of_an_earlier_copy_stay lots N5/L1
-- the log of the clerks: bodies_say_what_was_done releases N5/1
UPDATE lots SET line = '2000' WHERE notice = 'N5';
UPDATE lines SET free = free + 900 WHERE line = '1000';
UPDATE lines SET free = free - 900 WHERE line = '2000';
-- a withdrawn tender is another tenderer's
-- what was handed out: securities_are_as_shown securities {taken}
-- an earlier copy: rows_of_an_earlier_copy_stay envelopes {taken}
UPDATE envelopes SET tenderer = 'T5' WHERE receipt = {taken};
UPDATE securities SET tenderer = 'T5' WHERE security = {taken};
-- the last tender is missing
-- what was handed out: receipts_are_of_the_rows envelopes {later}
-- what was handed out: registers_are_of_the_rows envelopes {later}
-- an earlier copy: rows_of_an_earlier_copy_stay envelopes {later}
-- an earlier copy: what_is_decided_stays office 2
DELETE FROM envelopes WHERE receipt = {later};
UPDATE office SET receipts = receipts - 1;
-- the last event is missing
-- earlier answers: saved_releases_stay notices N8
-- what was handed out: securities_are_as_shown performance {broken}
-- an earlier copy: rows_of_an_earlier_copy_stay releases N8/5
-- the log of the clerks: lines_have_a_command front /contracts/{broken}/end
UPDATE lines SET free = free - (SELECT released FROM contracts WHERE contract = {broken}) WHERE line = '1000';
UPDATE contracts SET ended = NULL, how = NULL, released = 0 WHERE contract = {broken};
UPDATE performance SET state = 'held' WHERE contract = {broken};
UPDATE notices_2 SET releases = 4 WHERE notice = 'N8';
DELETE FROM releases WHERE notice = 'N8' AND seq = 5;
UPDATE compiled SET text = replace(text, 'terminated', 'active') WHERE notice = 'N8';
-- No answer and no copy shows a change that a command could have made since then, or within the facts that it leaves open. The log shows a clerk's command.

-- a sealed tender was withdrawn before the deadline
UPDATE envelopes SET state = 'withdrawn' WHERE receipt = {sealed};
DELETE FROM seals WHERE receipt = {sealed};
UPDATE securities SET state = 'returned' WHERE security = {sealed};
-- a budget line has another title and more money, as if by a later budget file
-- the log of the clerks: commands_have_a_line batches B9
UPDATE lines SET title = 'Woods', appropriation = 8, free = 8 WHERE line = '3000';
INSERT INTO batches SELECT 'B9', moment, 1 FROM office;
-- a tenderer is added, registered after all witnesses
-- the log of the clerks: commands_have_a_line tenderers T9
INSERT INTO tenderers VALUES ('T9', 'Firm T9', 'T9 Street', zeroblob(32));
-- a contract is shown as ended by default, after all witnesses
-- the log of the clerks: commands_have_a_line releases N2/6
UPDATE contracts SET ended = (SELECT moment FROM office), how = 'default', released = 150 WHERE contract = {running};
UPDATE performance SET state = 'forfeited' WHERE contract = {running};
UPDATE lines SET free = free + 150 WHERE line = '2000';
UPDATE notices_2 SET releases = 6 WHERE notice = 'N2';
INSERT INTO releases SELECT 'N2', 6, moment,
    '{"buyer":{"id":"B-city","name":"City Office"},"contracts":[{"awardID":"{running}","id":"{running}","status":"terminated"}],"date":"' ||
    strftime('%Y-%m-%dT%H:%M:%SZ', moment, 'unixepoch') ||
    '","id":"ocds-a1b2c3-N2-0006","initiationType":"tender","language":"en","ocid":"ocds-a1b2c3-N2","tag":["contractTermination"]}' FROM office;
UPDATE compiled SET text = replace(text, ']},"status":"active","value"', ']},"status":"terminated","value"') WHERE notice = 'N2';
