-- The trials of tests/store/test_broken.py that the table of references doesn't make. The comment before a script has a command, or two with `and` between, the
-- missing or wrong rows, and the refusal that reports them, besides `Unavailable`. After a script with "may be accepted" or "is made anew" the command may be
-- accepted. office_kit/store/broken_trials.py has the commands and fills the names in braces.

-- import: its line: NoSuch line
DELETE FROM lines WHERE line = '1000';
-- import: an appropriation below the cut: InsufficientFunds
UPDATE lines SET appropriation = 100 WHERE line = '1000';
-- import, adding: more free than a line may have: LimitReached
UPDATE lines SET free = 1000000000000000 WHERE line = '1000';
-- publish: the first lot's line: NoSuch line
DELETE FROM lines WHERE line = '1000';
-- publish: the other lot's line: NoSuch line
DELETE FROM lines WHERE line = '2000';
-- cancel: its notice: NoSuch notice
DELETE FROM notices_2 WHERE notice = 'R';
-- cancel: its lots: NothingToCancel
DELETE FROM lots WHERE notice = 'R' AND lot = 'L1';
DELETE FROM lots WHERE notice = 'R' AND lot = 'L2';
-- cancel: one of its lots: may be accepted
DELETE FROM lots WHERE notice = 'R' AND lot = 'L1';
-- cancel: a lot's line
DELETE FROM lines WHERE line = '2000';
-- cancel: a tender's security: may be accepted
DELETE FROM securities WHERE security = {R1};
-- cancel: more reserved than there
UPDATE lots SET reserved = 1000000 WHERE notice = 'R' AND lot = 'L1';
-- cancel, awarded: its award: may be accepted
DELETE FROM awards WHERE award = {awarded};
-- cancel, awarded: its lot: NothingToCancel
DELETE FROM lots WHERE notice = 'W' AND lot = 'L1';
-- cancel, awarded: the winner's security: may be accepted
DELETE FROM securities WHERE security = {W1};
-- present: the tenderer: BadKey
DELETE FROM tenderers WHERE tenderer = 'T3';
-- open: a tender's bytes
DELETE FROM seals WHERE receipt = {F1};
-- modify and withdraw: its bytes
DELETE FROM seals WHERE receipt = {R1};
-- withdraw, late: what its notice says of it: DeadlinePassed
DELETE FROM late_rules WHERE notice = 'F';
-- withdraw, opened: what its notice says of it: DeadlinePassed
DELETE FROM late_rules WHERE notice = 'E';
-- award: the winner
DELETE FROM tenderers WHERE tenderer = 'T1';
-- award: more reserved than there
UPDATE lots SET reserved = 1000000 WHERE notice = 'A' AND lot = 'L1';
-- award, to nobody: a tender's security: may be accepted
DELETE FROM securities WHERE security = {A3};
-- award, to nobody: more reserved than there
UPDATE lots SET reserved = 1000000 WHERE notice = 'A' AND lot = 'L2';
-- sign: an award at another price than its lot reserves
UPDATE awards SET price = price + 1 WHERE award = {awarded};
-- raise and end: more paid than signed
UPDATE entries SET amount = 100000 WHERE contract = {contract} AND entry = 'P1';
-- cut and pay: more paid than signed: MoreThanOutstanding
UPDATE entries SET amount = 100000 WHERE contract = {contract} AND entry = 'P1';
-- cut and end: all of its line free
UPDATE lines SET free = appropriation;
-- end: its performance security
DELETE FROM performance WHERE contract = {contract};
-- A publication compares the numbers of all releases with the notice's count. It continues from their merge, or from all releases if the merge isn't kept.
-- It reads only texts as the office writes them.

-- each publication: all releases
DELETE FROM releases WHERE notice = '{notice}';
-- each publication: all releases and the merge
DELETE FROM releases WHERE notice = '{notice}';
DELETE FROM compiled WHERE notice = '{notice}';
-- each publication: the merge: is made anew
DELETE FROM compiled WHERE notice = '{notice}';
-- each publication: the merge that isn't JSON
UPDATE compiled SET text = '{' WHERE notice = '{notice}';
-- each publication: the merge that is no object
UPDATE compiled SET text = '[]' WHERE notice = '{notice}';
-- each publication: the merge with a blank
UPDATE compiled SET text = '{ ' || substr(text, 2) WHERE notice = '{notice}';
-- each publication: the merge with a float
UPDATE compiled SET text = '{"a":1.5,' || substr(text, 2) WHERE notice = '{notice}';
-- each publication: the merge with a name out of order
UPDATE compiled SET text = '{"z":1,' || substr(text, 2) WHERE notice = '{notice}';
-- each publication: the merge with a name twice
UPDATE compiled SET text = '{"a":1,"a":1,' || substr(text, 2) WHERE notice = '{notice}';
-- each publication: the merge, and a release that is no object
DELETE FROM compiled WHERE notice = '{notice}';
UPDATE releases SET text = '[]' WHERE notice = '{notice}' AND seq = 1;
-- each publication: the merge, and a release with a blank
DELETE FROM compiled WHERE notice = '{notice}';
UPDATE releases SET text = text || ' ' WHERE notice = '{notice}' AND seq = 1;
-- each publication: a release with the next number is there
INSERT INTO releases SELECT notice, seq + 1, moment, text FROM releases WHERE notice = '{notice}' ORDER BY seq DESC LIMIT 1;
-- each publication: a release with a later number is there
INSERT INTO releases SELECT notice, seq + 5, moment, text FROM releases WHERE notice = '{notice}' ORDER BY seq DESC LIMIT 1;
-- A notice with more than two releases.

-- fail and pay: a release in the middle
DELETE FROM releases WHERE notice = '{notice}' AND seq = 2;
-- fail and pay: the last release
DELETE FROM releases WHERE notice = '{notice}' AND seq = (SELECT max(seq) FROM releases WHERE notice = '{notice}');
-- fail and pay: a release in the middle and the merge
DELETE FROM releases WHERE notice = '{notice}' AND seq = 2;
DELETE FROM compiled WHERE notice = '{notice}';
-- fail and pay: the last release and the merge
DELETE FROM releases WHERE notice = '{notice}' AND seq = (SELECT max(seq) FROM releases WHERE notice = '{notice}');
DELETE FROM compiled WHERE notice = '{notice}';
