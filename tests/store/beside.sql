-- Statements over a file of version 1, for test_versions.py: tables that other software may have in it, and obstacles to version 2.

-- tables of others
-- (Their foreign keys lead to one another and to tables that a migration leaves as they are. They have an index, a view and a trigger.)
CREATE TABLE audits (audit INTEGER PRIMARY KEY, title TEXT NOT NULL);
CREATE TABLE findings (audit INTEGER NOT NULL REFERENCES audits ON DELETE CASCADE, finding TEXT NOT NULL);
CREATE INDEX findings_of_audit ON findings (audit);
INSERT INTO audits VALUES (1, 'first'), (2, 'second');
INSERT INTO findings VALUES (1, 'none'), (2, 'late'), (2, 'paid twice');
CREATE TABLE owners (line TEXT NOT NULL REFERENCES lines ON DELETE CASCADE, owner TEXT NOT NULL);
INSERT INTO owners SELECT line, 'Ada' FROM lines;
CREATE VIEW late AS SELECT audit FROM findings WHERE finding = 'late';
CREATE TABLE notes (text TEXT NOT NULL);
INSERT INTO notes VALUES ('a');
CREATE TRIGGER noted AFTER INSERT ON notes BEGIN UPDATE notes SET text = 'seen'; END;
-- a foreign key to the notices
CREATE TABLE remarks (notice TEXT NOT NULL REFERENCES notices, remark TEXT NOT NULL);
INSERT INTO remarks SELECT notice, 'seen' FROM notices;
-- rows that would go with the notices
CREATE TABLE remarks (notice TEXT NOT NULL REFERENCES Notices ON DELETE CASCADE, remark TEXT NOT NULL);
INSERT INTO remarks SELECT notice, 'seen' FROM notices;
-- a column that would be emptied
CREATE TABLE remarks (notice TEXT REFERENCES notices ON DELETE SET NULL, remark TEXT NOT NULL);
INSERT INTO remarks SELECT notice, 'seen' FROM notices;
-- rows that would go with the version
CREATE TABLE remarks (version INTEGER REFERENCES office ON DELETE CASCADE);
INSERT INTO remarks VALUES (1);
-- a view of the notices
CREATE VIEW titles AS SELECT title FROM main.[Notices];
-- a trigger on the lots
CREATE TRIGGER seen AFTER UPDATE ON lots BEGIN SELECT 1; END;
-- no table of securities
DROP TABLE securities;
-- a column more in the seals
ALTER TABLE seals ADD COLUMN place TEXT;
-- a table of the name performance
CREATE TABLE performance (play TEXT NOT NULL);
INSERT INTO performance VALUES ('Hamlet');
-- a view of the name notices_2
CREATE VIEW notices_2 AS SELECT notice FROM notices;
-- an index of the name late_rules
CREATE TABLE rules (rule TEXT NOT NULL);
CREATE INDEX late_rules ON rules (rule);
-- a notice in a state that is none
PRAGMA ignore_check_constraints = ON;
UPDATE notices SET state = 'closed';
-- a clock past its last moment
PRAGMA ignore_check_constraints = ON;
UPDATE office SET moment = 4102444800;
-- a view of the name late_rules
CREATE VIEW late_rules AS SELECT line FROM lines;
-- an index of the name notices_2
CREATE INDEX notices_2 ON lots (title);
