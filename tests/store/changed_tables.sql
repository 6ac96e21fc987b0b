-- Changes of a table that is named, with one of its columns, for test_files.py: the program refuses a file with such a table.

-- is gone
DROP TABLE {table};
-- has another name
ALTER TABLE {table} RENAME TO others;
-- has a column more
ALTER TABLE {table} ADD COLUMN more TEXT;
-- has a condition more
PRAGMA writable_schema = ON;
UPDATE sqlite_master SET sql = replace(sql, ') STRICT', ', CHECK ({column} IS NOT 0)) STRICT') WHERE type = 'table' AND name = '{table}';
-- has a trigger
CREATE TRIGGER seen AFTER INSERT ON {table} BEGIN SELECT 1; END;
-- has a unique index
CREATE UNIQUE INDEX once ON {table} ({column});
