-- Views of a standby's durable store, for people: what is applied, which tables it has, and their rows.
--
--     $ sqlite3 standby.db
--     sqlite> .read tools/standby.sql
--     sqlite> SELECT * FROM applied;
--     sqlite> SELECT printed FROM table_rows WHERE schema = 'HR' AND name = 'EMP';
--
-- They live in the shell's own session: the file is not written, and no table is copied, since a row is decoded as it is shown.
-- While a program has the file open, SQLite answers that the database is locked. The layout is in docs/FORMATS.md, "The durable
-- store".

-- Two hexadecimal digits and the number of their byte: SQLite has no function from bytes to a number.
CREATE TEMP TABLE byte_values (digits TEXT PRIMARY KEY, number INTEGER);
WITH RECURSIVE bytes (number) AS (VALUES (0) UNION ALL SELECT number + 1 FROM bytes WHERE number < 255)
INSERT INTO byte_values SELECT printf('%02X', number), number FROM bytes;

-- How many commits are applied, and the SCN of the last of them.
CREATE TEMP VIEW applied AS
SELECT
    (SELECT sum(number << (56 - 8 * column1)) FROM (VALUES (0), (1), (2), (3), (4), (5), (6), (7))
        JOIN byte_values ON digits = hex(substr(value, 1 + column1, 1))) AS commits,
    (SELECT printf('%llu', sum(number << (56 - 8 * column1))) FROM (VALUES (0), (1), (2), (3), (4), (5), (6), (7))
        JOIN byte_values ON digits = hex(substr(value, 9 + column1, 1))) AS scn
FROM main.kept
WHERE area = 6 AND key = CAST('A' AS BLOB);

-- The tables of the dictionary, by the four bytes of their ids.
CREATE TEMP VIEW tables AS
SELECT key AS id,
    CAST(substr(value, 2, schema_length) AS TEXT) AS schema,
    CAST(substr(value, 3 + schema_length, name_length) AS TEXT) AS name
FROM (
    SELECT key, value, schema_length,
        (SELECT number FROM byte_values WHERE digits = hex(substr(value, 2 + schema_length, 1))) AS name_length
    FROM (
        SELECT key, value, (SELECT number FROM byte_values WHERE digits = hex(substr(value, 1, 1))) AS schema_length
        FROM main.kept
        WHERE area = 3));

-- The rows, printed as ROW lines are, without the word ROW. Those of a table are in the order of their keys' bytes, in which
-- negative numbers come behind positive ones.
CREATE TEMP VIEW table_rows AS
SELECT schema, name, (
    WITH RECURSIVE words (rest, printed) AS (
        SELECT kept.value, ''
        UNION ALL
        SELECT
            CASE hex(substr(rest, 1, 1))
                WHEN '00' THEN substr(rest, 2)
                WHEN '01' THEN substr(rest, 10)
                ELSE substr(rest, 4 + (SELECT sum(number << (8 - 8 * column1)) FROM (VALUES (0), (1))
                    JOIN byte_values ON digits = hex(substr(rest, 2 + column1, 1))))
            END,
            printed || ' ' || CASE hex(substr(rest, 1, 1))
                WHEN '00' THEN 'NULL'
                WHEN '01' THEN (SELECT sum(number << (56 - 8 * column1))
                    FROM (VALUES (0), (1), (2), (3), (4), (5), (6), (7))
                    JOIN byte_values ON digits = hex(substr(rest, 2 + column1, 1)))
                ELSE (
                    SELECT CASE
                        WHEN hex(substr(rest, 1, 1)) = '03' THEN 'X''' || hex(bytes) || ''''
                        WHEN instr(bytes, x'00') OR CAST(bytes AS TEXT) GLOB '*[' || char(1) || '-' || char(31, 127) || ']*'
                            THEN 'U''' || hex(bytes) || ''''
                        ELSE quote(CAST(bytes AS TEXT))
                    END
                    FROM (SELECT substr(rest, 4, (SELECT sum(number << (8 - 8 * column1)) FROM (VALUES (0), (1))
                        JOIN byte_values ON digits = hex(substr(rest, 2 + column1, 1)))) AS bytes))
            END
        FROM words
        WHERE length(rest) > 0)
    SELECT substr(printed, 2) FROM words WHERE length(rest) = 0) AS printed
FROM tables
CROSS JOIN main.kept AS kept ON kept.area = 5 AND kept.key >= id AND kept.key < CAST(id || x'FF' AS BLOB);
