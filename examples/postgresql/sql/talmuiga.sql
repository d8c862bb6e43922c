\getenv abs_srcdir PG_ABS_SRCDIR
\set tables :abs_srcdir '/../../tables/'
CREATE EXTENSION talmuiga;
-- without tables
SELECT number_format(5, 'de', 'currency/EUR');
SET talmuiga.tables = '/nowhere/tables.json';
SELECT number_format(5, 'de', 'currency/EUR');
SELECT set_config('talmuiga.tables', :'tables' || 'six_locales.json', false) LIKE '%six_locales.json' AS set;
-- numbers, money, percents
SELECT number_format(1234567.5, locale, 'currency/EUR') FROM unnest(ARRAY['en', 'de', 'fr', 'bn']) AS locale;
SELECT number_format(0.12345, 'de', '%x100 .0'), number_format(1234567.5, 'de', 'K currency/EUR'), number_format(12, 'de', '');
SELECT number_format(1650, 'en', 'compact-short'), number_format(-1650, 'de', 'compact-long @@@');
SELECT number_format(NULL, 'de', ''), number_format(1, NULL, ''), number_format(1, 'de', NULL);
-- the text of a numeric, as long as it is
SELECT number_format(-0.00, 'en', '.00'), number_format(1e20, 'en', ''), number_format(.5, 'en', '');
SELECT length(number_format(repeat('9', 30000)::numeric, 'en', ''));
SELECT number_format(1::smallint, 'en', ''), number_format(2::bigint, 'en', ''), number_format(0.1::float8::numeric, 'en', '');
-- what isn't a decimal, or has too many digits
SELECT number_format('NaN', 'en', '');
SELECT number_format('Infinity', 'en', '');
SELECT number_format('-Infinity', 'en', 'currency/EUR');
SELECT number_format(repeat('9', 40000)::numeric, 'en', '');
-- skeletons with a fault, and what the tables don't have
SELECT number_format(5, 'de', 'percent foo');
SELECT number_format(5, 'de', 'scientific');
SELECT number_format(5, 'de', 'currency/EURO');
SELECT number_format(5, 'de', repeat('0', 1000000));
SELECT number_format(5, 'de', repeat(' ', 1000000));
SELECT number_format(5, 'de', 'currency/XTS');
SELECT number_format(5, 'xx', '');
SELECT number_format(5, 'no locale', '');
SELECT number_format(5, '', '');
-- more formatters than are kept, twice
SELECT count(*) FROM generate_series(1, 100) AS i, generate_series(1, 2)
    WHERE length(number_format(7, 'de', 'group-off integer-width/*' || repeat('0', i))) = i;
-- other tables: what was kept is let go
SELECT set_config('talmuiga.tables', :'tables' || 'english.json', false) LIKE '%english.json' AS set;
SELECT number_format(1234.5, 'en', 'currency/USD');
SELECT number_format(1234.5, 'de', 'currency/EUR');
SELECT set_config('talmuiga.tables', :'tables' || 'hostile.json', false) LIKE '%hostile.json' AS set;
\set VERBOSITY sqlstate
SELECT number_format(5, 'en', '');
\set VERBOSITY default
SELECT set_config('talmuiga.tables', :'tables' || 'six_locales.json', false) LIKE '%six_locales.json' AS set;
-- others may format, but not choose the file
CREATE ROLE regress_talmuiga_reader;
SET ROLE regress_talmuiga_reader;
SELECT number_format(1234.5, 'de', 'currency/EUR');
SET talmuiga.tables = '/etc/passwd';
SET talmuiga.others = 1;
RESET ROLE;
DROP ROLE regress_talmuiga_reader;
-- in an index it isn't taken, since it is no more than stable
CREATE TABLE sales(price numeric);
CREATE INDEX ON sales (number_format(price, 'de', 'currency/EUR'));
-- a parallel query
INSERT INTO sales SELECT i / 100.0 FROM generate_series(1, 20000) AS i;
ANALYZE sales;
SET max_parallel_workers_per_gather = 2;
SET min_parallel_table_scan_size = 0;
SET parallel_setup_cost = 0;
SET parallel_tuple_cost = 0;
EXPLAIN (COSTS OFF) SELECT count(DISTINCT number_format(price, 'de', 'currency/EUR')) FROM sales WHERE number_format(price, 'de', '') <> '';
SELECT count(DISTINCT number_format(price, 'de', 'currency/EUR')) FROM sales WHERE number_format(price, 'de', '') <> '';
DROP TABLE sales;
DROP EXTENSION talmuiga;
