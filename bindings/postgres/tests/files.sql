-- Random files as foreign tables beside the plain table of their items, and hostile files: each line is how many differ, 0. :data
-- is the folder of the files.
CREATE SERVER files FOREIGN DATA WRAPPER flcol_file;
CREATE FUNCTION table_of(name text, options text) RETURNS void LANGUAGE plpgsql AS $$
BEGIN
    EXECUTE format('CREATE FOREIGN TABLE %I (idx bigint, value bigint) SERVER files OPTIONS (%s)', name, options);
END $$;
SELECT table_of('file_' || k, format('filename %L', :'data' || '/file_' || k)) FROM generate_series(0, :files - 1) k \g /dev/null

-- How many rows of a file and of the plain table differ where a condition holds.
CREATE FUNCTION differing(k integer, condition text) RETURNS bigint LANGUAGE plpgsql AS $$
DECLARE
    differing bigint;
    found text := format('SELECT idx, value FROM file_%s WHERE %s', k, condition);
    plain text := format('SELECT idx, value FROM filed WHERE k = %s AND (%s)', k, condition);
BEGIN
    EXECUTE format('SELECT count(*) FROM ((%1$s EXCEPT ALL %2$s) UNION ALL (%2$s EXCEPT ALL %1$s)) either', found, plain) INTO differing;
    RETURN differing;
END $$;
CREATE TABLE ends AS
    SELECT k, coalesce(min(value), 0) AS least, coalesce(max(value), 0) AS greatest, coalesce((array_agg(value) FILTER (WHERE value IS NOT NULL))[3], 7) AS one,
        count(idx) AS items
    FROM generate_series(0, :files - 1) k LEFT JOIN filed USING (k) GROUP BY k;
CREATE TABLE constants_of_files AS
    SELECT k, c FROM ends, unnest(ARRAY[least, greatest, one, -1, 0, -9223372036854775808, 9223372036854775807]) c;
SELECT 'values', sum(differing(k, format('value %s %L', o, c))) FROM constants_of_files, unnest('{=,<>,<,<=,>,>=}'::text[]) o;
SELECT 'values on the right', sum(differing(k, format('%L::bigint %s value', c, o))) FROM constants_of_files, unnest('{=,<,>=}'::text[]) o;
SELECT 'indices', sum(differing(k, format('idx %s %s', o, c)))
FROM ends, unnest(ARRAY[-1, 0, 3, items / 2, items - 1, items, -9223372036854775808, 9223372036854775807]) c, unnest('{=,<,<=,>,>=}'::text[]) o;
SELECT 'other conditions', sum(differing(k, replace(condition, 'ONE', format('(%s)::bigint', one))))
FROM ends, unnest(ARRAY['true', 'value IS NULL', 'value IS NOT NULL', 'value BETWEEN ONE - 5 AND ONE + 5', 'value BETWEEN 5 AND 3', 'value IN (ONE, 7)',
    'value = ONE OR idx = 3', 'idx BETWEEN 3 AND 1040', 'value > ONE::numeric', 'value < 3::smallint', '5 >= value', 'value = NULL::bigint', 'value = idx',
    'value = (SELECT ONE)', 'idx = (SELECT 3) AND value IS NOT NULL', 'NOT value < ONE', 'value + 0 < ONE', 'idx > 3 AND idx < 3']) condition;

-- The statistics are those of the chunks.
SELECT table_of('verified_' || k, format('filename %L, verify %L', :'data' || '/file_' || k, 'on')) FROM generate_series(0, :files - 1) k \g /dev/null
CREATE FUNCTION rows_of(name text) RETURNS bigint LANGUAGE plpgsql AS $$
DECLARE
    answer bigint;
BEGIN
    EXECUTE format('SELECT count(*) FROM %I', name) INTO answer;
    RETURN answer;
END $$;
SELECT 'files that are not verified', count(*) FROM ends WHERE rows_of('verified_' || k) <> items;

-- The value of a condition is told when the scan begins, anew each time. The last of the 20 chunks can't be read.
SELECT table_of('rising', format('filename %L', :'data' || '/east')) \g /dev/null
SELECT 'scans that begin again', count(*)
FROM unnest('{20005,21500,38999,0,NULL}'::bigint[]) c, LATERAL (SELECT count(*) FROM rising WHERE value < c) met
WHERE count <> greatest(c - 20000, 0);
PREPARE below(bigint) AS SELECT 'prepared', count(*) - $1 FROM rising WHERE value < 20000 + $1;
SET plan_cache_mode = force_generic_plan;
EXECUTE below(5);
EXECUTE below(18999);
RESET plan_cache_mode;

-- A map is given back where a statement ends in whatever way.
CREATE FUNCTION maps() RETURNS bigint LANGUAGE sql AS $$
    SELECT count(*) FROM regexp_split_to_table(pg_read_file('/proc/' || pg_backend_pid() || '/maps'), E'\\n') line WHERE line LIKE '%/east' $$;
BEGIN;
DECLARE each SCROLL CURSOR FOR SELECT value FROM rising WHERE value > 20010 AND idx < 15;
MOVE ALL IN each;
MOVE ABSOLUTE 0 IN each;
FETCH 2 FROM each \g /dev/null
SELECT 'maps that are not there', 1 - maps();
COMMIT;
SELECT count(*) FROM rising WHERE value < 20005 \g /dev/null
SELECT * FROM rising LIMIT 1 \g /dev/null
DO $$ BEGIN PERFORM sum(value) FROM rising; EXCEPTION WHEN invalid_binary_representation THEN NULL; END $$;
SELECT 'maps that stay', maps();

-- Workers share the chunks of a file, anew each time, and their leader verifies it.
SELECT table_of('many', format('filename %L', :'data' || '/many')), table_of('many_verified', format('filename %L, verify %L', :'data' || '/many', 'on')),
    table_of('endless', format('filename %L', :'data' || '/endless')) \g /dev/null
SET parallel_setup_cost = 0;
SET parallel_tuple_cost = 0;
SET min_parallel_table_scan_size = 0;
SET max_parallel_workers_per_gather = 2;
EXPLAIN (ANALYZE, COSTS OFF) SELECT count(*) FROM many WHERE value >= 10 \g :plan
SELECT 'items of workers', count(*) - 3000000, sum(value) - 73500000, count(DISTINCT idx) - 3000000 FROM many WHERE value >= 10;
SET parallel_leader_participation = off;
SELECT 'items of workers alone', count(*) - 3000000 FROM many_verified WHERE value >= 10;
SET enable_material = off;
SELECT 'items of workers again', count(*) - 3 FROM (VALUES (1), (2), (300001)) each(x) JOIN (SELECT count(*) FROM many WHERE value < 3) met ON count <> x;
RESET ALL;

-- What strangers make of files: refused by the names of their refusals, and changed ones perhaps answered.
SELECT table_of('stranger', format('filename %L, verify %L', 'stranger', 'on')) \g /dev/null
CREATE FUNCTION exported(bytes bytea, name text) RETURNS void LANGUAGE plpgsql AS $$
DECLARE
    kept oid := lo_from_bytea(0, bytes);
BEGIN
    PERFORM lo_export(kept, name), lo_unlink(kept);
END $$;
CREATE FUNCTION tried_file(bytes bytea) RETURNS text LANGUAGE plpgsql AS $$
BEGIN
    PERFORM exported(bytes, 'stranger');
    PERFORM count(*), sum(value) FROM stranger WHERE value IS NULL OR value < 5;
    PERFORM count(*) FROM stranger WHERE value = 3 AND idx < 100;
    RETURN 'answered';
EXCEPTION WHEN OTHERS THEN
    RETURN SQLSTATE || ' ' || SQLERRM;
END $$;
CREATE TABLE tried_files AS SELECT name, refusal, tried_file(bytes) AS answer FROM hostile_files;
SELECT 'hostile files', count(*) FROM tried_files WHERE name <> 'changed' AND name NOT LIKE 'chunks%' AND answer !~ format('^(22P03|54000) flcol: %s: .+$', refusal);
SELECT 'hostile chunks', count(*) FROM tried_files WHERE name LIKE 'chunks%' AND answer !~ '^(22P03|54000) flcol: [A-Z][A-Za-z]+: .+$';
SELECT 'changed files', count(*) FROM tried_files WHERE name = 'changed' AND answer <> 'answered' AND answer !~ '^(22P03|54000|53200) flcol: [A-Z][A-Za-z]+: .+$';
SELECT 'all files were tried', count(*) - (SELECT count(*) FROM hostile_files) FROM tried_files;

-- A file that is cut while it is read is refused before the next chunk.
SELECT exported(pg_read_binary_file(:'data' || '/east'), 'cut'), table_of('cut', format('filename %L', 'cut')) \g /dev/null
CREATE FUNCTION read_while_cut() RETURNS text LANGUAGE plpgsql AS $$
DECLARE
    each CURSOR FOR SELECT value FROM cut;
    item bigint;
BEGIN
    OPEN each;
    FETCH each INTO item;
    PERFORM exported('\x00', 'cut');
    WHILE FOUND LOOP FETCH each INTO item; END LOOP;
    RETURN 'answered';
EXCEPTION WHEN OTHERS THEN
    RETURN SQLSTATE || ' ' || SQLERRM;
END $$;
SELECT 'a file that is cut', count(*) FROM read_while_cut() said WHERE said !~ '^22P03 flcol: FileTooShort: ';
