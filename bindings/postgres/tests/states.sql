-- A worker's state of so many items for each of ten rows is too large to be handed on as it is: 16 MB and more. The column is
-- that of one process.
CREATE TABLE ten AS SELECT k FROM generate_series(0, 9) k;
ALTER TABLE ten SET (parallel_workers = 2);
SET parallel_setup_cost = 0;
SET parallel_tuple_cost = 0;
SET min_parallel_table_scan_size = 0;
SET max_parallel_workers_per_gather = 2;
SET parallel_leader_participation = off;
CREATE VIEW gathered AS
    SELECT flcol_agg(CASE WHEN i % 1000 = 7 THEN NULL ELSE i % 5000 - k END, 'for(bitpacked)') AS items
    FROM ten, LATERAL generate_series(1::bigint, :each + 0 * k) i;
EXPLAIN (COSTS OFF) SELECT * FROM gathered \g :plan
CREATE TABLE states AS SELECT * FROM gathered;
SET max_parallel_workers_per_gather = 0;
INSERT INTO states SELECT * FROM gathered;
SELECT 'columns that differ', count(DISTINCT items::bytea) - 1 FROM states;
SELECT 'items that are missing', flcol_len(items) - 10 * :each FROM states LIMIT 1;
