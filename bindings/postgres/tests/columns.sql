-- Random columns, in each scheme, beside the plain table of their items: each line is how many differ, 0.
CREATE TABLE schemes (scheme text);
INSERT INTO schemes VALUES (NULL), ('primitive'), ('for(bitpacked)'), ('for(blocked)'), ('forc(bitpacked,_)'), ('delta'),
    ('delta(_,for(bitpacked))'), ('rle(for(bitpacked),bitpacked,_)');
-- FoR refuses columns of nulls alone; and differences of 2^63 and more, which are negative in 64 bits, are not packed.
CREATE TABLE unpacked AS SELECT k FROM plain GROUP BY k HAVING count(x) = 0 OR max(x::numeric) - min(x) >= 2::numeric ^ 62;
CREATE TABLE columns AS
    SELECT k, scheme, flcol_agg(x, scheme ORDER BY i) AS items, array_agg(x ORDER BY i) AS plain
    FROM plain, schemes WHERE scheme IS NULL OR scheme NOT LIKE '%for%' OR k NOT IN (SELECT k FROM unpacked) GROUP BY k, scheme;
SELECT 'items', count(*) FROM columns WHERE ARRAY(SELECT flcol_unnest(items)) <> plain;
SELECT 'lengths', count(*) FROM columns WHERE flcol_len(items) <> cardinality(plain);

SELECT 'one item', count(*) FROM columns, generate_series(0, cardinality(plain) - 1, greatest(1, cardinality(plain) / 5)) i
WHERE flcol_get(items, i) IS DISTINCT FROM plain[i + 1];

SELECT 'slices', count(*)
FROM columns, LATERAL (VALUES (0, cardinality(plain)), (cardinality(plain) / 3, cardinality(plain) * 2 / 3), (1, 1)) range(a, b)
WHERE ARRAY(SELECT flcol_unnest(flcol_slice(items, a, b))) <> plain[a + 1 : b];

CREATE TABLE constants AS
    SELECT DISTINCT k, c FROM columns,
        unnest('{-9223372036854775808,-1,0,500,9223372036854775807}'::bigint[] || plain[1:2] || plain[5:5]) c
    WHERE c IS NOT NULL;
CREATE TABLE answers AS
    SELECT k, c, o, count(*) FILTER (WHERE CASE o WHEN '=' THEN x = c WHEN '<>' THEN x <> c WHEN '!=' THEN x <> c WHEN '<' THEN x < c
                                     WHEN '<=' THEN x <= c WHEN '>' THEN x > c WHEN '>=' THEN x >= c END) AS met
    FROM plain JOIN constants USING (k), unnest(enum_range(NULL::flcol_operator)) o GROUP BY k, c, o;
SELECT 'counts', count(*) FROM columns JOIN answers USING (k) WHERE flcol_count(items, o, c) <> met;

CREATE TABLE betweens AS
    SELECT k, a.c AS a, b.c AS b, count(*) FILTER (WHERE x BETWEEN a.c AND b.c) AS met
    FROM plain JOIN constants a USING (k) JOIN constants b USING (k) GROUP BY k, a.c, b.c;
SELECT 'between', count(*) FROM columns JOIN betweens USING (k) WHERE flcol_count_between(items, a, b) <> met;

CREATE TABLE totals AS
    SELECT k, sum(x) AS total, avg(x) AS mean, min(x) AS least, max(x) AS greatest, count(*) - count(x) AS nulls FROM plain GROUP BY k;
SELECT 'sums', count(*) FROM columns JOIN totals USING (k)
WHERE flcol_sum(items) IS DISTINCT FROM total OR flcol_avg(items) IS DISTINCT FROM mean;
SELECT 'extremes', count(*) FROM columns JOIN totals USING (k)
WHERE flcol_min(items) IS DISTINCT FROM least OR flcol_max(items) IS DISTINCT FROM greatest OR flcol_nulls(items) <> nulls;
SELECT 'slices', count(*)
FROM columns, LATERAL (VALUES (cardinality(plain) / 3, cardinality(plain) * 2 / 3), (1, 1)) range(a, b),
    LATERAL (SELECT sum(x) AS total, max(x) AS greatest FROM unnest(plain[a + 1 : b]) x) part
WHERE flcol_sum(flcol_slice(items, a, b)) IS DISTINCT FROM total OR flcol_max(flcol_slice(items, a, b)) IS DISTINCT FROM greatest;

SELECT 'bits', count(*) FROM columns JOIN answers USING (k) WHERE flcol_count(flcol_where(items, o, c)) <> met;
SELECT 'joined bits', count(*) FROM columns JOIN betweens USING (k) WHERE flcol_count(flcol_where(items, '>=', a) & flcol_where(items, '<=', b)) <> met;
CREATE TABLE outsides AS
    SELECT k, a.c AS a, b.c AS b, sum(x) FILTER (WHERE x < a.c OR x > b.c) AS total, avg(x) FILTER (WHERE x < a.c OR x > b.c) AS mean,
        min(x) FILTER (WHERE x < a.c OR x > b.c) AS least, max(x) FILTER (WHERE x < a.c OR x > b.c) AS greatest,
        sum(x) FILTER (WHERE x NOT IN (a.c, b.c)) AS others
    FROM plain JOIN constants a USING (k) JOIN constants b USING (k) GROUP BY k, a.c, b.c;
SELECT 'under bits', count(*)
FROM columns JOIN outsides USING (k), LATERAL (SELECT flcol_where(items, '<', a) | flcol_where(items, '>', b) AS bits) each
WHERE flcol_sum(items, bits) IS DISTINCT FROM total OR flcol_avg(items, bits) IS DISTINCT FROM mean
    OR flcol_min(items, bits) IS DISTINCT FROM least OR flcol_max(items, bits) IS DISTINCT FROM greatest
    OR flcol_sum(items, !flcol_is_in(items, ARRAY[a, b])) IS DISTINCT FROM others;
SELECT 'bits under bits', count(*)
FROM columns JOIN betweens USING (k), LATERAL (SELECT flcol_where(items, '<=', b, flcol_where(items, '>=', a)) AS under) each
WHERE flcol_count(under) <> met OR flcol_count(!under) <> flcol_len(items) - met;

-- Workers that each gather a part give the same items, in whatever order.
SET parallel_setup_cost = 0;
SET min_parallel_table_scan_size = 0;
ALTER TABLE plain SET (parallel_workers = 3);
SELECT 'by workers', count(*)
FROM (SELECT k, array_agg(x ORDER BY x) AS plain FROM plain GROUP BY k) one
    JOIN (SELECT k, flcol_agg(x) AS items FROM plain GROUP BY k) two USING (k)
WHERE ARRAY(SELECT item FROM flcol_unnest(items) item ORDER BY item) <> plain;
