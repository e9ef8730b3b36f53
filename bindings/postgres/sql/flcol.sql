-- The functions of a column, and columns of rows.
CREATE EXTENSION flcol;

-- 1, 2 and 3, of docs/CONTAINER.md, and the same integers with a null, as differences to 100.
\set packed '\'\\x464c433113666173746c616e65732e6269747061636b65640203000000000000000200000008020100010000000000000100000002000000030000000000000000000000000000000000000000000000000000000000000000000000000000000000000000000000000000000000000000000000000000000000000000000000000000000000000000000000000000000000000000000000000000000000000000000000000000000000000000000000000000000000000000000000000000000000000000000000000000000000000000000000000000000000000000000000000000000000000000000000000000000000000000000000000000000000000000000000000000000000000000000000000000000000000000000000000000000000000000000000000000000000000000\''
\set framed '\'\\x464c43310d666173746c616e65732e666f721204000000000000000200000020640001590100000000000013666173746c616e65732e6269747061636b6564120400000000000000020000000802010001000000000000010000000200000003000000000000000000000000000000000000000000000000000000000000000000000000000000000000000000000000000000000000000000000000000000000000000000000000000000000000000000000000000000000000000000000000000000000000000000000000000000000000000000000000000000000000000000000000000000000000000000000000000000000000000000000000000000000000000000000000000000000000000000000000000000000000000000000000000000000000000000000000000000000000000000000000000000000000000000000000000000000000000000000000000000000000000124000000000000000b766f727465782e626f6f6c080400000000000000000000000101000000000000000700\''

SELECT flcol_len(:packed), flcol_len(:framed);
SELECT flcol_unnest(:packed);
SELECT item, number FROM flcol_unnest(:framed) WITH ORDINALITY AS each(item, number);
SELECT index, flcol_get(:framed, index) FROM generate_series(0, 3) index;
SELECT flcol_inspect(:packed);
SELECT split_part(flcol_inspect(flcol_slice(:framed, 1, 3)), ',', 1) AS part;
SELECT flcol_unnest(flcol_slice(:framed, 1, 4));
SELECT flcol_len(flcol_slice(:packed, 3, 3));

-- Counting: no null is counted, and a constant need not be of the column's type.
SELECT operator, constant, flcol_count(:framed, operator, constant)
FROM unnest(enum_range(NULL::flcol_operator)) operator, unnest('{102,-1,9223372036854775807}'::bigint[]) constant;
SELECT flcol_count_between(:framed, 102, 103), flcol_count_between(:framed, -5, 101), flcol_count_between(:framed, 103, 102),
       flcol_count_between(:framed, -9223372036854775808, 9223372036854775807);

SELECT flcol_between(:framed, 102, 103) AS "by its old name", flcol_between(:framed, -5, 101) AS "the same";

-- What all items say. A sum has no end, and items that are null have none.
SELECT flcol_sum(:framed), flcol_avg(:framed), flcol_min(:framed), flcol_max(:framed), flcol_nulls(:framed);
SELECT flcol_sum(items), flcol_avg(items), flcol_min(items), flcol_max(items)
FROM (SELECT flcol_agg(x) AS items FROM (VALUES (9223372036854775807), (9223372036854775807), (NULL), (-5)) each(x)) made;
SELECT flcol_sum(flcol_agg(x)), flcol_min(flcol_agg(x)) FROM (VALUES (-9223372036854775808), (-9223372036854775808)) each(x);
SELECT flcol_sum(items), flcol_avg(items), flcol_min(items), flcol_max(items), flcol_nulls(items)
FROM (SELECT flcol_agg(NULL::bigint) AS items FROM generate_series(1, 70000)) made;
SELECT flcol_sum(flcol_slice(:packed, 1, 1)) AS "of none";

-- Bits: the answers of a test, joined and turned by SQL's logic, counted, and as a mask.
SELECT operator, constant, flcol_count(flcol_where(:framed, operator, constant)) AS met, flcol_count(!flcol_where(:framed, operator, constant)) AS "not"
FROM unnest(enum_range(NULL::flcol_operator)) operator, unnest('{102,-1}'::bigint[]) constant;
SELECT flcol_count(low & high) AS "both", flcol_count(low | high) AS "one", flcol_count(!low & !high) AS "none",
       flcol_count(listed) AS "listed", flcol_count(!listed) AS "unlisted"
FROM (SELECT flcol_where(:framed, '<=', 101) AS low, flcol_where(:framed, '>=', 101) AS high, flcol_is_in(:framed, '{103,7,9223372036854775807}') AS listed) each;
SELECT flcol_sum(:framed, bits), flcol_avg(:framed, bits), flcol_min(:framed, bits), flcol_max(:framed, bits)
FROM (VALUES (flcol_where(:framed, '>', 101)), (flcol_where(:framed, '<', 0)), (flcol_is_in(:framed, '{}'))) each(bits);
SELECT bits::text::flcol_bits::bytea = bits::bytea AS "the same", flcol_count(bits::bytea::flcol_bits) FROM (SELECT flcol_where(:packed, '>', 1) AS bits) each;
-- Under bits no answer is null: it is false where the bits are not true, and at a null.
SELECT operator, flcol_count(under) AS met, flcol_count(!under) AS "not", flcol_sum(:framed, under)
FROM unnest('{>,<=,<>}'::flcol_operator[]) operator, LATERAL (SELECT flcol_where(:framed, operator, 102, flcol_where(:framed, '>', 101)) AS under) made;

-- A null is passed on.
SELECT flcol_len(NULL), flcol_get(NULL, 0), flcol_get(:packed, NULL), flcol_count(:packed, NULL, 1),
       flcol_slice(NULL, 0, 1), flcol_count_between(:packed, 1, NULL), flcol_inspect(NULL), flcol_sum(NULL), flcol_max(NULL);
SELECT flcol_unnest(NULL);
SELECT flcol_where(NULL, '<', 1), flcol_where(:packed, '<', NULL), flcol_where(:packed, '<', 1, NULL) AS "no bits", flcol_is_in(:packed, NULL), flcol_sum(:packed, NULL), flcol_count(NULL::flcol_bits), !NULL::flcol_bits, NULL & flcol_where(:packed, '<', 1);

-- What is written as text or as bytes is read as the same.
CREATE TABLE kept (items flcol);
INSERT INTO kept VALUES (:packed), (:framed), (NULL);
SELECT items::text = :packed, items::bytea = :packed::bytea, items::bytea::flcol::text = items::text FROM kept;
COPY kept TO '/dev/null' (FORMAT binary);

-- Columns of rows, in their order; a group without rows has none.
CREATE TABLE plain (i integer, x bigint);
INSERT INTO plain SELECT i, CASE WHEN i % 10 = 3 THEN NULL ELSE i * i END FROM generate_series(0, 1999) i;
SELECT count(*), count(*) FILTER (WHERE x IS DISTINCT FROM item)
FROM plain JOIN flcol_unnest((SELECT flcol_agg(x ORDER BY i) FROM plain)) WITH ORDINALITY AS each(item, number) ON number = i + 1;
SELECT flcol_agg(x) FROM plain WHERE i < 0;
SELECT i % 3 AS third, flcol_len(flcol_agg(x)) FROM plain GROUP BY third ORDER BY third;
SELECT flcol_unnest(flcol_agg(x)) FROM (VALUES (1::smallint), (NULL), (-32768)) each(x);
SELECT split_part(flcol_inspect(flcol_agg(i::smallint)), ' ', 1), split_part(flcol_inspect(flcol_agg(i)), ' ', 1),
       split_part(flcol_inspect(flcol_agg(x)), ' ', 1) FROM plain;

-- A scheme by its name.
SELECT split_part(flcol_inspect(flcol_agg(i, 'for(bitpacked)')), ',', 1) AS made FROM generate_series(100, 1123) i;
SELECT scheme, flcol_len(column_of), flcol_count(column_of, '<', 500), flcol_get(column_of, 1500)
FROM (SELECT scheme, flcol_agg(i, scheme ORDER BY i) AS column_of
      FROM generate_series(0, 1999) i, unnest('{primitive,delta,for(blocked),"rle(for(bitpacked),bitpacked,_)"}'::text[]) scheme
      GROUP BY scheme) each
ORDER BY scheme COLLATE "C";

-- Parallel workers hand their states on.
SET parallel_setup_cost = 0;
SET min_parallel_table_scan_size = 0;
SET max_parallel_workers_per_gather = 2;
ALTER TABLE plain SET (parallel_workers = 2);
EXPLAIN (COSTS OFF) SELECT flcol_agg(x) FROM plain;
SELECT flcol_len(column_of), flcol_count(column_of, '<', 1000), flcol_count_between(column_of, 0, 9223372036854775807)
FROM (SELECT flcol_agg(x) AS column_of FROM plain) each;
SELECT sum(item) = (SELECT sum(x) FROM plain) FROM flcol_unnest((SELECT flcol_agg(x, 'for(bitpacked)') FROM plain)) item;
SELECT sum(flcol_len(column_of)) FROM (SELECT i % 7, flcol_agg(i) AS column_of FROM plain GROUP BY 1) each;

DROP EXTENSION flcol CASCADE;
