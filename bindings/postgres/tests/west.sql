-- Chunks of a table: half are kept here, half on the other server, by two connections.
CREATE EXTENSION flcol;
CREATE EXTENSION postgres_fdw;
CREATE TABLE chunks (shard integer NOT NULL, chunk bigint NOT NULL, items flcol NOT NULL) PARTITION BY LIST (shard);
CREATE TABLE chunks_0 PARTITION OF chunks FOR VALUES IN (0) WITH (fillfactor = 10, parallel_workers = 2);
CREATE TABLE chunks_1 PARTITION OF chunks FOR VALUES IN (1) WITH (fillfactor = 10, parallel_workers = 2);
CREATE SERVER east_1 FOREIGN DATA WRAPPER postgres_fdw
    OPTIONS (host :'east', dbname 'postgres', extensions 'flcol', async_capable 'true', fdw_tuple_cost '100');
CREATE SERVER east_2 FOREIGN DATA WRAPPER postgres_fdw
    OPTIONS (host :'east', dbname 'postgres', extensions 'flcol', async_capable 'true', fdw_tuple_cost '100');
CREATE USER MAPPING FOR CURRENT_USER SERVER east_1;
CREATE USER MAPPING FOR CURRENT_USER SERVER east_2;
CREATE FOREIGN TABLE chunks_2 PARTITION OF chunks FOR VALUES IN (2) SERVER east_1;
CREATE FOREIGN TABLE chunks_3 PARTITION OF chunks FOR VALUES IN (3) SERVER east_2;

CREATE UNLOGGED TABLE plain (x bigint);
INSERT INTO plain SELECT i * 7919 % 1000 FROM generate_series(0::bigint, :chunks * :items - 1) i;
INSERT INTO chunks
    SELECT chunk % 4, chunk, column_of
    FROM generate_series(0, :chunks - 1) chunk,
        LATERAL (SELECT flcol_agg(i * 7919 % 1000) AS column_of
                 FROM generate_series(chunk * :items::bigint, (chunk + 1) * :items::bigint - 1) i) made;

-- 40 chunks of a thousand rising items, with the least and the greatest of each.
CREATE TABLE ranged (shard integer NOT NULL, chunk bigint NOT NULL, items flcol NOT NULL,
    least bigint GENERATED ALWAYS AS (flcol_min(items)) STORED,
    greatest bigint GENERATED ALWAYS AS (flcol_max(items)) STORED) PARTITION BY LIST (shard);
CREATE TABLE ranged_0 PARTITION OF ranged FOR VALUES IN (0);
CREATE INDEX ON ranged_0 (least, greatest);
CREATE FOREIGN TABLE ranged_1 PARTITION OF ranged FOR VALUES IN (1) SERVER east_1;
INSERT INTO ranged
    SELECT id / 20000, id / 1000, flcol_agg(id ORDER BY id) FROM generate_series(0::bigint, 39999) id GROUP BY id / 20000, id / 1000;

-- A column of two files, of which the second one is on the other server.
\set filename :data '/west'
CREATE SERVER files FOREIGN DATA WRAPPER flcol_file;
CREATE TABLE spread (idx bigint, value bigint) PARTITION BY RANGE (idx);
CREATE FOREIGN TABLE spread_0 PARTITION OF spread FOR VALUES FROM (0) TO (20000) SERVER files OPTIONS (filename :'filename');
CREATE FOREIGN TABLE spread_1 PARTITION OF spread FOR VALUES FROM (20000) TO (40000) SERVER east_1;

ANALYZE ranged;
ANALYZE chunks;
ANALYZE plain;
