-- The other server's half of the chunks.
CREATE EXTENSION flcol;
CREATE TABLE chunks_2 (shard integer NOT NULL, chunk bigint NOT NULL, items flcol NOT NULL);
CREATE TABLE chunks_3 (LIKE chunks_2);

-- Chunks whose least and greatest item this server keeps beside each.
CREATE TABLE ranged_1 (shard integer NOT NULL, chunk bigint NOT NULL, items flcol NOT NULL,
    least bigint GENERATED ALWAYS AS (flcol_min(items)) STORED,
    greatest bigint GENERATED ALWAYS AS (flcol_max(items)) STORED);
CREATE INDEX ON ranged_1 (least, greatest);

-- The second half of a column, as a file.
\set filename :data '/east'
CREATE SERVER files FOREIGN DATA WRAPPER flcol_file;
CREATE FOREIGN TABLE spread_1 (idx bigint, value bigint) SERVER files OPTIONS (filename :'filename', first '20000');
