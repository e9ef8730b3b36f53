-- Loaded by ALTER EXTENSION flcol UPDATE, and behind those before it by CREATE EXTENSION flcol.
\echo Use "ALTER EXTENSION flcol UPDATE TO '1.4'" to load this file. \quit

CREATE FUNCTION flcol_where(items flcol, operator flcol_operator, constant bigint, bits flcol_bits) RETURNS flcol_bits
    AS 'MODULE_PATHNAME', 'sql_flcol_where' LANGUAGE C IMMUTABLE STRICT PARALLEL SAFE COST 100000;
COMMENT ON FUNCTION flcol_where(flcol, flcol_operator, bigint, flcol_bits) IS
    'whether bits are true for an item that is not null and compares so with a constant';

-- ---- Files of chunks as foreign tables ----

CREATE FUNCTION flcol_file_handler() RETURNS fdw_handler
    AS 'MODULE_PATHNAME', 'sql_flcol_file_handler' LANGUAGE C STRICT;
CREATE FUNCTION flcol_file_validator(text[], oid) RETURNS void
    AS 'MODULE_PATHNAME', 'sql_flcol_file_validator' LANGUAGE C STRICT;
CREATE FOREIGN DATA WRAPPER flcol_file HANDLER flcol_file_handler VALIDATOR flcol_file_validator;
COMMENT ON FOREIGN DATA WRAPPER flcol_file IS 'tables of the items of files of chunks';
