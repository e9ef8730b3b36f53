-- Loaded by CREATE EXTENSION flcol.
\echo Use "CREATE EXTENSION flcol" to load this file. \quit

-- ---- The type ----

CREATE TYPE flcol;

CREATE FUNCTION flcol_in(cstring) RETURNS flcol
    AS 'MODULE_PATHNAME', 'sql_flcol_in' LANGUAGE C IMMUTABLE STRICT PARALLEL SAFE;
CREATE FUNCTION flcol_out(flcol) RETURNS cstring
    AS 'MODULE_PATHNAME', 'sql_flcol_out' LANGUAGE C IMMUTABLE STRICT PARALLEL SAFE;
CREATE FUNCTION flcol_recv(internal) RETURNS flcol
    AS 'MODULE_PATHNAME', 'sql_flcol_recv' LANGUAGE C IMMUTABLE STRICT PARALLEL SAFE;
CREATE FUNCTION flcol_send(flcol) RETURNS bytea
    AS 'MODULE_PATHNAME', 'sql_flcol_send' LANGUAGE C IMMUTABLE STRICT PARALLEL SAFE;

-- Values are packed already: they are kept out of line as they are.
CREATE TYPE flcol (
    INPUT = flcol_in,
    OUTPUT = flcol_out,
    RECEIVE = flcol_recv,
    SEND = flcol_send,
    STORAGE = external
);
COMMENT ON TYPE flcol IS 'a column of nullable integers in light encodings';

CREATE FUNCTION flcol(bytea) RETURNS flcol
    AS 'MODULE_PATHNAME', 'sql_flcol_of_bytea' LANGUAGE C IMMUTABLE STRICT PARALLEL SAFE;
CREATE CAST (bytea AS flcol) WITH FUNCTION flcol(bytea);
CREATE CAST (flcol AS bytea) WITHOUT FUNCTION;

-- How an item compares with a constant. As a type of its own it can be sent to other servers, which texts can't.
CREATE TYPE flcol_operator AS ENUM ('=', '<>', '!=', '<', '<=', '>', '>=');

-- ---- Functions of a column: indices are from 0 on, costs are those of a million items ----

CREATE FUNCTION flcol_len(items flcol) RETURNS bigint
    AS 'MODULE_PATHNAME', 'sql_flcol_len' LANGUAGE C IMMUTABLE STRICT PARALLEL SAFE COST 10000;
COMMENT ON FUNCTION flcol_len(flcol) IS 'how many items there are';

CREATE FUNCTION flcol_get(items flcol, index bigint) RETURNS bigint
    AS 'MODULE_PATHNAME', 'sql_flcol_get' LANGUAGE C IMMUTABLE STRICT PARALLEL SAFE COST 10000;
COMMENT ON FUNCTION flcol_get(flcol, bigint) IS 'the item at an index';

CREATE FUNCTION flcol_slice(items flcol, "from" bigint, "to" bigint) RETURNS flcol
    AS 'MODULE_PATHNAME', 'sql_flcol_slice' LANGUAGE C IMMUTABLE STRICT PARALLEL SAFE COST 10000;
COMMENT ON FUNCTION flcol_slice(flcol, bigint, bigint) IS 'the items from an index to below another, in the same encodings';

CREATE FUNCTION flcol_count(items flcol, operator flcol_operator, constant bigint) RETURNS bigint
    AS 'MODULE_PATHNAME', 'sql_flcol_count' LANGUAGE C IMMUTABLE STRICT PARALLEL SAFE COST 100000;
COMMENT ON FUNCTION flcol_count(flcol, flcol_operator, bigint) IS 'how many items compare so with a constant';

CREATE FUNCTION flcol_between(items flcol, lower bigint, upper bigint) RETURNS bigint
    AS 'MODULE_PATHNAME', 'sql_flcol_between' LANGUAGE C IMMUTABLE STRICT PARALLEL SAFE COST 100000;
COMMENT ON FUNCTION flcol_between(flcol, bigint, bigint) IS 'how many items lie between two bounds, which belong to it';

CREATE FUNCTION flcol_inspect(items flcol) RETURNS text
    AS 'MODULE_PATHNAME', 'sql_flcol_inspect' LANGUAGE C IMMUTABLE STRICT PARALLEL SAFE COST 10000;
COMMENT ON FUNCTION flcol_inspect(flcol) IS 'the type, the scheme, the number of items and the bits that each takes';

CREATE FUNCTION flcol_unnest(items flcol) RETURNS SETOF bigint
    AS 'MODULE_PATHNAME', 'sql_flcol_unnest' LANGUAGE C IMMUTABLE STRICT PARALLEL SAFE COST 10000 ROWS 1000000;
COMMENT ON FUNCTION flcol_unnest(flcol) IS 'the items in their order';

-- ---- Columns of rows ----

CREATE FUNCTION flcol_finish(internal) RETURNS flcol
    AS 'MODULE_PATHNAME', 'sql_flcol_finish' LANGUAGE C IMMUTABLE PARALLEL SAFE COST 10000;
CREATE FUNCTION flcol_combine(internal, internal) RETURNS internal
    AS 'MODULE_PATHNAME', 'sql_flcol_combine' LANGUAGE C IMMUTABLE PARALLEL SAFE COST 100;
CREATE FUNCTION flcol_serialize(internal) RETURNS bytea
    AS 'MODULE_PATHNAME', 'sql_flcol_serialize' LANGUAGE C IMMUTABLE STRICT PARALLEL SAFE COST 100;
CREATE FUNCTION flcol_deserialize(bytea, internal) RETURNS internal
    AS 'MODULE_PATHNAME', 'sql_flcol_deserialize' LANGUAGE C IMMUTABLE STRICT PARALLEL SAFE COST 100;

CREATE FUNCTION flcol_add(internal, smallint) RETURNS internal
    AS 'MODULE_PATHNAME', 'sql_flcol_add_smallint' LANGUAGE C IMMUTABLE PARALLEL SAFE;
CREATE AGGREGATE flcol_agg(smallint) (
    SFUNC = flcol_add, STYPE = internal, FINALFUNC = flcol_finish,
    COMBINEFUNC = flcol_combine, SERIALFUNC = flcol_serialize, DESERIALFUNC = flcol_deserialize, PARALLEL = SAFE
);

CREATE FUNCTION flcol_add(internal, smallint, text) RETURNS internal
    AS 'MODULE_PATHNAME', 'sql_flcol_add_smallint' LANGUAGE C IMMUTABLE PARALLEL SAFE;
CREATE AGGREGATE flcol_agg(smallint, text) (
    SFUNC = flcol_add, STYPE = internal, FINALFUNC = flcol_finish,
    COMBINEFUNC = flcol_combine, SERIALFUNC = flcol_serialize, DESERIALFUNC = flcol_deserialize, PARALLEL = SAFE
);

CREATE FUNCTION flcol_add(internal, integer) RETURNS internal
    AS 'MODULE_PATHNAME', 'sql_flcol_add_integer' LANGUAGE C IMMUTABLE PARALLEL SAFE;
CREATE AGGREGATE flcol_agg(integer) (
    SFUNC = flcol_add, STYPE = internal, FINALFUNC = flcol_finish,
    COMBINEFUNC = flcol_combine, SERIALFUNC = flcol_serialize, DESERIALFUNC = flcol_deserialize, PARALLEL = SAFE
);

CREATE FUNCTION flcol_add(internal, integer, text) RETURNS internal
    AS 'MODULE_PATHNAME', 'sql_flcol_add_integer' LANGUAGE C IMMUTABLE PARALLEL SAFE;
CREATE AGGREGATE flcol_agg(integer, text) (
    SFUNC = flcol_add, STYPE = internal, FINALFUNC = flcol_finish,
    COMBINEFUNC = flcol_combine, SERIALFUNC = flcol_serialize, DESERIALFUNC = flcol_deserialize, PARALLEL = SAFE
);

CREATE FUNCTION flcol_add(internal, bigint) RETURNS internal
    AS 'MODULE_PATHNAME', 'sql_flcol_add_bigint' LANGUAGE C IMMUTABLE PARALLEL SAFE;
CREATE AGGREGATE flcol_agg(bigint) (
    SFUNC = flcol_add, STYPE = internal, FINALFUNC = flcol_finish,
    COMBINEFUNC = flcol_combine, SERIALFUNC = flcol_serialize, DESERIALFUNC = flcol_deserialize, PARALLEL = SAFE
);

CREATE FUNCTION flcol_add(internal, bigint, text) RETURNS internal
    AS 'MODULE_PATHNAME', 'sql_flcol_add_bigint' LANGUAGE C IMMUTABLE PARALLEL SAFE;
CREATE AGGREGATE flcol_agg(bigint, text) (
    SFUNC = flcol_add, STYPE = internal, FINALFUNC = flcol_finish,
    COMBINEFUNC = flcol_combine, SERIALFUNC = flcol_serialize, DESERIALFUNC = flcol_deserialize, PARALLEL = SAFE
);
