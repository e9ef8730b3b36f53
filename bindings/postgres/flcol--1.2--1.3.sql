-- Loaded by ALTER EXTENSION flcol UPDATE, and behind those before it by CREATE EXTENSION flcol.
\echo Use "ALTER EXTENSION flcol UPDATE TO '1.3'" to load this file. \quit

-- ---- Bits: the answers of a test, one for each item ----

CREATE TYPE flcol_bits;

CREATE FUNCTION flcol_bits_in(cstring) RETURNS flcol_bits
    AS 'MODULE_PATHNAME', 'sql_flcol_bits_in' LANGUAGE C IMMUTABLE STRICT PARALLEL SAFE;
CREATE FUNCTION flcol_bits_out(flcol_bits) RETURNS cstring
    AS 'MODULE_PATHNAME', 'sql_flcol_out' LANGUAGE C IMMUTABLE STRICT PARALLEL SAFE;
CREATE FUNCTION flcol_bits_recv(internal) RETURNS flcol_bits
    AS 'MODULE_PATHNAME', 'sql_flcol_bits_recv' LANGUAGE C IMMUTABLE STRICT PARALLEL SAFE;
CREATE FUNCTION flcol_bits_send(flcol_bits) RETURNS bytea
    AS 'MODULE_PATHNAME', 'sql_flcol_send' LANGUAGE C IMMUTABLE STRICT PARALLEL SAFE;

CREATE TYPE flcol_bits (
    INPUT = flcol_bits_in,
    OUTPUT = flcol_bits_out,
    RECEIVE = flcol_bits_recv,
    SEND = flcol_bits_send,
    STORAGE = extended
);
COMMENT ON TYPE flcol_bits IS 'the answers of a test of a column, true, false or null for each item';

CREATE FUNCTION flcol_bits(bytea) RETURNS flcol_bits
    AS 'MODULE_PATHNAME', 'sql_flcol_bits_of_bytea' LANGUAGE C IMMUTABLE STRICT PARALLEL SAFE;
CREATE CAST (bytea AS flcol_bits) WITH FUNCTION flcol_bits(bytea);
CREATE CAST (flcol_bits AS bytea) WITHOUT FUNCTION;

-- ---- Tests ----

CREATE FUNCTION flcol_where(items flcol, operator flcol_operator, constant bigint) RETURNS flcol_bits
    AS 'MODULE_PATHNAME', 'sql_flcol_where' LANGUAGE C IMMUTABLE STRICT PARALLEL SAFE COST 100000;
COMMENT ON FUNCTION flcol_where(flcol, flcol_operator, bigint) IS 'how each item compares with a constant';

CREATE FUNCTION flcol_is_in(items flcol, list bigint[]) RETURNS flcol_bits
    AS 'MODULE_PATHNAME', 'sql_flcol_is_in' LANGUAGE C IMMUTABLE STRICT PARALLEL SAFE COST 200000;
COMMENT ON FUNCTION flcol_is_in(flcol, bigint[]) IS 'whether each item is one of a list';

-- ---- Bits of bits, by the logic of SQL ----

CREATE FUNCTION flcol_and(bits flcol_bits, other flcol_bits) RETURNS flcol_bits
    AS 'MODULE_PATHNAME', 'sql_flcol_and' LANGUAGE C IMMUTABLE STRICT PARALLEL SAFE COST 1000;
COMMENT ON FUNCTION flcol_and(flcol_bits, flcol_bits) IS 'whether both answers are true';

CREATE FUNCTION flcol_or(bits flcol_bits, other flcol_bits) RETURNS flcol_bits
    AS 'MODULE_PATHNAME', 'sql_flcol_or' LANGUAGE C IMMUTABLE STRICT PARALLEL SAFE COST 1000;
COMMENT ON FUNCTION flcol_or(flcol_bits, flcol_bits) IS 'whether one of the answers is true';

CREATE FUNCTION flcol_not(bits flcol_bits) RETURNS flcol_bits
    AS 'MODULE_PATHNAME', 'sql_flcol_not' LANGUAGE C IMMUTABLE STRICT PARALLEL SAFE COST 1000;
COMMENT ON FUNCTION flcol_not(flcol_bits) IS 'whether the answer is false';

CREATE OPERATOR & (LEFTARG = flcol_bits, RIGHTARG = flcol_bits, FUNCTION = flcol_and, COMMUTATOR = &);
CREATE OPERATOR | (LEFTARG = flcol_bits, RIGHTARG = flcol_bits, FUNCTION = flcol_or, COMMUTATOR = |);
CREATE OPERATOR ! (RIGHTARG = flcol_bits, FUNCTION = flcol_not);

-- ---- What is gathered of bits, and of the items that they are true for ----

CREATE FUNCTION flcol_count(bits flcol_bits) RETURNS bigint
    AS 'MODULE_PATHNAME', 'sql_flcol_count_bits' LANGUAGE C IMMUTABLE STRICT PARALLEL SAFE COST 1000;
COMMENT ON FUNCTION flcol_count(flcol_bits) IS 'how many answers are true';

CREATE FUNCTION flcol_sum(items flcol, bits flcol_bits) RETURNS numeric
    AS 'MODULE_PATHNAME', 'sql_flcol_sum' LANGUAGE C IMMUTABLE STRICT PARALLEL SAFE COST 100000;
COMMENT ON FUNCTION flcol_sum(flcol, flcol_bits) IS 'the sum of the items that bits are true for and that are not null, exactly';

CREATE FUNCTION flcol_avg(items flcol, bits flcol_bits) RETURNS numeric
    AS 'MODULE_PATHNAME', 'sql_flcol_avg' LANGUAGE C IMMUTABLE STRICT PARALLEL SAFE COST 100000;
COMMENT ON FUNCTION flcol_avg(flcol, flcol_bits) IS 'the mean of the items that bits are true for and that are not null';

CREATE FUNCTION flcol_min(items flcol, bits flcol_bits) RETURNS bigint
    AS 'MODULE_PATHNAME', 'sql_flcol_min' LANGUAGE C IMMUTABLE STRICT PARALLEL SAFE COST 100000;
COMMENT ON FUNCTION flcol_min(flcol, flcol_bits) IS 'the least item that bits are true for and that is not null';

CREATE FUNCTION flcol_max(items flcol, bits flcol_bits) RETURNS bigint
    AS 'MODULE_PATHNAME', 'sql_flcol_max' LANGUAGE C IMMUTABLE STRICT PARALLEL SAFE COST 100000;
COMMENT ON FUNCTION flcol_max(flcol, flcol_bits) IS 'the greatest item that bits are true for and that is not null';
