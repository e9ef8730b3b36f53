-- Loaded by ALTER EXTENSION flcol UPDATE, and behind those before it by CREATE EXTENSION flcol.
\echo Use "ALTER EXTENSION flcol UPDATE TO '1.2'" to load this file. \quit

CREATE FUNCTION flcol_sum(items flcol) RETURNS numeric
    AS 'MODULE_PATHNAME', 'sql_flcol_sum' LANGUAGE C IMMUTABLE STRICT PARALLEL SAFE COST 100000;
COMMENT ON FUNCTION flcol_sum(flcol) IS 'the sum of the items that are not null, exactly';

CREATE FUNCTION flcol_avg(items flcol) RETURNS numeric
    AS 'MODULE_PATHNAME', 'sql_flcol_avg' LANGUAGE C IMMUTABLE STRICT PARALLEL SAFE COST 100000;
COMMENT ON FUNCTION flcol_avg(flcol) IS 'the mean of the items that are not null';

CREATE FUNCTION flcol_min(items flcol) RETURNS bigint
    AS 'MODULE_PATHNAME', 'sql_flcol_min' LANGUAGE C IMMUTABLE STRICT PARALLEL SAFE COST 100000;
COMMENT ON FUNCTION flcol_min(flcol) IS 'the least item that is not null';

CREATE FUNCTION flcol_max(items flcol) RETURNS bigint
    AS 'MODULE_PATHNAME', 'sql_flcol_max' LANGUAGE C IMMUTABLE STRICT PARALLEL SAFE COST 100000;
COMMENT ON FUNCTION flcol_max(flcol) IS 'the greatest item that is not null';

CREATE FUNCTION flcol_nulls(items flcol) RETURNS bigint
    AS 'MODULE_PATHNAME', 'sql_flcol_nulls' LANGUAGE C IMMUTABLE STRICT PARALLEL SAFE COST 10000;
COMMENT ON FUNCTION flcol_nulls(flcol) IS 'how many items are null';
