-- Loaded by ALTER EXTENSION flcol UPDATE, and behind flcol--1.0.sql by CREATE EXTENSION flcol.
\echo Use "ALTER EXTENSION flcol UPDATE TO '1.1'" to load this file. \quit

CREATE FUNCTION flcol_count_between(items flcol, lower bigint, upper bigint) RETURNS bigint
    AS 'MODULE_PATHNAME', 'sql_flcol_between' LANGUAGE C IMMUTABLE STRICT PARALLEL SAFE COST 100000;
COMMENT ON FUNCTION flcol_count_between(flcol, bigint, bigint) IS 'how many items lie between two bounds, which belong to it';
COMMENT ON FUNCTION flcol_between(flcol, bigint, bigint) IS 'the old name of flcol_count_between';
