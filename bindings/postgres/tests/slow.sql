-- A group that is being encoded is cancelled long before the library's call has ended, and the next one waits for that.
-- The aggregate is over a library whose flcol_compress takes five seconds.
CREATE FUNCTION slow_add(internal, bigint) RETURNS internal AS '$libdir/flcol_slow', 'sql_flcol_add_bigint' LANGUAGE C;
CREATE FUNCTION slow_finish(internal) RETURNS flcol AS '$libdir/flcol_slow', 'sql_flcol_finish' LANGUAGE C;
CREATE AGGREGATE slow_agg(bigint) (SFUNC = slow_add, STYPE = internal, FINALFUNC = slow_finish);
CREATE VIEW slow AS SELECT slow_agg(i) AS items FROM generate_series(1::bigint, 1100000) i;
SELECT clock_timestamp() AS begun \gset
SET statement_timeout = '1s';
SELECT flcol_len(items) FROM slow;
RESET statement_timeout;
SELECT 'cancelled in time', clock_timestamp() - :'begun' < '4.5s';
SELECT flcol_len(items), 'the session goes on' FROM slow;
