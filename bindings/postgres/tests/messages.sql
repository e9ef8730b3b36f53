-- What errors say: the name of the refusal and a sentence behind `flcol: `. Each line is how many say something else, 0.
CREATE FUNCTION said(statement text) RETURNS text LANGUAGE plpgsql AS $$
BEGIN
    EXECUTE statement;
    RETURN 'answered';
EXCEPTION WHEN OTHERS THEN
    RETURN SQLSTATE || ' ' || SQLERRM;
END $$;
CREATE TABLE refusals (statement text, code text, name text);
INSERT INTO refusals VALUES
    ($$SELECT '\x464c4331'::flcol$$, '22P03', 'BadContainer'),
    ($$SELECT '\x00'::bytea::flcol$$, '22P03', 'BadContainer'),
    ($$SELECT '\x464c43310b766f727465782e626f6f6c080200000000000000000000000101000000000000000100'::flcol$$, '22P03', 'NotInteger'),
    ($$SELECT '\x464c43310f766f727465782e636f6e7374616e740001000010000000000200000020030000'::flcol$$, '54000', 'LengthOverflow'),
    ($$SELECT flcol_get(flcol_agg(1), 1)$$, '2202E', 'IndexOutOfBounds'),
    ($$SELECT flcol_slice(flcol_agg(1), 1, 0)$$, '2202E', 'RangeOutOfBounds'),
    ($$SELECT flcol_agg(1, 'zip')$$, '22023', 'BadScheme'),
    ($$SELECT flcol_agg(-1, 'bitpacked')$$, '22003', 'NegativeValue'),
    ($$SELECT flcol_agg(NULL::bigint, 'for')$$, '22004', 'NoMinimum'),
    ($$SELECT flcol_get('\x464c433110766f727465782e7072696d6974697665030200000000000000000000000110000000000000000100000000000000000000000000008000', 1)$$,
     '22003', 'CastOutOfRange'),
    ($$SELECT flcol_max('\x464c433110766f727465782e7072696d6974697665030200000000000000000000000110000000000000000100000000000000000000000000008000')$$,
     '22003', 'CastOutOfRange'),
    ($$SELECT flcol_sum(flcol_agg(1), flcol_where(flcol_slice(flcol_agg(1), 0, 0), '<', 1))$$, '22000', 'MaskLength'),
    ($$SELECT flcol_agg(1)::bytea::flcol_bits$$, '22P03', 'WrongType');
SELECT name, count(*) FILTER (WHERE said(statement) !~ format('^%s flcol: %s: .+$', code, name)) FROM refusals GROUP BY name;
