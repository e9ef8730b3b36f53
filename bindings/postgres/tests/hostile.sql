-- What strangers make of containers: each is answered, or refused by the SQLSTATE of its kind and by the name of a refusal;
-- cuts are BadContainer.
CREATE FUNCTION tried(bytes bytea) RETURNS text LANGUAGE plpgsql AS $$
DECLARE
    items flcol;
BEGIN
    items := bytes::flcol;
    PERFORM flcol_len(items), flcol_inspect(items), flcol_len(flcol_slice(items, 0, 0)), flcol_count(items, '<', 2),
        flcol_count_between(items, 1, 2), flcol_sum(items), flcol_avg(items), flcol_nulls(items), flcol_min(items), flcol_max(items),
        flcol_count(flcol_where(items, '<', 2) | !flcol_is_in(items, '{3,4}')), flcol_count(flcol_where(items, '<', 3, flcol_where(items, '>', 1))), flcol_sum(items, flcol_where(items, '>', 2));
    IF flcol_len(items) > 0 THEN
        PERFORM flcol_get(items, 0), (SELECT count(*) FROM (SELECT flcol_unnest(items) LIMIT 9) first);
    END IF;
    RETURN 'answered';
EXCEPTION WHEN OTHERS THEN
    RETURN SQLSTATE || ' ' || SQLERRM;
END $$;
CREATE TABLE tries AS SELECT name, how, tried(bytes) AS answer FROM hostile;
SELECT 'whole ones that are refused', count(*) FROM tries WHERE how = 'whole' AND answer <> 'answered';
SELECT 'cuts that are not refused', count(*) FROM tries WHERE how = 'cut' AND answer !~ '^22P03 flcol: BadContainer';
SELECT 'other answers', count(*) FROM tries WHERE answer <> 'answered' AND answer !~ '^(22P03|22003|54000|53200) flcol: [A-Z][A-Za-z]+: .+$';
SELECT 'all were tried', count(*) - (SELECT count(*) FROM hostile) FROM tries;
