-- Of a column in two files of 20 chunks those are read that may have an item in the range: two here, three there.
SELECT count(*), sum(value) FROM spread WHERE value BETWEEN 18500 AND 22499;
