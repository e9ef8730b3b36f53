-- Of 40 chunks on two servers those are read that may have an item in the range: two here, three there.
SET enable_seqscan = off;
SET enable_partitionwise_aggregate = on;
SELECT sum(met)
FROM (SELECT shard, sum(flcol_count_between(items, 18500, 22499)) AS met FROM ranged
      WHERE least <= 22499 AND greatest >= 18500 GROUP BY shard) part;
