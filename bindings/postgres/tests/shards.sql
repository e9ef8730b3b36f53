-- The same by the table's partitions: each server sums its own.
SET enable_partitionwise_aggregate = on;
SELECT sum(met) FROM (SELECT shard, sum(flcol_count(items, '<', 500)) AS met FROM chunks GROUP BY shard) part;
