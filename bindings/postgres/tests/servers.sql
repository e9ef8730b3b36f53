-- A count here by workers, and there by the other server, which sends its sum only.
SELECT sum(met)
FROM (SELECT sum(flcol_count(items, '<', 500)) AS met FROM chunks WHERE shard < 2
      UNION ALL SELECT sum(flcol_count(items, '<', 500)) FROM chunks_2
      UNION ALL SELECT sum(flcol_count(items, '<', 500)) FROM chunks_3) part;
