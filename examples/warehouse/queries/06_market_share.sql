-- The share that suppliers of the region South have of the revenue from bowls and trays, by month.
SELECT SUBSTR(CAST(line.placed AS CHAR(10)), 1, 7), SUM(line.net),
       ROUND(100.000000 * SUM(CASE WHEN region.name = 'South' THEN line.net ELSE 0 END) / SUM(line.net), 2)
FROM line
JOIN part_supplier ON part_supplier.id = line.part_supplier
JOIN part ON part.id = part_supplier.part
JOIN supplier ON supplier.id = part_supplier.supplier
JOIN nation ON nation.id = supplier.nation
JOIN region ON region.id = nation.region
WHERE part.sort IN ('bowl', 'tray') AND line.placed BETWEEN '2024-07-01' AND '2024-12-31'
GROUP BY SUBSTR(CAST(line.placed AS CHAR(10)), 1, 7)
ORDER BY SUBSTR(CAST(line.placed AS CHAR(10)), 1, 7);
