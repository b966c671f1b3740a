-- Suppliers whose stock is worth more than one and a half times the average of the suppliers who have some.
SELECT supplier.code, supplier.name, COUNT(*), SUM(part_supplier.stock), SUM(part_supplier.worth)
FROM supplier
JOIN part_supplier ON part_supplier.supplier = supplier.id
GROUP BY supplier.id, supplier.code, supplier.name
HAVING SUM(part_supplier.worth) > (SELECT 1.5 * SUM(worth) / COUNT(DISTINCT supplier) FROM part_supplier)
ORDER BY SUM(part_supplier.worth) DESC, supplier.id;
