-- Suppliers who sold something of which nothing came back.
SELECT supplier.code, supplier.name, COUNT(*), SUM(line.quantity)
FROM supplier
JOIN part_supplier ON part_supplier.supplier = supplier.id
JOIN line ON line.part_supplier = part_supplier.id
WHERE supplier.id NOT IN (
    SELECT part_supplier.supplier
    FROM line
    JOIN part_supplier ON part_supplier.id = line.part_supplier
    WHERE line.returned = 'yes'
)
GROUP BY supplier.id, supplier.code, supplier.name
ORDER BY supplier.id;
