-- Each nation's revenue from orders of the second half of 2024, also where there is none.
SELECT nation.id, nation.name, region.name, COUNT(DISTINCT orders.id), COALESCE(SUM(line.net), 0)
FROM nation
JOIN region ON region.id = nation.region
LEFT JOIN customer ON customer.nation = nation.id
LEFT JOIN orders ON orders.customer = customer.id AND orders.placed BETWEEN '2024-07-01' AND '2024-12-31'
LEFT JOIN line ON line.orders = orders.id
GROUP BY nation.id, nation.name, region.name
ORDER BY nation.id;
