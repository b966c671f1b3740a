-- The ten customers who bring most, and what they bring.
SELECT customer.code, customer.name, nation.name, COUNT(DISTINCT orders.id), SUM(line.total)
FROM customer
JOIN nation ON nation.id = customer.nation
JOIN orders ON orders.customer = customer.id
JOIN line ON line.orders = orders.id
GROUP BY customer.id, customer.code, customer.name, nation.name
ORDER BY SUM(line.total) DESC, customer.id
LIMIT 10;
