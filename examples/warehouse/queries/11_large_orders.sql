-- Orders of more than 230 pieces, also those whose customer has left.
SELECT orders.code, orders.placed, COALESCE(customer.name, 'gone'), big.line_count, big.pieces, big.total
FROM (
    SELECT orders, COUNT(*) AS line_count, SUM(quantity) AS pieces, SUM(total) AS total
    FROM line
    GROUP BY orders
    HAVING SUM(quantity) > 230
) big
JOIN orders ON orders.id = big.orders
LEFT JOIN customer ON customer.id = orders.customer
ORDER BY big.pieces DESC, orders.id;
