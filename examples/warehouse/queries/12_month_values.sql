-- Orders by month: how many there are, how many have no customer any more, how many lines they have, and the value of an order on average.
SELECT month, COUNT(*), SUM(gone), SUM(line_count), ROUND(AVG(value), 2)
FROM (
    SELECT SUBSTR(CAST(orders.placed AS CHAR(10)), 1, 7) AS month,
           CASE WHEN orders.customer IS NULL THEN 1 ELSE 0 END AS gone,
           COUNT(*) AS line_count, SUM(line.total) AS value
    FROM orders
    JOIN line ON line.orders = orders.id
    GROUP BY orders.id, orders.placed, orders.customer
) each_order
GROUP BY month
ORDER BY month;
