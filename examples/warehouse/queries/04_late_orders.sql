-- Orders by priority: how many there are, and how many have a line that is received after it is due.
SELECT orders.priority, COUNT(*),
       SUM(CASE WHEN EXISTS (SELECT 1 FROM line WHERE line.orders = orders.id AND line.received > line.due) THEN 1 ELSE 0 END)
FROM orders
WHERE orders.placed >= '2024-07-01'
GROUP BY orders.priority
ORDER BY orders.priority;
