-- Customers without an order that stands, by segment: how many, how many of these have no phone, and the balances above zero together.
SELECT segment, COUNT(*), SUM(CASE WHEN phone IS NULL THEN 1 ELSE 0 END), SUM(CASE WHEN balance > 0 THEN balance ELSE 0 END)
FROM customer
WHERE NOT EXISTS (SELECT 1 FROM orders WHERE orders.customer = customer.id)
GROUP BY segment
ORDER BY segment;
