-- The ways of sending: lines, those not sent, those without a receipt, those received late, and the share of these in what was received.
SELECT way, COUNT(*),
       SUM(CASE WHEN sent IS NULL THEN 1 ELSE 0 END),
       SUM(CASE WHEN sent IS NOT NULL AND received IS NULL THEN 1 ELSE 0 END),
       SUM(CASE WHEN received > due THEN 1 ELSE 0 END),
       ROUND(100.000000 * SUM(CASE WHEN received > due THEN 1 ELSE 0 END) / COUNT(received), 2)
FROM line
GROUP BY way
ORDER BY way;
