-- What more a quarter would bring if no discount were above five of a hundred, by way of sending.
SELECT way, COUNT(*), SUM(amount * (-0.05 - discount)), SUM(amount * (-0.05 - discount) * (1 + tax))
FROM line
WHERE discount < -0.05 AND placed BETWEEN '2024-10-01' AND '2024-12-31'
GROUP BY way
ORDER BY way;
