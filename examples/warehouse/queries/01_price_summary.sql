-- What was sent up to the end of November 2024, by whether it came back and how far the bill is. MariaDB works a mean out to four digits more than
-- its numbers have: the factor gives it enough of them.
SELECT returned, state, COUNT(*), SUM(quantity), SUM(amount), SUM(net), SUM(total),
       ROUND(AVG(1.000000 * quantity), 2), ROUND(AVG(1.000000 * price), 2), ROUND(AVG(1.000000 * discount), 4)
FROM line
WHERE sent <= '2024-11-30'
GROUP BY returned, state
ORDER BY returned, state;
