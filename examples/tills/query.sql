-- The tills that sold more than once within ten minutes.
SELECT System.Timestamp() AS until, till, COUNT(*) AS sales, SUM(amount) AS total, AVG(amount) AS mean
INTO busy
FROM sale TIMESTAMP BY sold
WHERE amount > 0
GROUP BY till, TumblingWindow(minute, 10)
HAVING COUNT(*) > 1
