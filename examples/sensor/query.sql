-- How many readings each display sent, every five seconds.
SELECT System.Timestamp() AS w, dspl, COUNT(*) AS n
INTO out
FROM sensor TIMESTAMP BY time
GROUP BY dspl, TumblingWindow(second, 5)
