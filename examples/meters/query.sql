-- What each meter used, minute by minute.
SELECT System.Timestamp() AS minute, meter, SUM(wh) AS wh, COUNT(*) AS readings
INTO usage
FROM meter TIMESTAMP BY time
GROUP BY meter, TumblingWindow(minute, 1)
