-- What each reading costs by the tariff in force at its time; a plan without a tariff costs NULL.
SELECT System.Timestamp() AS time, meter, kwh * price AS cost
INTO bill
FROM reading TIMESTAMP BY time
LEFT JOIN tariff ON reading.plan = tariff.plan
