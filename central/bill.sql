-- The month's bill of all sites: sed s/2026-11/2026-12/ bill.sql | clickhouse-client. It has a line
-- for each register, in kWh with six exact decimals. `quarters` counts the quarter hours of the
-- month that have a row. Days are those of each office's own zone.
SELECT site, register, count() AS days, sum(quarters) AS quarters, sum(toDecimal128(mwh, 6)) / 1000000 AS kwh
FROM energy.days FINAL
WHERE here = 1 AND day >= '2026-11-01' AND day < addMonths(toDate('2026-11-01'), 1)
GROUP BY site, register
ORDER BY site, register
