-- Joins the reports and the tables of stays of many offices, in sqlite3. Load the files of all offices first:
--
--   sqlite3 -batch :memory: 'create table reports (bucket, line, class, quantity text, price integer, charge integer)' \
--       'create table stays (bucket, key, item, class, bytes integer, begins, ends)' \
--       "create table month as select '2026-11-01' as first" '.mode csv' \
--       '.import --skip 1 reports/1/2026-11-report.csv reports' '.import --skip 1 reports/2/2026-11-report.csv reports' \
--       '.import --skip 1 stays/1.csv stays' '.import --skip 1 stays/2.csv stays' '.read bills.sql'
--
-- A bucket that was split by prefix has pieces named BUCKET.p-NAME; they are added up here. Quantities are above 2^63 at times, so they
-- are texts, and are added up in parts. In an engine with integers of 128 bits (DuckDB: hugeint, ClickHouse: UInt128) take plain sums.

-- What each bucket costs, with the pieces of one together.
create view bills as
select case when instr(bucket, '.p-') then substr(bucket, 1, instr(bucket, '.p-') - 1) else bucket end as whole, line, class,
    ltrim(printf('%d%012d', sum(cast(substr(quantity, 1, max(0, length(quantity) - 12)) as integer)) + sum(cast(substr('000000000000' || quantity, -12) as integer)) / 1000000000000,
                 sum(cast(substr('000000000000' || quantity, -12) as integer)) % 1000000000000), '0') as quantity,
    price, sum(charge) as charge
from reports where line <> 'total' group by whole, line, class, price;

-- The lines of a bucket in pieces whose class has tiers. Each piece goes through the tiers by itself, from the first on, so the sum of their
-- charges is not what one office would charge: set one price for such classes, or charge the quantity of `bills` by hand.
create view apart as
select whole, line, class, count(*) as pieces
from (select case when instr(bucket, '.p-') then substr(bucket, 1, instr(bucket, '.p-') - 1) else bucket end as whole, line, class from reports where price = 'tiered')
group by whole, line, class having count(*) > 1;

-- The byte-milliseconds of each bucket and class in the month, from the stays: each is bytes times the milliseconds in the month.
create view metered as
with edges as (select cast(strftime('%s', first) as integer) * 1000 as first, cast(strftime('%s', first, '+1 month') as integer) * 1000 as last from month),
timed as (select bucket, class, bytes,
        min(last, case when ends = 'open' then last else cast(strftime('%s', substr(ends, 1, 19)) as integer) * 1000 + cast(substr(ends, 21, 3) as integer) end)
        - max(first, cast(strftime('%s', substr(begins, 1, 19)) as integer) * 1000 + cast(substr(begins, 21, 3) as integer)) as ms
    from stays, edges),
parts as (select bucket, class, sum(bytes / 1000000 * (ms / 1000000)) as high,
        sum(bytes / 1000000 * (ms % 1000000) + bytes % 1000000 * (ms / 1000000)) as middle, sum(bytes % 1000000 * (ms % 1000000)) as low
    from timed where ms > 0 group by bucket, class),
carried as (select bucket, class, high, middle + low / 1000000 as middle, low % 1000000 as low from parts)
select bucket, class, ltrim(printf('%d%06d%06d', high + middle / 1000000, middle % 1000000, low), '0') as quantity from carried;

-- Each storage line of a report that its stays do not give, and stays that no line has. No row: all bills are right.
create view wrong as
select coalesce(r.bucket, m.bucket) as bucket, coalesce(r.class, m.class) as class, r.quantity as reported, m.quantity as metered
from (select * from reports where line = 'storage') r full join metered m on r.bucket = m.bucket and r.class = m.class
where coalesce(r.quantity, '') <> coalesce(nullif(m.quantity, ''), '');
