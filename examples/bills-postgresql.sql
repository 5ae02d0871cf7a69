-- Joins the reports and the tables of stays of many offices for a month, in PostgreSQL (14 or later). The same views as bills.sql, with
-- plain sums: a numeric has as many digits as it needs. Make the tables, then load the files of all offices:
--
--   psql -X -v ON_ERROR_STOP=1 -v month=2026-11 -f bills-postgresql.sql
--   for n in 1 2; do
--       psql -X -v ON_ERROR_STOP=1 -c "\copy reports from reports/$n/2026-11-report.csv csv header" -c "\copy stays from stays/$n.csv csv header"
--   done
--   psql -X -c 'select * from wrong' -c 'select * from bills'
--
-- A bucket that was split by prefix has pieces named BUCKET.p-NAME; they are added up here. A key with a byte 0 cannot be loaded.
begin;
create table month as select (:'month' || '-01')::timestamp as first;
create table reports (bucket text, line text not null, class text, quantity numeric, price text, charge numeric not null);
create table stays (bucket text not null, key text not null, item text not null, class text not null, bytes numeric not null,
    begins timestamptz not null, ends text not null);

-- What each bucket costs, with the pieces of one together.
create view bills as
select split_part(bucket, '.p-', 1) as whole, line, class, sum(quantity) as quantity, price, sum(charge) as charge
from reports where line <> 'total' group by whole, line, class, price;

-- The lines of a bucket in pieces whose class has tiers. Each piece goes through the tiers by itself, from the first on, so the sum of their
-- charges is not what one office would charge.
create view apart as
select split_part(bucket, '.p-', 1) as whole, line, class, count(*) as pieces
from reports where price = 'tiered' group by whole, line, class having count(*) > 1;

-- The byte-milliseconds of each bucket and class in the month, from the stays: each is bytes times the milliseconds in the month.
create view metered as
with edges as (select extract(epoch from first) * 1000 as first, extract(epoch from first + interval '1 month') * 1000 as last from month),
timed as (select bucket, class, bytes,
        case when ends = 'open' then last else least(last, extract(epoch from ends::timestamptz) * 1000) end
        - greatest(first, extract(epoch from begins) * 1000) as ms
    from stays, edges)
select bucket, class, trunc(sum(bytes * ms)) as quantity from timed where ms > 0 and bytes > 0 group by bucket, class;

-- Each storage line of a report that its stays do not give, and stays that no line has. No row: all bills are right.
create view wrong as
select coalesce(r.bucket, m.bucket) as bucket, coalesce(r.class, m.class) as class, r.quantity as reported, m.quantity as metered
from (select * from reports where line = 'storage') r full join metered m on r.bucket = m.bucket and r.class = m.class
where r.quantity is distinct from m.quantity;
commit;
