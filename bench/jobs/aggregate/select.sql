create index city_amount on orders(city, amount, id);
select city || ',' || amount || ',' || count(*) || ',' || sum(id) || ',' || min(id) || ',' || max(id) as line
from orders group by city, amount
order by line;
