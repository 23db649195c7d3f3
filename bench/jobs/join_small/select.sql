create index city on cities(name, people);
select id || ',' || city || ',' || amount || ',' || people as line
from orders join cities on city = name
order by line;
