select id || ',' || city || ',' || amount as line
from (select distinct id, city, amount from entries)
order by line;
