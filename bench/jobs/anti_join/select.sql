select id || ',' || city || ',' || amount as line
from orders where id not in (select id from returns)
order by line;
