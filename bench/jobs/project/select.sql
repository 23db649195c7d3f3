select (amount * 3 + id) || ',' || city || '-' || amount as line
from orders
order by line;
