select id || ',' || city || ',' || amount as line
from orders where amount >= 500
order by line;
