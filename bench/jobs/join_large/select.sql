create index payment on payments(id, way, paid);
select orders.id || ',' || city || ',' || amount || ',' || way || ',' || paid as line
from orders join payments on orders.id = payments.id
order by line;
