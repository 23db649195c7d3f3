select id || ',' || city || ',' || amount as line
from (select id, city, amount from spring union select id, city, amount from autumn)
order by line;
