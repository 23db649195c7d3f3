select tagged.id || ',' || tag.value || ',' || amount as line
from tagged, json_each('["' || replace(tags, ';', '","') || '"]') as tag
order by line;
