-- What comes before the objects of a scan. psql reads it. A partition is filled before it is one, so that nobody who
-- asks has to wait. psql puts what the server says between quotes: it would run a command that is there without them.
INSERT INTO hosts (name) SELECT host FROM pg_temp.new_tree ON CONFLICT DO NOTHING;
SELECT host, tree, 'objects_' || tree AS objects, 'objects_of_host_' || host AS of_host
FROM (SELECT host, nextval(pg_get_serial_sequence('trees', 'tree')) AS tree FROM hosts
      WHERE name = (SELECT host FROM pg_temp.new_tree)) own \gset
CREATE TABLE :"objects" (LIKE objects, CHECK (host = :'host' AND tree = :'tree'));
ALTER TABLE :"objects" ALTER host SET DEFAULT :'host', ALTER tree SET DEFAULT :'tree';
COPY :"objects" ({columns}) FROM STDIN WITH (FREEZE);
