-- What comes after the data of a scan.
INSERT INTO trees (tree, host, root, place, began, ended, is_whole, version, links, domain, objects, failures, digest)
SELECT :'tree', :'host', root, place, began, ended, is_whole, version, links, domain,
    (SELECT coalesce(sum(objects), 0) FROM pg_temp.new_faces), (SELECT count(*) FROM pg_temp.new_unread), '\x{digest}'
FROM pg_temp.new_tree ON CONFLICT (digest) DO NOTHING;
DO $$ BEGIN
    IF NOT EXISTS (SELECT FROM trees WHERE tree = currval(pg_get_serial_sequence('trees', 'tree'))) THEN
        RAISE EXCEPTION 'aclck-tree: scan % is loaded already', (SELECT number FROM pg_temp.new_tree);
    END IF;
END $$;
INSERT INTO lists (digest, kind, mode, access, dflt) SELECT * FROM pg_temp.new_lists n
WHERE NOT EXISTS (SELECT FROM lists l WHERE l.digest = n.digest) ORDER BY digest ON CONFLICT (digest) DO NOTHING;
INSERT INTO faces SELECT :'tree', face, uid, gid, list, owner, owning_group, objects, first
FROM pg_temp.new_faces JOIN lists USING (digest);
INSERT INTO ways SELECT :'tree', * FROM pg_temp.new_ways;
INSERT INTO unread SELECT :'tree', * FROM pg_temp.new_unread;
INSERT INTO people SELECT :'tree', person, name, account, groups, uid, gids FROM pg_temp.new_people n
CROSS JOIN LATERAL (SELECT
    CASE WHEN count(*) = count(m.account) THEN coalesce(array_agg(m.account), '{}') END,
    CASE WHEN count(*) FILTER (WHERE is_listed) = count(m.gid) FILTER (WHERE is_listed)
         THEN coalesce(array_agg(m.gid) FILTER (WHERE is_listed), '{}') END
    FROM pg_temp.new_memberships m WHERE m.person = n.person) AS own (groups, gids);
INSERT INTO memberships SELECT :'tree', * FROM pg_temp.new_memberships;
SELECT to_regclass(:'of_host') IS NULL AS is_new \gset
\if :is_new
CREATE TABLE :"of_host" (LIKE objects) PARTITION BY LIST (tree);
ALTER TABLE objects ATTACH PARTITION :"of_host" FOR VALUES IN (:'host');
\endif
ALTER TABLE :"of_host" ATTACH PARTITION :"objects" FOR VALUES IN (:'tree');
ANALYZE :"objects";
TRUNCATE pg_temp.new_tree, pg_temp.new_lists, pg_temp.new_faces, pg_temp.new_ways, pg_temp.new_unread,
    pg_temp.new_people, pg_temp.new_memberships;
