-- The views of `aclck-tree load` (docs/reference/database.md, "A database of snapshots"). A function of the extension
-- decides, and a view asks it. Where a function gives NULL, nothing is known, and the view says so. Each view has the
-- rights of whoever asks it, so that row security of the tables counts.

-- A name or a path as text. One that is not UTF-8, or that has a backslash, a control character or a character that
-- changes the direction of text, is \x and its bytes in hexadecimal digits.
CREATE FUNCTION shown(name bytea) RETURNS text LANGUAGE sql IMMUTABLE STRICT PARALLEL SAFE
RETURN CASE WHEN encode(name, 'hex') ~ ('^(?:[2-46].|5[0-9abd-f]|7[0-9a-e]|c2(?:a[1-9a-cef]|b.)|c[3-9a-f][89ab].'
    '|d[0-79a-f][89ab].|d8(?:[8ab].|9[0-9abd-f])|e0[ab].[89ab].|e1[89ab].[89ab].|e280(?:9.|a[0-7]|b.)|e281[89].'
    '|e2(?:8[2-9a-f]|[9ab].)[89ab].|e[3-9a-ce][89ab].[89ab].|ed[89].[89ab].|ef(?:[89a].|b[0-9ac-e])[89ab].'
    '|efbb(?:[89a].|b[0-9a-e])|efbf(?:[89a].|b[cd])|f0[9ab].[89ab].[89ab].|f[12][89ab].[89ab].[89ab].)*$')
    THEN convert_from(name, 'UTF8') ELSE '\x' || encode(name, 'hex') END;

-- The path from / of an object, from the place of its tree and the path below the root.
CREATE FUNCTION whole_path(place bytea, path bytea) RETURNS bytea LANGUAGE sql IMMUTABLE STRICT PARALLEL SAFE
RETURN CASE WHEN path = '' THEN place WHEN place = '/' THEN place || path ELSE place || '/' || path END;

-- The last scan of each tree of each host.
CREATE VIEW latest WITH (security_invoker) AS
SELECT DISTINCT ON (host, place) tree, host, shown(name) AS host_name, shown(place) AS place, began,
       is_whole AND failures = 0 AS is_complete
FROM trees JOIN hosts USING (host) ORDER BY host, place, began DESC, tree DESC;

-- What nobody knows: the paths that were not read, and NULL for what an early end of the scan left out.
CREATE VIEW gaps WITH (security_invoker) AS
SELECT tree, path, step || ': ' || message AS reason FROM unread
UNION ALL
SELECT tree, NULL, 'the scan was ended early' FROM trees WHERE NOT is_whole;

-- What the list of a face grants a person of a request. `granted` is NULL if that is not known, and `reason` says why.
CREATE VIEW answers WITH (security_invoker) AS
SELECT f.tree, f.face, f.objects, f.first, p.person, p.name, q.rights,
       coalesce(:"aclck".acl_grants(l.nfs4, f.owner, f.owning_group, p."user", p.groups, q.mask),
                :"aclck".acl_posix_grants(l.posix, f.uid, f.gid, p.uid, p.gids, q.perms)) AS granted,
       CASE WHEN l.fault IS NOT NULL THEN l.fault
            WHEN l.kind = 'nfs4' AND num_nulls(f.owner, f.owning_group, p."user", p.groups) > 0
            THEN 'a name is not text'
            WHEN l.kind <> 'nfs4' AND q.perms IS NULL THEN 'a POSIX ACL has not all of these rights'
            WHEN l.kind <> 'nfs4' AND num_nulls(f.uid, f.gid, p.uid, p.gids) > 0 THEN 'no id is known' END AS reason
FROM faces f JOIN lists l USING (list) JOIN people p USING (tree) CROSS JOIN requests q;

-- Whether a person may do something: a row for each object, person and request. What was not read has a row too.
-- `reach` says whether the directories of the tree above let the person pass, and is NULL if `load` was not asked.
CREATE VIEW may WITH (security_invoker) AS
SELECT o.tree, shown(whole_path(t.place, o.path)) AS path, o.path AS below, o.kind, shown(a.name) AS "user", a.rights,
       CASE WHEN a.granted THEN 'granted' WHEN NOT a.granted THEN 'denied' ELSE 'unknown' END AS answer, a.reason,
       CASE WHEN o.way IS NOT NULL THEN CASE WHEN a.person = ANY (w.granted) THEN 'granted'
            WHEN a.person = ANY (w.denied) THEN 'denied' ELSE 'unknown' END END AS reach
FROM objects o JOIN answers a ON a.tree = o.tree AND a.face = o.face JOIN trees t ON t.tree = o.tree
LEFT JOIN ways w ON w.tree = o.tree AND w.way = o.way
UNION ALL
SELECT g.tree, shown(whole_path(t.place, g.path)), g.path, NULL, shown(p.name), q.rights, 'unknown', g.reason,
       CASE WHEN EXISTS (SELECT FROM ways w WHERE w.tree = g.tree) THEN 'unknown' END
FROM gaps g JOIN trees t USING (tree) JOIN people p USING (tree) CROSS JOIN requests q;

-- Who may do something: a row for each face and request. `granted` is NULL for what was not read, and never empty.
CREATE VIEW who WITH (security_invoker) AS
SELECT a.tree, a.face, a.rights, a.objects, shown(whole_path(t.place, a.first)) AS first, a.granted, a.unknown, a.reason
FROM (SELECT tree, face, rights, objects, first,
             coalesce(array_agg(shown(name) ORDER BY name) FILTER (WHERE granted), '{}') AS granted,
             coalesce(array_agg(shown(name) ORDER BY name) FILTER (WHERE granted IS NULL), '{}') AS unknown,
             min(reason) FILTER (WHERE granted IS NULL) AS reason
      FROM answers GROUP BY tree, face, rights, objects, first) a JOIN trees t USING (tree)
UNION ALL
SELECT g.tree, NULL, q.rights, CASE WHEN g.path IS NOT NULL THEN 1 END, shown(whole_path(t.place, g.path)), NULL,
       p.names, g.reason
FROM gaps g JOIN trees t USING (tree) CROSS JOIN requests q
LEFT JOIN (SELECT tree, array_agg(shown(name) ORDER BY name) AS names FROM people GROUP BY tree) p USING (tree);

-- Whether two POSIX ACLs grant everybody the same, also where several permissions are asked for at once.
CREATE FUNCTION is_same_posix(first bytea, second bytea) RETURNS bool LANGUAGE sql IMMUTABLE PARALLEL SAFE COST 1000
RETURN first = second OR (:"aclck".acl_posix_excess(first, second) IS NULL
                          AND :"aclck".acl_posix_excess(second, first) IS NULL);

-- The first POSIX ACL that grants the same as a list. It is a function so that the planner does not count its costs for
-- each list.
CREATE FUNCTION first_same_posix(own lists) RETURNS int LANGUAGE sql STABLE PARALLEL SAFE COST 1000
RETURN (SELECT min(m.list + 0) FROM lists m WHERE m.kind <> 'nfs4' AND m.meaning = own.meaning AND m.list <= own.list
        AND is_same_posix(own.posix, m.posix));

-- The lists, each with the first list that grants the same; NULL for a list that is refused. The bridge of a POSIX ACL
-- is about single permissions, so a POSIX ACL is also compared for several permissions at once: with the first ACL that
-- has this bridge, and with all before it only if it is not the same as that one.
CREATE VIEW classes WITH (security_invoker) AS
SELECT l.list, m.class, l.kind, l.fault
FROM lists l JOIN (SELECT meaning, min(list) AS class FROM lists WHERE kind = 'nfs4' AND fault IS NULL
                   GROUP BY meaning) m USING (meaning)
WHERE l.kind = 'nfs4' AND l.fault IS NULL
UNION ALL
SELECT l.list, CASE WHEN is_same_posix(l.posix, f.posix) THEN f.list ELSE first_same_posix(l) END, l.kind, l.fault
FROM lists l JOIN (SELECT meaning, min(list) AS list FROM lists WHERE kind <> 'nfs4' AND fault IS NULL
                   GROUP BY meaning) g USING (meaning) JOIN lists f ON f.list = g.list
WHERE l.kind <> 'nfs4' AND l.fault IS NULL
UNION ALL
SELECT list, NULL, kind, fault FROM lists WHERE fault IS NOT NULL;

-- Which objects of a tree grant the same: a row for each class, and one for each list that is refused. The objects of a
-- class are those whose face has one of its lists.
CREATE VIEW same WITH (security_invoker) AS
SELECT s.tree, s.class, s.kind, s.objects, s.lists, shown(whole_path(t.place, s.first)) AS first, s.reason
FROM (SELECT f.tree, c.class, CASE WHEN c.kind = 'nfs4' THEN 'nfs4' ELSE 'posix' END AS kind,
             sum(f.objects)::bigint AS objects, count(DISTINCT f.list) AS lists,
             (array_agg(f.first ORDER BY f.first))[1] AS first, min(c.fault) AS reason
      FROM faces f JOIN classes c USING (list)
      GROUP BY f.tree, c.class, (CASE WHEN c.class IS NULL THEN f.list END), 3) s JOIN trees t USING (tree)
UNION ALL
SELECT g.tree, NULL, NULL, CASE WHEN g.path IS NOT NULL THEN 1 END, NULL, shown(whole_path(t.place, g.path)), g.reason
FROM gaps g JOIN trees t USING (tree);

-- Whether a list in its normal form says something about OWNER@ or GROUP@.
CREATE FUNCTION mentions(meaning bytea, name text) RETURNS bool LANGUAGE sql IMMUTABLE STRICT PARALLEL SAFE
RETURN EXISTS (SELECT FROM :"aclck".acl_entries(meaning) WHERE who = name);

-- What changed on an object, from the face of one tree to that of another: 'bits', 'bytes', 'inherits', 'meaning', or
-- 'unknown' if a list is refused. Owners and groups are names for NFSv4 lists, and ids for POSIX ACLs. It is a function
-- so that the lists are read for what changed alone.
CREATE FUNCTION change_of(kind "char", old_tree int, old_face int, new_tree int, new_face int) RETURNS text
LANGUAGE sql STABLE PARALLEL SAFE COST 2000
RETURN (SELECT CASE
    WHEN l.list = m.list AND f.uid IS NOT DISTINCT FROM g.uid AND f.gid IS NOT DISTINCT FROM g.gid THEN 'bits'
    WHEN num_nulls(l.meaning, m.meaning) > 0 THEN 'unknown'
    WHEN (l.kind = 'nfs4') <> (m.kind = 'nfs4') OR l.meaning <> m.meaning THEN 'meaning'
    WHEN NOT is_same_posix(l.posix, m.posix) THEN 'meaning'
    WHEN mentions(l.meaning, 'OWNER@') AND CASE WHEN l.kind = 'nfs4'
         THEN f.owner IS DISTINCT FROM g.owner OR g.owner IS NULL
         ELSE f.uid IS DISTINCT FROM g.uid END THEN 'meaning'
    WHEN mentions(l.meaning, 'GROUP@') AND CASE WHEN l.kind = 'nfs4'
         THEN f.owning_group IS DISTINCT FROM g.owning_group OR g.owning_group IS NULL
         ELSE f.gid IS DISTINCT FROM g.gid END THEN 'meaning'
    WHEN change_of.kind = 'd' AND CASE WHEN l.kind = 'nfs4'
         THEN :"aclck".acl_normal_inherit(l.nfs4) <> :"aclck".acl_normal_inherit(m.nfs4)
         ELSE l.dflt IS DISTINCT FROM m.dflt END THEN 'inherits'
    ELSE 'bytes' END
    FROM faces f JOIN lists l ON l.list = f.list, faces g JOIN lists m ON m.list = g.list
    WHERE f.tree = old_tree AND f.face = old_face AND g.tree = new_tree AND g.face = new_face);

-- What changed between two scans of one tree: give `old` and `new`. An object that one scan has alone is gone or has
-- come only if the other scan read everything.
CREATE VIEW changed WITH (security_invoker) AS
SELECT a.tree AS old, b.tree AS new, shown(whole_path(b.place, o.path)) AS path, o.path AS below, o.kind,
       change_of(o.kind, f.tree, f.face, g.tree, g.face) AS change, f.list AS old_list, g.list AS new_list
FROM trees a JOIN trees b ON a.host = b.host AND a.place = b.place AND (a.began, a.tree) < (b.began, b.tree)
JOIN objects o ON o.tree = a.tree JOIN objects n ON n.tree = b.tree AND n.path = o.path AND n.kind = o.kind
JOIN faces f ON f.tree = o.tree AND f.face = o.face JOIN faces g ON g.tree = n.tree AND g.face = n.face
WHERE f.list <> g.list OR f.uid IS DISTINCT FROM g.uid OR f.gid IS DISTINCT FROM g.gid
OR (o.mode & 3584) <> (n.mode & 3584)
UNION ALL
SELECT a.tree, b.tree, shown(whole_path(a.place, o.path)), o.path, o.kind,
       CASE WHEN b.is_whole AND b.failures = 0 THEN 'gone' ELSE 'unknown' END, f.list, NULL
FROM trees a JOIN trees b ON a.host = b.host AND a.place = b.place AND (a.began, a.tree) < (b.began, b.tree)
JOIN objects o ON o.tree = a.tree JOIN faces f ON f.tree = o.tree AND f.face = o.face
WHERE NOT EXISTS (SELECT FROM objects n WHERE n.tree = b.tree AND n.path = o.path AND n.kind = o.kind)
UNION ALL
SELECT a.tree, b.tree, shown(whole_path(b.place, n.path)), n.path, n.kind,
       CASE WHEN a.is_whole AND a.failures = 0 THEN 'came' ELSE 'unknown' END, NULL, g.list
FROM trees a JOIN trees b ON a.host = b.host AND a.place = b.place AND (a.began, a.tree) < (b.began, b.tree)
JOIN objects n ON n.tree = b.tree JOIN faces g ON g.tree = n.tree AND g.face = n.face
WHERE NOT EXISTS (SELECT FROM objects o WHERE o.tree = a.tree AND o.path = n.path AND o.kind = n.kind)
UNION ALL
SELECT a.tree, b.tree, shown(whole_path(b.place, x.path)), x.path, NULL, 'unknown', NULL, NULL
FROM trees a JOIN trees b ON a.host = b.host AND a.place = b.place AND (a.began, a.tree) < (b.began, b.tree)
JOIN gaps x ON x.tree IN (a.tree, b.tree);

-- The bounds of the rules. The list of an object must not exceed `at_most`, and must not fall short of `at_least`.
CREATE VIEW bounds WITH (security_invoker) AS
SELECT rule, name, path, 'at_most' AS bound, at_most AS nfs4, posix_at_most AS posix FROM rules
WHERE num_nonnulls(at_most, posix_at_most) > 0
UNION ALL
SELECT rule, name, path, 'at_least', at_least, posix_at_least FROM rules
WHERE num_nonnulls(at_least, posix_at_least) > 0;

-- Whether a list keeps a bound on an object with an owner and a group, and a requester and a right for which it does
-- not. The owner and the group of a POSIX ACL are its ids in digits. It is asked by its bridge, right by right, and is
-- unknown where it only grants more than the bound for several permissions at once, or for another owner. Each function
-- of the extension is called once.
CREATE FUNCTION judgement(list lists, bound text, bound_nfs4 bytea, bound_posix bytea, owner text, owning_group text,
                          OUT verdict text, OUT "user" text, OUT groups text[], OUT rights text, OUT reason text)
LANGUAGE sql IMMUTABLE PARALLEL SAFE COST 2000
BEGIN ATOMIC
    WITH given AS MATERIALIZED (
        SELECT bound = 'at_most' AS is_most,
               CASE WHEN list.kind = 'nfs4' THEN bound_nfs4
                    ELSE :"aclck".acl_posix_bridge(bound_posix) END AS limiting),
    sides AS MATERIALIZED (
        SELECT is_most, limiting,
               :"aclck".acl_resolved(coalesce(list.nfs4, :"aclck".acl_posix_bridge(list.posix)), owner, owning_group)
               AS mine,
               :"aclck".acl_resolved(limiting, owner, owning_group) AS other FROM given),
    compared AS MATERIALIZED (
        SELECT is_most, CASE WHEN list.fault IS NOT NULL THEN list.fault
                             WHEN limiting IS NULL THEN 'the rule has no bound for lists of this kind'
                             WHEN num_nulls(mine, other) > 0 THEN 'no list can have the name of the owner or the group'
                        END AS fault,
               CASE WHEN is_most THEN :"aclck".acl_excess(mine, other)
                    ELSE :"aclck".acl_excess(other, mine) END AS found
        FROM sides),
    judged AS MATERIALIZED (
        SELECT found, CASE WHEN fault IS NOT NULL OR (found)."right" IS NOT NULL THEN fault
                           WHEN (CASE WHEN is_most THEN :"aclck".acl_posix_excess(list.posix, bound_posix)
                                      ELSE :"aclck".acl_posix_excess(bound_posix, list.posix) END) IS NOT NULL
                           THEN 'it depends on the owner, or on several permissions at once' END AS fault
        FROM compared)
    SELECT CASE WHEN fault IS NOT NULL THEN 'unknown' WHEN (found)."right" IS NOT NULL THEN 'broken' ELSE 'kept' END,
           (found)."user", (found).groups, :"aclck".acl_rights_text((found)."right"), fault
    FROM judged;
END;

-- Whether a face keeps a bound.
CREATE VIEW judged WITH (security_invoker) AS
SELECT f.tree, f.face, f.objects, b.rule, b.name, b.path, b.bound, j.*
FROM faces f JOIN lists l USING (list) CROSS JOIN bounds b
CROSS JOIN LATERAL judgement(l, b.bound, b.nfs4, b.posix, CASE WHEN l.kind = 'nfs4' THEN f.owner ELSE f.uid::text END,
                             CASE WHEN l.kind = 'nfs4' THEN f.owning_group ELSE f.gid::text END) j;

-- Which objects break a rule, or may break it. What was not read may break each rule.
CREATE VIEW broken WITH (security_invoker) AS
SELECT o.tree, shown(whole_path(t.place, o.path)) AS path, o.path AS below, o.kind, j.rule, j.name, j.bound, j.verdict,
       j."user", j.groups, j.rights, j.reason
FROM judged j JOIN objects o ON o.tree = j.tree AND o.face = j.face JOIN trees t ON t.tree = o.tree
WHERE j.verdict <> 'kept' AND whole_path(t.place, o.path) LIKE j.path
UNION ALL
SELECT g.tree, shown(whole_path(t.place, g.path)), g.path, NULL, b.rule, b.name, b.bound, 'unknown', NULL, NULL, NULL,
       g.reason
FROM gaps g JOIN trees t USING (tree) CROSS JOIN bounds b;
