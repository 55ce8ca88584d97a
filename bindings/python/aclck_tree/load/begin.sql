-- How the script of `aclck-tree load` begins (loading.py), before the data. psql reads it. Whoever may create objects
-- in the database is an attacker: a schema, a table or a function that somebody else made must not be taken for one of
-- ours, because it would run with the rights of the role that loads. So nothing but the server is asked before the
-- schema is judged, and the search path never has the schema of the extension: its functions are called by that schema.
BEGIN ISOLATION LEVEL READ COMMITTED;
SET LOCAL search_path = pg_catalog, pg_temp;
SET LOCAL client_min_messages = error;
SET LOCAL standard_conforming_strings = on;
SET LOCAL row_security = off;
-- Another session can hold the lock that a first load takes, or a lock on a table, for as long as it likes.
SET LOCAL lock_timeout = '10min';
DO $$ DECLARE
    can_be_superuser bool := EXISTS (
        SELECT FROM pg_roles r WHERE pg_has_role(session_user, r.oid, 'MEMBER')
        AND (r.rolsuper OR r.rolname IN ('pg_execute_server_program', 'pg_write_server_files')));
BEGIN
    IF can_be_superuser AND NOT {as_superuser} THEN
        RAISE EXCEPTION 'aclck-tree: the role % is a superuser, or can become one: load as another role, or give '
            '--as-superuser', quote_ident(session_user);
    END IF;
    -- The owner of a database can set the role of each session in it, and the session can go back to its own.
    IF can_be_superuser AND NOT EXISTS (SELECT FROM pg_roles WHERE rolname = current_user AND rolsuper) THEN
        RAISE EXCEPTION 'aclck-tree: the session has the role %, which is no superuser, but can become one',
            quote_ident(current_user);
    END IF;
    -- In a role that others have too, the session would call what these others may change.
    IF current_user <> session_user AND NOT EXISTS (
        SELECT FROM pg_roles WHERE rolname = current_user AND rolsuper) THEN
        RAISE EXCEPTION 'aclck-tree: the session has the role %, and not %', quote_ident(current_user),
            quote_ident(session_user);
    END IF;
END $$;
DO $$ DECLARE
    one oid := (SELECT extnamespace FROM pg_extension WHERE extname = 'aclck');
    member oid[] := ARRAY(SELECT objid FROM pg_depend d JOIN pg_extension e ON e.oid = d.refobjid
                          WHERE d.refclassid = 'pg_extension'::regclass AND d.classid = 'pg_proc'::regclass
                          AND d.deptype = 'e' AND e.extname = 'aclck');
    owner oid := (SELECT nspowner FROM pg_namespace n JOIN pg_roles r ON r.oid = nspowner
                  WHERE n.oid = one AND NOT rolsuper);
    other text;
BEGIN
    IF getdatabaseencoding() <> 'UTF8' THEN
        RAISE EXCEPTION 'aclck-tree: the encoding of the database is %, and not UTF8', getdatabaseencoding();
    END IF;
    IF NOT EXISTS (SELECT FROM pg_proc WHERE oid = ANY (member) AND proname = 'acl_resolved') THEN
        RAISE EXCEPTION 'aclck-tree: the database has no extension aclck of this version: CREATE EXTENSION aclck';
    END IF;
    IF has_schema_privilege('public', one, 'CREATE') THEN
        RAISE EXCEPTION 'aclck-tree: anybody may make functions in the schema % of the extension aclck',
            one::regnamespace;
    END IF;
    -- An owner who took the privilege away can take it back at any time.
    other := (SELECT min(quote_ident(rolname)) FROM pg_roles
              WHERE (has_schema_privilege(oid, one, 'CREATE') OR pg_has_role(oid, owner, 'MEMBER'))
              AND NOT rolsuper AND NOT pg_has_role(oid, current_user, 'MEMBER') AND rolname <> 'pg_database_owner');
    IF other IS NOT NULL THEN
        RAISE EXCEPTION 'aclck-tree: the role % may make functions in the schema % of the extension aclck',
            other, one::regnamespace;
    END IF;
    other := (SELECT min(p.oid::regprocedure::text) FROM pg_proc p JOIN pg_roles r ON r.oid = proowner
              WHERE p.oid = ANY (member) AND NOT rolsuper AND NOT pg_has_role(proowner, current_user, 'MEMBER'));
    IF other IS NOT NULL THEN
        RAISE EXCEPTION 'aclck-tree: the function % of the extension aclck belongs to another role', other;
    END IF;
    other := (SELECT min(p.oid::regprocedure::text) FROM pg_proc p WHERE pronamespace = one AND oid <> ALL (member)
              AND proname IN (SELECT proname FROM pg_proc WHERE oid = ANY (member)));
    IF other IS NOT NULL THEN
        RAISE EXCEPTION 'aclck-tree: the function % has a name of the extension aclck, and is not its function', other;
    END IF;
END $$;
SELECT nspname AS aclck FROM pg_extension e JOIN pg_namespace n ON n.oid = e.extnamespace
WHERE extname = 'aclck' \gset
SELECT pg_advisory_xact_lock(hashtext('aclck_tree')) WHERE NOT EXISTS (
    SELECT FROM pg_class c JOIN pg_namespace n ON n.oid = relnamespace WHERE nspname = 'aclck_tree');
SELECT NOT EXISTS (SELECT FROM pg_namespace WHERE nspname = 'aclck_tree') AS is_absent \gset
\if :is_absent
CREATE SCHEMA aclck_tree;
\endif
-- The schema must be the role's own, and nobody else may create anything in it. A schema that somebody prepared for the
-- role may be empty. What is in it must be the role's too, or a superuser's.
DO $$ DECLARE
    one oid := 'aclck_tree'::regnamespace;
    own oid := (SELECT oid FROM pg_roles WHERE rolname = current_user);  -- a cast to regrole takes A for a
    other text;
BEGIN
    other := (SELECT nspowner::regrole FROM pg_namespace WHERE oid = one AND nspowner <> own);
    IF other IS NOT NULL THEN
        RAISE EXCEPTION 'aclck-tree: the schema aclck_tree belongs to the role %, and not to %', other, own::regrole;
    END IF;
    IF has_schema_privilege('public', one, 'CREATE') THEN
        RAISE EXCEPTION 'aclck-tree: anybody may create objects in the schema aclck_tree';
    END IF;
    other := (SELECT min(quote_ident(rolname)) FROM pg_roles WHERE has_schema_privilege(oid, one, 'CREATE')
              AND NOT rolsuper AND NOT pg_has_role(oid, current_user, 'MEMBER'));
    IF other IS NOT NULL THEN
        RAISE EXCEPTION 'aclck-tree: the role % may create objects in the schema aclck_tree', other;
    END IF;
    -- Objects of the first superuser have no row in pg_shdepend.
    other := (SELECT min(pg_describe_object(d.classid, d.objid, 0))
              FROM pg_depend d JOIN pg_shdepend s ON s.classid = d.classid AND s.objid = d.objid AND s.deptype = 'o'
                   AND s.dbid = (SELECT oid FROM pg_database WHERE datname = current_database())
              WHERE d.refclassid = 'pg_namespace'::regclass AND d.refobjid = one AND s.refobjid <> own
              AND NOT (SELECT rolsuper FROM pg_roles WHERE oid = s.refobjid));
    IF other IS NOT NULL THEN
        RAISE EXCEPTION 'aclck-tree: % in the schema aclck_tree belongs to another role', other;
    END IF;
END $$;
SELECT NOT EXISTS (SELECT FROM pg_depend WHERE refclassid = 'pg_namespace'::regclass
                   AND refobjid = 'aclck_tree'::regnamespace) AS is_new \gset
SET LOCAL search_path = aclck_tree, pg_temp;
\if :is_new
{tables}
{views}
\endif
DO $$ BEGIN
    IF obj_description('aclck_tree'::regnamespace, 'pg_namespace') IS DISTINCT FROM 'aclck-tree tables 2' THEN
        RAISE EXCEPTION 'aclck-tree: the tables in the schema aclck_tree are those of another version';
    END IF;
END $$;
-- With these locks nobody can make a trigger, a rule or a foreign key before the transaction ends.
LOCK TABLE hosts, trees, lists, faces, ways, objects, unread, people, memberships IN ROW EXCLUSIVE MODE;
DO $$ DECLARE
    other text := (SELECT min(one) FROM attached() one);
BEGIN
    IF other IS NOT NULL THEN
        RAISE EXCEPTION 'aclck-tree: % is none that load made', other;
    END IF;
END $$;
CREATE TEMP TABLE new_tree (number int, host bytea, root bytea, place bytea, began timestamptz, ended timestamptz,
    is_whole bool, version text, links bigint, domain text) ON COMMIT DROP;
CREATE TEMP TABLE new_lists (digest bytea, kind text, mode int, access bytea, dflt bytea) ON COMMIT DROP;
CREATE TEMP TABLE new_faces (face int, uid bigint, gid bigint, digest bytea, owner text, owning_group text,
    objects bigint, first bytea) ON COMMIT DROP;
CREATE TEMP TABLE new_ways (way int, granted int[], denied int[], unknown int[]) ON COMMIT DROP;
CREATE TEMP TABLE new_unread (path bytea, step text, message text) ON COMMIT DROP;
CREATE TEMP TABLE new_people (person int, name bytea, account text, uid bigint) ON COMMIT DROP;
CREATE TEMP TABLE new_memberships (person int, name bytea, account text, gid bigint, is_listed bool) ON COMMIT DROP;
