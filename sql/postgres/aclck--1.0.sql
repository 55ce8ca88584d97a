-- The functions of the extension aclck (docs/reference/database.md). Each of them is IMMUTABLE, because libaclck
-- answers from its arguments alone: an index may be made of it, and parallel workers may call it. The costs are what
-- costs.sql measures, to one digit.
--
-- @name@ stands for the type of a name and of the text of an NFSv4 list: text in a database whose encoding is UTF8, and
-- otherwise bytea, because names in lists are UTF-8.
\echo Use "CREATE EXTENSION aclck" to load this file. \quit

DO $install$
DECLARE
    name_type text := CASE getdatabaseencoding() WHEN 'UTF8' THEN 'text' ELSE 'bytea' END;
BEGIN
EXECUTE replace($script$

-- Rights

CREATE FUNCTION acl_rights(names text) RETURNS int
    AS 'MODULE_PATHNAME', 'sql_rights' LANGUAGE C IMMUTABLE STRICT PARALLEL SAFE COST 40;
CREATE FUNCTION acl_rights_text(rights int) RETURNS text
    AS 'MODULE_PATHNAME', 'sql_rights_text' LANGUAGE C IMMUTABLE STRICT PARALLEL SAFE COST 30;

-- NFSv4 lists: what is refused, and the type of a column that has only lists that are not

CREATE FUNCTION acl_fault(acl bytea) RETURNS text
    AS 'MODULE_PATHNAME', 'sql_fault' LANGUAGE C IMMUTABLE STRICT PARALLEL SAFE COST 20;
CREATE DOMAIN nfs4acl AS bytea CONSTRAINT nfs4acl_is_accepted CHECK (acl_fault(VALUE) IS NULL);

-- NFSv4 lists: questions

CREATE FUNCTION acl_granted(acl bytea, owner @name@, owning_group @name@, "user" @name@, groups @name@[],
                                       rights int) RETURNS int
    AS 'MODULE_PATHNAME', 'sql_granted' LANGUAGE C IMMUTABLE STRICT PARALLEL SAFE COST 70;
CREATE FUNCTION acl_grants(acl bytea, owner @name@, owning_group @name@, "user" @name@, groups @name@[],
                                      rights int) RETURNS bool
    AS 'MODULE_PATHNAME', 'sql_grants' LANGUAGE C IMMUTABLE STRICT PARALLEL SAFE COST 70;
CREATE TYPE acl_decision AS (place int, kind text);
CREATE FUNCTION acl_deciding(acl bytea, owner @name@, owning_group @name@, "user" @name@, groups @name@[], "right" int)
    RETURNS acl_decision
    AS 'MODULE_PATHNAME', 'sql_deciding' LANGUAGE C IMMUTABLE STRICT PARALLEL SAFE COST 200;
CREATE FUNCTION acl_mode(acl bytea) RETURNS int
    AS 'MODULE_PATHNAME', 'sql_mode' LANGUAGE C IMMUTABLE STRICT PARALLEL SAFE COST 10;

-- NFSv4 lists: what they mean

CREATE FUNCTION acl_normal(acl bytea) RETURNS bytea
    AS 'MODULE_PATHNAME', 'sql_normal' LANGUAGE C IMMUTABLE STRICT PARALLEL SAFE COST 400;
CREATE FUNCTION acl_normal_inherit(acl bytea) RETURNS bytea
    AS 'MODULE_PATHNAME', 'sql_normal_inherit' LANGUAGE C IMMUTABLE STRICT PARALLEL SAFE COST 1000;
CREATE FUNCTION acl_same(first bytea, second bytea) RETURNS bool
    AS 'MODULE_PATHNAME', 'sql_same' LANGUAGE C IMMUTABLE STRICT PARALLEL SAFE COST 1000;
CREATE TYPE acl_difference AS (owner @name@, "group" @name@, "user" @name@, groups @name@[], "right" int, first bool);
CREATE FUNCTION acl_compare(first bytea, second bytea) RETURNS acl_difference
    AS 'MODULE_PATHNAME', 'sql_compare' LANGUAGE C IMMUTABLE STRICT PARALLEL SAFE COST 1000;
CREATE FUNCTION acl_excess(first bytea, second bytea) RETURNS acl_difference
    AS 'MODULE_PATHNAME', 'sql_excess' LANGUAGE C IMMUTABLE STRICT PARALLEL SAFE COST 1000;
CREATE FUNCTION acl_table(acl bytea, "right" int, OUT place int, OUT kind text, OUT is_group bool, OUT who @name@)
    RETURNS SETOF record
    AS 'MODULE_PATHNAME', 'sql_table' LANGUAGE C IMMUTABLE STRICT PARALLEL SAFE COST 1000 ROWS 10;
CREATE FUNCTION acl_entries(acl bytea, OUT place int, OUT kind text, OUT flags int, OUT rights int, OUT who @name@)
    RETURNS SETOF record
    AS 'MODULE_PATHNAME', 'sql_entries' LANGUAGE C IMMUTABLE STRICT PARALLEL SAFE COST 1000 ROWS 10;

-- NFSv4 lists: texts and bytes

CREATE FUNCTION acl_show(acl bytea) RETURNS @name@
    AS 'MODULE_PATHNAME', 'sql_show' LANGUAGE C IMMUTABLE STRICT PARALLEL SAFE COST 200;
CREATE FUNCTION acl_encode(acl @name@) RETURNS bytea
    AS 'MODULE_PATHNAME', 'sql_encode' LANGUAGE C IMMUTABLE STRICT PARALLEL SAFE COST 300;
CREATE FUNCTION acl_child(acl bytea, directory bool) RETURNS bytea
    AS 'MODULE_PATHNAME', 'sql_child' LANGUAGE C IMMUTABLE STRICT PARALLEL SAFE COST 70;
CREATE FUNCTION acl_resolved(acl bytea, owner @name@, owning_group @name@) RETURNS bytea
    AS 'MODULE_PATHNAME', 'sql_resolved' LANGUAGE C IMMUTABLE STRICT PARALLEL SAFE COST 50;

-- POSIX ACLs in the bytes of an extended attribute of Linux

CREATE FUNCTION acl_posix_fault(acl bytea) RETURNS text
    AS 'MODULE_PATHNAME', 'sql_posix_fault' LANGUAGE C IMMUTABLE STRICT PARALLEL SAFE COST 50;
CREATE FUNCTION acl_posix_grants(acl bytea, owner bigint, owning_group bigint, "user" bigint, groups bigint[], want int)
    RETURNS bool
    AS 'MODULE_PATHNAME', 'sql_posix_grants' LANGUAGE C IMMUTABLE STRICT PARALLEL SAFE COST 100;
CREATE TYPE acl_posix_decision AS (place int, tag text, granted bool, masked bool);
CREATE FUNCTION acl_posix_deciding(acl bytea, owner bigint, owning_group bigint, "user" bigint, groups bigint[],
                                   want int) RETURNS acl_posix_decision
    AS 'MODULE_PATHNAME', 'sql_posix_deciding' LANGUAGE C IMMUTABLE STRICT PARALLEL SAFE COST 200;
CREATE FUNCTION acl_posix_mode(acl bytea) RETURNS int
    AS 'MODULE_PATHNAME', 'sql_posix_mode' LANGUAGE C IMMUTABLE STRICT PARALLEL SAFE COST 70;
CREATE TYPE acl_posix_difference AS (owner bigint, "group" bigint, "user" bigint, groups bigint[], want int);
CREATE FUNCTION acl_posix_excess(first bytea, second bytea) RETURNS acl_posix_difference
    AS 'MODULE_PATHNAME', 'sql_posix_excess' LANGUAGE C IMMUTABLE STRICT PARALLEL SAFE COST 500;
CREATE FUNCTION acl_posix_entries(acl bytea, OUT place int, OUT tag text, OUT id bigint, OUT perm int)
    RETURNS SETOF record
    AS 'MODULE_PATHNAME', 'sql_posix_entries' LANGUAGE C IMMUTABLE STRICT PARALLEL SAFE COST 1000 ROWS 6;
CREATE FUNCTION acl_posix_chmod(acl bytea, mode int) RETURNS bytea
    AS 'MODULE_PATHNAME', 'sql_posix_chmod' LANGUAGE C IMMUTABLE STRICT PARALLEL SAFE COST 200;
CREATE FUNCTION acl_posix_calc_mask(acl bytea) RETURNS bytea
    AS 'MODULE_PATHNAME', 'sql_posix_calc_mask' LANGUAGE C IMMUTABLE STRICT PARALLEL SAFE COST 200;
CREATE FUNCTION acl_posix_create(acl bytea, mode int, umask int, directory bool) RETURNS bytea
    AS 'MODULE_PATHNAME', 'sql_posix_create' LANGUAGE C IMMUTABLE STRICT PARALLEL SAFE COST 200;
CREATE FUNCTION acl_posix_bridge(acl bytea) RETURNS bytea
    AS 'MODULE_PATHNAME', 'sql_posix_bridge' LANGUAGE C IMMUTABLE STRICT PARALLEL SAFE COST 200;
CREATE FUNCTION acl_posix_of_mode(mode int) RETURNS bytea
    AS 'MODULE_PATHNAME', 'sql_posix_of_mode' LANGUAGE C IMMUTABLE STRICT PARALLEL SAFE COST 100;

-- POSIX ACLs in the text that getfacl prints

CREATE FUNCTION acl_posix_fault(acl text, names text[] DEFAULT '{}') RETURNS text
    AS 'MODULE_PATHNAME', 'sql_posix_text_fault' LANGUAGE C IMMUTABLE STRICT PARALLEL SAFE COST 200;
CREATE FUNCTION acl_posix_grants(acl text, owner bigint, owning_group bigint, "user" bigint, groups bigint[], want int,
                                 names text[] DEFAULT '{}') RETURNS bool
    AS 'MODULE_PATHNAME', 'sql_posix_text_grants' LANGUAGE C IMMUTABLE STRICT PARALLEL SAFE COST 200;
CREATE FUNCTION acl_posix_show(acl text, form text DEFAULT 'canonical', names text[] DEFAULT '{}') RETURNS text
    AS 'MODULE_PATHNAME', 'sql_posix_text_show' LANGUAGE C IMMUTABLE STRICT PARALLEL SAFE COST 200;
CREATE FUNCTION acl_posix_chmod(acl text, mode int, names text[] DEFAULT '{}') RETURNS text
    AS 'MODULE_PATHNAME', 'sql_posix_text_chmod' LANGUAGE C IMMUTABLE STRICT PARALLEL SAFE COST 200;
CREATE FUNCTION acl_posix_calc_mask(acl text, names text[] DEFAULT '{}') RETURNS text
    AS 'MODULE_PATHNAME', 'sql_posix_text_calc_mask' LANGUAGE C IMMUTABLE STRICT PARALLEL SAFE COST 200;
CREATE FUNCTION acl_posix_create(acl text, mode int, umask int, directory bool, names text[] DEFAULT '{}') RETURNS text
    AS 'MODULE_PATHNAME', 'sql_posix_text_create' LANGUAGE C IMMUTABLE STRICT PARALLEL SAFE COST 200;
CREATE FUNCTION acl_attribute(acl text, names text[] DEFAULT '{}') RETURNS bytea
    AS 'MODULE_PATHNAME', 'sql_attribute' LANGUAGE C IMMUTABLE STRICT PARALLEL SAFE COST 300;
CREATE FUNCTION acl_posix_bridge(acl text, names text[] DEFAULT '{}') RETURNS bytea
    AS 'MODULE_PATHNAME', 'sql_posix_text_bridge' LANGUAGE C IMMUTABLE STRICT PARALLEL SAFE COST 200;

$script$, '@name@', name_type);
END
$install$;
