-- Measures what each function takes, as a multiple of what int4pl takes: psql -f sql/postgres/costs.sql, in a database
-- with the extension. The COST of a function in aclck--1.0.sql is this number, rounded. The lists are that of
-- examples/shared_folder.xdr, and one with another name in it.
SET max_parallel_workers_per_gather = 0;
SET jit = off;
CREATE TEMP TABLE measured (list bytea, other bytea, text text, posix bytea, posix_text text, number int);
INSERT INTO measured
SELECT acl_encode(l), acl_encode(replace(l, 'mallory', 'eve')), l, acl_posix_of_mode(488),
    'u::rwx,u:7:r,g::r,m::r,o::-', 3
FROM generate_series(1, 10000), (VALUES (E'DENY - WRITE_DATA|APPEND_DATA|DELETE mallory\n'
    'ALLOW FILE|DIR READ_DATA|WRITE_DATA|APPEND_DATA|EXECUTE|READ_ACL|WRITE_ACL OWNER@\n'
    'ALLOW FILE|DIR|GROUP READ_DATA|WRITE_DATA|APPEND_DATA|EXECUTE editors\n'
    'ALLOW FILE|DIR|GROUP READ_DATA|EXECUTE GROUP@\n'
    'ALLOW FILE|GROUP READ_DATA readers\nALLOW - READ_ATTRIBUTES|READ_ACL EVERYONE@')) v(l);
ANALYZE measured;

-- The seconds of a processor that this session has spent. Linux counts them in steps of some milliseconds.
CREATE FUNCTION pg_temp.spent() RETURNS float LANGUAGE SQL AS
$$ SELECT split_part(pg_read_file('/proc/' || pg_backend_pid() || '/schedstat'), ' ', 1)::float / 1e9 $$;

CREATE FUNCTION pg_temp.took(call text) RETURNS float LANGUAGE plpgsql AS $$
DECLARE
    began float := pg_temp.spent();
BEGIN
    FOR i IN 1..20 LOOP
        EXECUTE format('SELECT count(*) FROM measured WHERE (%s) IS NULL', call);
    END LOOP;
    RETURN (pg_temp.spent() - began) / 20;
END $$;

WITH calls(call) AS (VALUES
    ('acl_rights(''WRITE_DATA|'' || left(''READ_DATA'', number + 6))'), ('acl_rights_text(number)'),
    ('acl_fault(list)'),
    ('acl_granted(list, ''alice'', ''staff'', ''bob'', ''{editors,staff}'', number)'),
    ('acl_grants(list, ''alice'', ''staff'', ''bob'', ''{editors,staff}'', number)'),
    ('acl_deciding(list, ''alice'', ''staff'', ''bob'', ''{editors,staff}'', number - 1)'), ('acl_mode(list)'),
    ('acl_normal(list)'), ('acl_normal_inherit(list)'), ('acl_same(list, other)'), ('acl_compare(list, other)'),
    ('acl_excess(list, other)'), ('(SELECT count(*) FROM acl_table(list, 1))'),
    ('(SELECT count(*) FROM acl_entries(list))'), ('acl_show(list)'), ('acl_encode(text)'), ('acl_child(list, true)'),
    ('acl_resolved(list, ''alice'', ''staff'')'),
    ('acl_posix_fault(posix)'), ('acl_posix_grants(posix, 1, 2, 3, ''{4,5}'', number)'),
    ('acl_posix_deciding(posix, 1, 2, 3, ''{4,5}'', number)'), ('acl_posix_mode(posix)'),
    ('acl_posix_excess(posix, posix)'), ('(SELECT count(*) FROM acl_posix_entries(posix))'),
    ('acl_posix_chmod(posix, number)'), ('acl_posix_calc_mask(posix)'), ('acl_posix_create(posix, number, 0, false)'),
    ('acl_posix_bridge(posix)'), ('acl_posix_of_mode(number)'), ('acl_posix_fault(posix_text)'),
    ('acl_posix_grants(posix_text, 1, 2, 3, ''{4,5}'', number)'), ('acl_posix_show(posix_text)'),
    ('acl_posix_chmod(posix_text, number)'), ('acl_posix_calc_mask(posix_text)'),
    ('acl_posix_create(posix_text, number, 0, false)'), ('acl_posix_bridge(posix_text)'),
    ('acl_attribute(posix_text)')),
  scan(took) AS MATERIALIZED (SELECT pg_temp.took('number')),
  unit(took) AS MATERIALIZED (
    SELECT (pg_temp.took(repeat('int4pl(', 100) || 'number' || repeat(', 1)', 100)) - scan.took) / 100 FROM scan),
  timed(call, took) AS MATERIALIZED (SELECT call, pg_temp.took(call) - scan.took FROM calls, scan)
SELECT call, round((timed.took / 10000 * 1e9)::numeric) AS nanoseconds,
       greatest(1, round((timed.took / unit.took)::numeric)) AS cost
FROM timed, unit;
