"""The SQL that restores rows at the publisher, the same whatever the rows are.

`pgsub-feed --undo` prints it, and the server runs it, in the transaction that `undoing` begins:

| Temporary table | Has |
|---|---|
| `pgsub_settings` | settings on which the text of values depends: the session's, and the feed's |
| `pgsub_tables` | the tables: their columns as the feed has them, and which of these are the key |
| `pgsub_rows` | the rows: `was`, to be restored, and `now`, as the commits left it, null for none |
| `pgsub_values_N` | the same of table N, with the types of its columns |
| `pgsub_found` | where the rows are |
| `pgsub_done` | where they are afterwards |

A value is the feed's where it isn't null and its text is the same, byte for byte. So no type needs
an equality, and none that takes different values for equal matters.

One statement changes all rows: foreign keys are checked, and act, once all rows are as they were.
So no order of the tables is needed, and they may refer to each other in a circle. Removed rows go
first and added ones come last, for unique constraints.

The session's own settings are in force while rows are changed, so its triggers find what they need.
"""

# From the session's settings to those of the feed, and back.
TO_OURS = "PERFORM pg_catalog.set_config(name, ours, true) FROM pg_temp.pgsub_settings;"
TO_THEIRS = "PERFORM pg_catalog.set_config(name, theirs, true) FROM pg_temp.pgsub_settings;"

TABLES = """\
CREATE TEMPORARY TABLE pgsub_tables (
  t int4, told text, name text, columns text[], key int4[], equal int4[],
  rel oid, only_name text, image text, is_key text, same_key text, writable int4[], always int4[]
) ON COMMIT DROP;
CREATE TEMPORARY TABLE pgsub_rows (
  n int8, t int4, told text, was text[] COLLATE "C", now text[] COLLATE "C",
  changed bool[], is_removed bool, is_added bool
) ON COMMIT DROP;
CREATE TEMPORARY TABLE pgsub_found (n int8, t int4, rel oid, place tid, is_removed bool)
  ON COMMIT DROP;
CREATE TEMPORARY TABLE pgsub_done (n int8, t int4, rel oid, place tid, is_removed bool)
  ON COMMIT DROP;
"""

CHECK = """\
-- The tables: each has to have the columns that the feed has, and no others but generated ones.
DO $pgsub$
DECLARE it record; lacks text;
BEGIN
  UPDATE pgsub_tables SET rel = to_regclass(name);
  FOR it IN SELECT * FROM pgsub_tables ORDER BY t LOOP
    IF it.rel IS NULL THEN
      RAISE EXCEPTION '%: there is no such table', it.told;
    END IF;
    SELECT string_agg(quote_ident(attname), ', ' ORDER BY attnum) INTO lacks FROM pg_attribute
      WHERE attrelid = it.rel AND attnum > 0 AND NOT attisdropped AND attgenerated = ''
      AND attname::text <> ALL (it.columns);
    IF lacks IS NOT NULL THEN
      RAISE EXCEPTION '%: the feed doesn''t have the values of %, so rows can''t be restored',
        it.told, lacks;
    END IF;
    SELECT string_agg(quote_ident(u.name), ', ' ORDER BY at) INTO lacks
      FROM unnest(it.columns) WITH ORDINALITY u (name, at)
      WHERE NOT EXISTS (
        SELECT FROM pg_attribute
        WHERE attrelid = it.rel AND attname = u.name AND attnum > 0 AND NOT attisdropped);
    IF lacks IS NOT NULL THEN
      RAISE EXCEPTION '%: the table doesn''t have the columns any more: %', it.told, lacks;
    END IF;
  END LOOP;
END $pgsub$;
"""

DESCRIBE = """\
-- Of each table, for the commands below: a row as texts, and conditions on its key.
DO $pgsub$
DECLARE printed text := 'CASE WHEN x.%1$I IS DISTINCT FROM NULL THEN format(''%%s'', x.%1$I) END';
BEGIN
  UPDATE pgsub_tables t SET only_name = CASE c.relkind WHEN 'p' THEN '' ELSE 'ONLY ' END || t.name
    FROM pg_class c WHERE c.oid = t.rel;
  UPDATE pgsub_tables t SET
    image = format('(ARRAY[%s]::text[] COLLATE "C")', (
      SELECT string_agg(format(printed, u.name), ', ' ORDER BY at)
      FROM unnest(t.columns) WITH ORDINALITY u (name, at))),
    -- (by an index)
    is_key = coalesce((
      SELECT string_agg(format(' AND x.%I = v.c%s', t.columns[at], at), '')
      FROM unnest(t.equal) at), ''),
    same_key = coalesce((
      SELECT string_agg(format(
        ' AND ' || printed || ' COLLATE "C" IS NOT DISTINCT FROM w.cells[%2$s]',
        t.columns[at], at), '')
      FROM unnest(t.key) at WHERE at <> ALL (t.equal)), ''),
    writable = ARRAY(
      SELECT at FROM unnest(t.columns) WITH ORDINALITY u (name, at)
      JOIN pg_attribute a ON a.attrelid = t.rel AND a.attname = u.name
      WHERE a.attgenerated = '' ORDER BY at),
    always = ARRAY(
      SELECT at FROM unnest(t.columns) WITH ORDINALITY u (name, at)
      JOIN pg_attribute a ON a.attrelid = t.rel AND a.attname = u.name
      WHERE a.attidentity = 'a');
  UPDATE pgsub_rows SET is_removed = was IS NULL, is_added = now IS NULL, changed = ARRAY(
    SELECT was[at] IS DISTINCT FROM now[at] FROM generate_subscripts(was, 1) at ORDER BY at);
  ANALYZE pgsub_rows;
END $pgsub$;
"""

READ = """\
-- The values, by the types of the columns. (The check of a domain may need the search path.)
DO $pgsub$
DECLARE it record; command text; theirs text;
BEGIN
  SELECT s.theirs INTO theirs FROM pgsub_settings s WHERE name = 'search_path';
  FOR it IN SELECT * FROM pgsub_tables ORDER BY t LOOP
    EXECUTE format(
      'CREATE TEMPORARY TABLE pgsub_values_%s ON COMMIT DROP AS'
      ' SELECT NULL::int8 AS n, NULL::bool AS is_now%s FROM %s x WITH NO DATA',
      it.t, (SELECT string_agg(format(', x.%I AS c%s', u.name, at), '' ORDER BY at)
        FROM unnest(it.columns) WITH ORDINALITY u (name, at)), it.only_name);
    FOR command IN
      SELECT format('INSERT INTO pg_temp.pgsub_values_%s VALUES %s', it.t, string_agg(
        format('(%s, %L%s)', r.n, r.is_now, (
          SELECT string_agg(', ' || quote_nullable(u.cell), '' ORDER BY at)
          FROM unnest(r.cells) WITH ORDINALITY u (cell, at))), ', '))
      FROM (
        SELECT r.n, i.*, sum(40 + octet_length(i.cells::text)) OVER (ORDER BY r.n) AS size
        FROM pgsub_rows r, LATERAL (VALUES (false, r.was), (true, r.now)) i (is_now, cells)
        WHERE r.t = it.t AND i.cells IS NOT NULL) r
      GROUP BY size / 100000
    LOOP
      PERFORM pg_catalog.set_config('search_path', theirs, true);
      EXECUTE command;
      PERFORM pg_catalog.set_config('search_path', '', true);
    END LOOP;
    EXECUTE format('ANALYZE pgsub_values_%s', it.t);
  END LOOP;
END $pgsub$;
"""

FIND = """\
-- Finds each row as the commits left it, and locks it. Somebody may have changed one since.
DO $pgsub$
DECLARE it record; there text; wrong text;
BEGIN
  FOR it IN SELECT * FROM pgsub_tables ORDER BY t LOOP
    there := format(
      'pgsub_rows r JOIN pgsub_values_%s v ON v.n = r.n AND v.is_now JOIN %s x ON r.now = %s%s',
      it.t, it.only_name, it.image, it.is_key);
    EXECUTE format('SELECT FROM %s FOR UPDATE OF x', there);
    -- (of several equal rows as many as the commits have made)
    EXECUTE format(
      'INSERT INTO pgsub_found SELECT r.n, %1$s, x.rel, x.place FROM ('
      ' SELECT n, now, row_number() OVER (PARTITION BY now ORDER BY n) AS copy'
      ' FROM pgsub_rows WHERE t = %1$s AND now IS NOT NULL) r JOIN ('
      ' SELECT *, row_number() OVER (PARTITION BY image ORDER BY rel, place) AS copy FROM ('
      ' SELECT DISTINCT x.tableoid AS rel, x.ctid AS place, r.now AS image FROM %2$s) i) x'
      ' ON x.image = r.now AND x.copy = r.copy', it.t, there);
  END LOOP;
  ANALYZE pgsub_found;
  SELECT r.told INTO wrong FROM pgsub_rows r
    WHERE r.now IS NOT NULL AND NOT EXISTS (SELECT FROM pgsub_found f WHERE f.n = r.n)
    ORDER BY r.n LIMIT 1;
  IF wrong IS NOT NULL THEN
    RAISE EXCEPTION '%: the row is another one by now', wrong;
  END IF;
  FOR it IN SELECT * FROM pgsub_tables WHERE cardinality(key) > 0 ORDER BY t LOOP
    EXECUTE format(
      'SELECT w.told FROM ('
      ' SELECT n, told, was AS cells FROM pgsub_rows WHERE t = %1$s AND was IS NOT NULL) w'
      ' JOIN pgsub_values_%1$s v ON v.n = w.n AND NOT v.is_now JOIN %2$s x ON true%3$s%4$s'
      ' WHERE NOT EXISTS ('
      ' SELECT FROM pgsub_found f WHERE f.rel = x.tableoid AND f.place = x.ctid)'
      ' ORDER BY w.n LIMIT 1', it.t, it.only_name, it.is_key, it.same_key) INTO wrong;
    IF wrong IS NOT NULL THEN
      RAISE EXCEPTION '%: there is a row with this key by now', wrong;
    END IF;
  END LOOP;
END $pgsub$;
"""

REPLACE = """\
-- Rows that can't be updated are removed and added again: where the column is GENERATED ALWAYS, and
-- where another row has by now what a unique constraint keeps from both having.
DO $pgsub$
DECLARE it record;
BEGIN
  UPDATE pgsub_rows r SET is_removed = true, is_added = true FROM pgsub_tables t
    WHERE r.t = t.t AND NOT r.is_removed AND NOT r.is_added
    AND EXISTS (SELECT FROM unnest(t.always) at WHERE r.changed[at]);
  FOR it IN
    SELECT t.t, ARRAY(
        SELECT array_position(t.columns, a.attname::text)
        FROM unnest(i.indkey[0 : i.indnkeyatts - 1]) key
        LEFT JOIN pg_attribute a ON a.attrelid = t.rel AND a.attnum = key) AS keys
      FROM pgsub_tables t JOIN pg_index i ON i.indrelid = t.rel
      WHERE i.indisunique AND i.indimmediate AND i.indislive
  LOOP
    -- (an expression has no column)
    CONTINUE WHEN array_position(it.keys, NULL) IS NOT NULL;
    WITH keyed AS MATERIALIZED (
      SELECT n, ARRAY(SELECT was[at] FROM unnest(it.keys) at) AS wants,
        ARRAY(SELECT now[at] FROM unnest(it.keys) at) AS has
      FROM pgsub_rows WHERE t = it.t AND was IS NOT NULL AND now IS NOT NULL)
    UPDATE pgsub_rows r SET is_removed = true, is_added = true
      FROM keyed mine JOIN keyed other ON other.has = mine.wants AND other.n <> mine.n
      WHERE r.n = mine.n AND array_position(mine.wants, NULL) IS NULL;
  END LOOP;
  UPDATE pgsub_found f SET is_removed = r.is_removed FROM pgsub_rows r WHERE r.n = f.n;
END $pgsub$;
"""

REFERENCES = """\
-- No row that isn't taken back may refer to one in such a way that it would be changed with it.
DO $pgsub$
DECLARE it record; wrong record;
BEGIN
  FOR it IN
    SELECT t.t, t.only_name, c.confrelid AS parent, c.conrelid::regclass AS child,
      CASE k.relkind WHEN 'p' THEN '' ELSE 'ONLY ' END AS only_child,
      c.confdeltype IN ('c', 'n', 'd') AS on_delete, c.confupdtype IN ('c', 'n', 'd') AS on_update,
      array_agg(array_position(t.columns, p.attname::text)) AS keys,
      string_agg(format('x.%I%s OPERATOR(%I.%s) y.%I%s',
        p.attname, CASE WHEN l.typtype <> 'p' THEN format('::%s', o.oprleft::regtype) END,
        n.nspname, o.oprname,
        f.attname, CASE WHEN g.typtype <> 'p' THEN format('::%s', o.oprright::regtype) END
      ), ' AND ') AS refers
    FROM pgsub_tables t
    JOIN pg_constraint c ON c.contype = 'f' AND c.conparentid = 0 AND (
      c.confrelid = t.rel OR c.confrelid IN (SELECT pg_partition_ancestors(t.rel))
      OR c.confrelid IN (SELECT relid FROM pg_partition_tree(t.rel)))
    JOIN pg_class k ON k.oid = c.conrelid
    CROSS JOIN LATERAL unnest(c.confkey, c.conkey, c.conpfeqop) u (parent, child, op)
    JOIN pg_attribute p ON p.attrelid = c.confrelid AND p.attnum = u.parent
    JOIN pg_attribute f ON f.attrelid = c.conrelid AND f.attnum = u.child
    JOIN pg_operator o ON o.oid = u.op JOIN pg_namespace n ON n.oid = o.oprnamespace
    JOIN pg_type l ON l.oid = o.oprleft JOIN pg_type g ON g.oid = o.oprright
    WHERE c.confdeltype IN ('c', 'n', 'd') OR c.confupdtype IN ('c', 'n', 'd')
    GROUP BY t.t, t.only_name, c.oid, c.confrelid, c.conrelid, k.relkind,
      c.confdeltype, c.confupdtype
  LOOP
    EXECUTE format(
      'SELECT r.told, y.tableoid::regclass AS child'
      ' FROM pgsub_found f JOIN pgsub_rows r ON r.n = f.n'
      ' JOIN %1$s x ON x.tableoid = f.rel AND x.ctid = f.place JOIN %2$s y ON %3$s'
      ' WHERE f.t = %4$s'
      ' AND (f.rel = %5$s OR f.rel IN (SELECT relid FROM pg_partition_tree(%5$s)))'
      ' AND CASE WHEN r.is_removed THEN %6$L'
      ' ELSE %7$L AND EXISTS (SELECT FROM unnest(%8$L::int4[]) at WHERE r.changed[at]) END'
      ' AND NOT EXISTS ('
      ' SELECT FROM pgsub_found g WHERE g.rel = y.tableoid AND g.place = y.ctid)'
      ' ORDER BY r.n LIMIT 1',
      it.only_name, it.only_child || it.child, it.refers, it.t, it.parent,
      it.on_delete, it.on_update, it.keys) INTO wrong;
    IF wrong.told IS NOT NULL THEN
      RAISE EXCEPTION '%: a row of % refers to it, isn''t taken back, and would change with it',
        wrong.told, wrong.child;
    END IF;
  END LOOP;
END $pgsub$;
"""

CHANGE = f"""\
-- Changes all rows by one statement. A part that counts what another has done comes after it.
SET CONSTRAINTS ALL DEFERRED;
DO $pgsub$
DECLARE it record; parts text[] := '{{}}'; reads text[] := '{{}}'; command text; part int4;
  here text := ' WHERE f.t OPERATOR(pg_catalog.=) %2$s AND x.tableoid OPERATOR(pg_catalog.=) f.rel'
    ' AND x.ctid OPERATOR(pg_catalog.=) f.place';
  restored text := 'v.n OPERATOR(pg_catalog.=) r.n AND NOT v.is_now';
BEGIN
  FOR it IN SELECT t.*, step FROM pgsub_tables t, generate_series(1, 3) step ORDER BY step, t LOOP
    CONTINUE WHEN NOT EXISTS (SELECT FROM pgsub_rows r WHERE r.t = it.t AND CASE it.step
      WHEN 1 THEN r.is_removed WHEN 2 THEN NOT r.is_removed AND NOT r.is_added
      ELSE r.is_added END);
    IF it.step = 1 THEN
      command := format(
        'DELETE FROM %1$s x USING pg_temp.pgsub_found f' || here || ' AND f.is_removed',
        it.only_name, it.t);
    ELSIF it.step = 2 THEN
      command := format(
        'UPDATE %1$s x SET %3$s'
        ' FROM pg_temp.pgsub_found f, pg_temp.pgsub_rows r, pg_temp.pgsub_values_%2$s v'
        || here || ' AND NOT f.is_removed AND r.n OPERATOR(pg_catalog.=) f.n AND ' || restored,
        it.only_name, it.t, (
          SELECT string_agg(format(
            '%1$I = CASE WHEN r.changed[%2$s] THEN v.c%2$s ELSE x.%1$I END',
            it.columns[at], at), ', ')
          FROM unnest(it.writable) at WHERE EXISTS (
            SELECT FROM pgsub_rows r
            WHERE r.t = it.t AND NOT r.is_removed AND NOT r.is_added AND r.changed[at])));
    ELSE
      command := format(
        'INSERT INTO %1$s AS x%3$s OVERRIDING SYSTEM VALUE SELECT %4$s'
        ' FROM pg_temp.pgsub_rows r, pg_temp.pgsub_values_%2$s v'
        ' WHERE r.t OPERATOR(pg_catalog.=) %2$s AND r.is_added AND ' || restored,
        it.name, it.t, (
          SELECT ' (' || string_agg(quote_ident(it.columns[at]), ', ' ORDER BY at) || ')'
          FROM unnest(it.writable) at), (
          SELECT string_agg(format('v.c%s', at), ', ' ORDER BY at) FROM unnest(it.writable) at));
    END IF;
    part := cardinality(parts);
    IF part > 0 THEN
      command := command || format(' AND (SELECT pg_catalog.count(*) FROM p%s) IS NOT NULL', part);
    END IF;
    parts := parts || format(
      'p%s AS (%s RETURNING %s AS n, x.tableoid AS rel, x.ctid AS place)', part + 1, command,
      CASE it.step WHEN 3 THEN 'NULL::pg_catalog.int8' ELSE 'f.n' END);
    reads := reads || format(
      'SELECT n, %s, rel, place, %L::pg_catalog.bool FROM p%s', it.t, it.step = 1, part + 1);
  END LOOP;
  IF cardinality(parts) > 0 THEN
    command := 'WITH ' || array_to_string(parts, ', ') || ' INSERT INTO pg_temp.pgsub_done '
      || array_to_string(reads, ' UNION ALL ');
    {TO_THEIRS}
    EXECUTE command;
    SET CONSTRAINTS ALL IMMEDIATE;
    {TO_OURS}
  END IF;
END $pgsub$;
"""

LOOK = """\
-- Looks at the rows before they are committed: triggers may have changed them.
DO $pgsub$
DECLARE it record; wrong text;
BEGIN
  FOR it IN SELECT * FROM pgsub_tables ORDER BY t LOOP
    SELECT r.told INTO wrong FROM pgsub_rows r WHERE r.t = it.t AND r.is_removed
      AND NOT EXISTS (SELECT FROM pgsub_done d WHERE d.n = r.n AND d.is_removed)
      ORDER BY r.n LIMIT 1;
    IF wrong IS NULL AND cardinality(it.key) > 0 THEN
      EXECUTE format(
        'SELECT w.told FROM ('
        ' SELECT n, told, now AS cells FROM pgsub_rows WHERE t = %1$s AND was IS NULL) w'
        ' JOIN pgsub_values_%1$s v ON v.n = w.n AND v.is_now JOIN %2$s x ON true%3$s%4$s'
        ' WHERE NOT EXISTS (SELECT FROM pgsub_rows o WHERE o.t = %1$s AND o.was = %5$s)'
        ' ORDER BY w.n LIMIT 1',
        it.t, it.only_name, it.is_key, it.same_key, it.image) INTO wrong;
    END IF;
    IF wrong IS NOT NULL THEN
      RAISE EXCEPTION '%: the row is still there, or again: a trigger keeps it', wrong;
    END IF;
    IF cardinality(it.key) > 0 THEN
      EXECUTE format(
        'SELECT r.told FROM pgsub_rows r JOIN pgsub_values_%1$s v ON v.n = r.n AND NOT v.is_now'
        ' WHERE r.t = %1$s AND NOT EXISTS (SELECT FROM %2$s x WHERE %3$s = r.was%4$s)'
        ' ORDER BY r.n LIMIT 1', it.t, it.only_name, it.image, it.is_key) INTO wrong;
    ELSE
      EXECUTE format(
        'SELECT r.told FROM ('
        ' SELECT n, told, was, row_number() OVER (PARTITION BY was ORDER BY n) AS copy'
        ' FROM pgsub_rows WHERE t = %1$s AND was IS NOT NULL) r LEFT JOIN ('
        ' SELECT image, row_number() OVER (PARTITION BY image) AS copy FROM ('
        ' SELECT %3$s AS image FROM pgsub_done d'
        ' JOIN %2$s x ON x.tableoid = d.rel AND x.ctid = d.place'
        ' WHERE d.t = %1$s AND NOT d.is_removed) x) x ON x.image = r.was AND x.copy = r.copy'
        ' WHERE x.copy IS NULL ORDER BY r.n LIMIT 1',
        it.t, it.only_name, it.image) INTO wrong;
    END IF;
    IF wrong IS NOT NULL THEN
      RAISE EXCEPTION '%: a trigger or a foreign key changes the restored row', wrong;
    END IF;
  END LOOP;
END $pgsub$;
"""
