package catalog

import "zanteyard/own"

// Each query returns only text, without NULL.

var encodingSQL = own.SQL(`SELECT pg_catalog.getdatabaseencoding()`)

// PathSQL is a SELECT of one text: the schemas in which a connection looks for names, in order. The first one is "" if that may
// change without a change of a schema: the setting names one that its user may use as a member of a role, or not at all, or
// they aren't what the setting names, since the user was renamed. The server looks at memberships and at a user's name only when
// some schema changes, a temporary one of another connection's perhaps, or once something has run as another user.
const PathSQL = `SELECT pg_catalog.array_to_json(pg_catalog.array_cat(CASE
  WHEN pg_catalog.current_setting('search_path') OPERATOR(pg_catalog.~) '` + readPath + `' AND coalesce(` + sureSchemas + `,
    pg_catalog.current_schemas(false) OPERATOR(pg_catalog.=) '{}'::pg_catalog.name[])
  THEN '{}'::pg_catalog.name[] ELSE ARRAY[''::pg_catalog.name] END, pg_catalog.current_schemas(false)))::pg_catalog.text`

const (
	// readPath are the forms of search_path that are read here: names without capitals, or quoted ones without commas and quotes.
	readPath = `^ *("[^",]*"|[a-z0-9_$]*)( *, *("[^",]*"|[a-z0-9_$]*))* *$`
	// sureSchemas says of the schemas that the setting names whether the user may use them all by a right of its own, and looks
	// for names in these; NULL if there are none. To be a superuser is no right, since that may end; one that somebody else than
	// the owner has granted doesn't count. It names no table that somebody may not read, and has to be cheap to plan: it is asked often.
	sureSchemas = `(SELECT pg_catalog.bool_and(coalesce(pg_catalog.aclcontains(` + rights + `, pg_catalog.makeaclitem(
    ` + me + `, n.nspowner, 'USAGE', false)) OR pg_catalog.aclcontains(` + rights + `, pg_catalog.makeaclitem(
    0::pg_catalog.oid, n.nspowner, 'USAGE', false)), false)) AND pg_catalog.current_schemas(false) OPERATOR(pg_catalog.=)
    pg_catalog.array_agg(n.nspname ORDER BY pg_catalog.array_position(path.its, n.nspname))
  FROM (SELECT ` + named + ` AS its OFFSET 0) path, pg_catalog.pg_namespace n
  WHERE n.nspname OPERATOR(pg_catalog.=) ANY (path.its))`
	named = `pg_catalog.array_replace(pg_catalog.string_to_array(pg_catalog.translate(
    pg_catalog.regexp_replace(pg_catalog.btrim(pg_catalog.current_setting('search_path')), ' *, *', ',', 'g'), '"', ''), ','),
    '$user', current_user::pg_catalog.text)::pg_catalog.name[]`
	rights = `coalesce(n.nspacl, pg_catalog.acldefault('n', n.nspowner))`
	me     = `pg_catalog.to_regrole(pg_catalog.quote_ident(current_user::pg_catalog.text))::pg_catalog.oid`
)

var typesSQL = own.SQL(`SELECT oid::pg_catalog.text, typtype::pg_catalog.text, typbasetype::pg_catalog.text, typname::pg_catalog.text FROM pg_catalog.pg_type
WHERE typtype IN ('d', 'e') OR typname = 'citext' AND typtype = 'b'`)

var tablesSQL = own.SQL(`SELECT c.oid::pg_catalog.text, n.nspname::pg_catalog.text, c.relname::pg_catalog.text, c.relkind::pg_catalog.text, c.relpersistence::pg_catalog.text,
  coalesce(a.amname::pg_catalog.text, ''), c.relreplident::pg_catalog.text, c.relrowsecurity::pg_catalog.text,
  EXISTS (SELECT FROM pg_catalog.pg_rewrite r WHERE r.ev_class = c.oid AND r.ev_type <> '1')::pg_catalog.text,
  CASE WHEN c.relispartition THEN coalesce(pg_catalog.pg_partition_root(c.oid)::pg_catalog.oid, c.oid) ELSE c.oid END::pg_catalog.text,
  (SELECT pg_catalog.count(*) FROM pg_catalog.pg_inherits i WHERE i.inhparent = c.oid AND c.relkind <> 'p')::pg_catalog.text,
  c.reltype::pg_catalog.text
FROM pg_catalog.pg_class c JOIN pg_catalog.pg_namespace n ON n.oid = c.relnamespace
  LEFT JOIN pg_catalog.pg_am a ON a.oid = c.relam
WHERE c.relkind IN ('r', 'p', 'v', 'm', 'f', 'S') AND c.relpersistence <> 't'
  AND n.nspname NOT IN ('pg_catalog', 'information_schema', 'pg_toast')`)

var columnsSQL = own.SQL(`SELECT a.attrelid::pg_catalog.text, a.attnum::pg_catalog.text, a.attname::pg_catalog.text, a.atttypid::pg_catalog.text
FROM pg_catalog.pg_attribute a JOIN pg_catalog.pg_class c ON c.oid = a.attrelid
WHERE a.attnum > 0 AND NOT a.attisdropped AND c.relkind IN ('r', 'p') AND c.relpersistence <> 't'
ORDER BY a.attrelid, a.attnum`)

// IdentitySQL is the text that IdentityOf makes a key's identity from, by the row i of pg_index. The xmin of what has
// been changed and changed back is another one. Whether there is row security is in it, since that hides a key's row. It
// is the same text on connections of all encodings.
const IdentitySQL = `(SELECT pg_catalog.encode(pg_catalog.convert_to(pg_catalog.concat_ws(' ', i.indexrelid, i.indkey,
    (SELECT tk.relrowsecurity FROM pg_catalog.pg_class tk WHERE tk.oid OPERATOR(pg_catalog.=) i.indrelid), pg_catalog.string_agg(pg_catalog.concat_ws(' ',
    ka.attnum, ka.attname, ka.atttypid, ka.xmin, (SELECT pg_catalog.string_agg(pg_catalog.concat_ws(' ', e.oid, e.enumlabel,
      e.xmin), ',' ORDER BY e.oid) FROM pg_catalog.pg_enum e, pg_catalog.pg_type kt WHERE kt.oid OPERATOR(pg_catalog.=)
      ka.atttypid AND e.enumtypid OPERATOR(pg_catalog.=) (CASE kt.typtype WHEN 'd' THEN kt.typbasetype ELSE kt.oid END))),
    ';' ORDER BY ka.attnum)), pg_catalog.getdatabaseencoding()), 'hex') FROM pg_catalog.pg_attribute ka
  WHERE ka.attrelid OPERATOR(pg_catalog.=) i.indrelid AND ka.attnum OPERATOR(pg_catalog.=) ANY (i.indkey))`

var indexesSQL = own.SQL(`SELECT i.indrelid::pg_catalog.text, i.indisprimary::pg_catalog.text, i.indisreplident::pg_catalog.text, i.indnkeyatts::pg_catalog.text,
  i.indkey::pg_catalog.text, m.amname::pg_catalog.text,
  CASE WHEN i.indisprimary THEN ` + IdentitySQL + ` ELSE '' END, i.indimmediate::pg_catalog.text,
  (i.indisunique AND i.indimmediate AND i.indpred IS NULL AND i.indexprs IS NULL)::pg_catalog.text
FROM pg_catalog.pg_index i JOIN pg_catalog.pg_class x ON x.oid = i.indexrelid JOIN pg_catalog.pg_am m ON m.oid = x.relam
WHERE i.indisvalid`)

var triggersSQL = own.SQL(`SELECT DISTINCT tgrelid::pg_catalog.text FROM pg_catalog.pg_trigger WHERE NOT tgisinternal AND tgenabled <> 'D'`)

// Foreign keys that the server checks: a row that is inserted has the row to which it refers, from then on. A trigger or a rule
// on the table could keep ON DELETE CASCADE and the like from what they do, and what a subscription writes isn't checked.
// Tables with partitions or inheritance have rows of several.
var referencesSQL = own.SQL(`SELECT k.conrelid::pg_catalog.text, k.confrelid::pg_catalog.text, pg_catalog.array_to_string(k.conkey, ' '),
  pg_catalog.array_to_string(k.confkey, ' '), (NOT EXISTS (SELECT FROM pg_catalog.pg_attribute a WHERE a.attrelid = k.conrelid
    AND a.attnum = ANY (k.conkey) AND NOT a.attnotnull))::pg_catalog.text
FROM pg_catalog.pg_constraint k
WHERE k.contype = 'f' AND k.convalidated
  AND NOT EXISTS (SELECT FROM pg_catalog.pg_class c WHERE c.oid IN (k.conrelid, k.confrelid)
    AND (c.relkind <> 'r' OR c.relispartition OR c.relpersistence <> 'p'))
  AND NOT EXISTS (SELECT FROM pg_catalog.pg_inherits h WHERE h.inhparent IN (k.conrelid, k.confrelid))
  AND (SELECT pg_catalog.count(*) FROM pg_catalog.pg_trigger t WHERE t.tgconstraint = k.oid AND t.tgenabled IN ('O', 'A')) = 4
  AND NOT EXISTS (SELECT FROM pg_catalog.unnest(k.conpfeqop) o(number) WHERE o.number >= 16384)
  AND (k.confdeltype IN ('a', 'r') AND k.confupdtype IN ('a', 'r')
    OR NOT EXISTS (SELECT FROM pg_catalog.pg_trigger t WHERE t.tgrelid = k.conrelid AND NOT t.tgisinternal)
      AND NOT EXISTS (SELECT FROM pg_catalog.pg_rewrite r WHERE r.ev_class = k.conrelid))
  AND NOT EXISTS (SELECT FROM pg_catalog.pg_subscription_rel s WHERE s.srrelid IN (k.conrelid, k.confrelid))`)

// What writing to a table may call of what others have made: functions and operators of defaults, constraints, indexes
// and partition keys. Two columns are tables, of which the second one's rows change with the first one's, by a foreign key.
var callsSQL = own.SQL(`SELECT DISTINCT x.relation::pg_catalog.text, '0' FROM (
  SELECT adrelid AS relation, 'pg_catalog.pg_attrdef'::pg_catalog.regclass AS class, oid AS object FROM pg_catalog.pg_attrdef
  UNION ALL SELECT conrelid, 'pg_catalog.pg_constraint'::pg_catalog.regclass, oid FROM pg_catalog.pg_constraint WHERE conrelid <> 0
  UNION ALL SELECT indrelid, 'pg_catalog.pg_class'::pg_catalog.regclass, indexrelid FROM pg_catalog.pg_index
    WHERE indexprs IS NOT NULL OR indpred IS NOT NULL
  UNION ALL SELECT partrelid, 'pg_catalog.pg_class'::pg_catalog.regclass, partrelid FROM pg_catalog.pg_partitioned_table) x
JOIN pg_catalog.pg_depend d ON d.classid = x.class AND d.objid = x.object
WHERE d.refclassid IN ('pg_catalog.pg_proc'::pg_catalog.regclass, 'pg_catalog.pg_operator'::pg_catalog.regclass)
UNION ALL SELECT DISTINCT tgrelid::pg_catalog.text, '0' FROM pg_catalog.pg_trigger WHERE NOT tgisinternal
UNION ALL SELECT DISTINCT confrelid::pg_catalog.text, conrelid::pg_catalog.text FROM pg_catalog.pg_constraint
WHERE contype = 'f' AND (confupdtype IN ('c', 'n', 'd') OR confdeltype IN ('c', 'n', 'd'))`)

// What reading a table may call of what others have made: the server evaluates parts of indexes, checks, partition keys and
// statistics when it plans, and estimates ranges by their types' own functions. What a partition does, its parents do.
var plannedSQL = own.SQL(`WITH RECURSIVE its AS (SELECT x.relation FROM (
    SELECT conrelid AS relation, 'pg_catalog.pg_constraint'::pg_catalog.regclass AS class, oid AS object FROM pg_catalog.pg_constraint
    WHERE conrelid <> 0 AND contype = 'c'
    UNION ALL SELECT indrelid, 'pg_catalog.pg_class'::pg_catalog.regclass, indexrelid FROM pg_catalog.pg_index
      WHERE indexprs IS NOT NULL OR indpred IS NOT NULL
    UNION ALL SELECT partrelid, 'pg_catalog.pg_class'::pg_catalog.regclass, partrelid FROM pg_catalog.pg_partitioned_table
    UNION ALL SELECT stxrelid, 'pg_catalog.pg_statistic_ext'::pg_catalog.regclass, oid FROM pg_catalog.pg_statistic_ext) x
  JOIN pg_catalog.pg_depend d ON d.classid = x.class AND d.objid = x.object
  LEFT JOIN pg_catalog.pg_operator o ON d.refclassid = 'pg_catalog.pg_operator'::pg_catalog.regclass AND o.oid = d.refobjid
  JOIN pg_catalog.pg_proc p ON p.oid = coalesce(o.oprcode, d.refobjid)
  JOIN pg_catalog.pg_language l ON l.oid = p.prolang
  WHERE (o.oid IS NOT NULL OR d.refclassid = 'pg_catalog.pg_proc'::pg_catalog.regclass) AND l.lanname NOT IN ('c', 'internal')
  UNION SELECT a.attrelid FROM pg_catalog.pg_attribute a JOIN pg_catalog.pg_type t ON t.oid = a.atttypid
  JOIN pg_catalog.pg_range r ON CASE t.typtype WHEN 'd' THEN t.typbasetype ELSE t.oid END::pg_catalog.text
    IN (r.rngtypid::pg_catalog.text, pg_catalog.to_jsonb(r) ->> 'rngmultitypid')
  JOIN pg_catalog.pg_proc p ON p.oid IN (r.rngsubdiff, r.rngcanonical) JOIN pg_catalog.pg_language l ON l.oid = p.prolang
  WHERE l.lanname NOT IN ('c', 'internal')
  UNION SELECT h.inhparent FROM its JOIN pg_catalog.pg_inherits h ON h.inhrelid = its.relation)
SELECT DISTINCT its.relation::pg_catalog.text FROM its`)

// Whether any statement may call what others have made, without naming it: operators, casts, and domains that are
// checked by functions.
var foreignSQL = own.SQL(`SELECT (EXISTS (SELECT FROM pg_catalog.pg_operator o JOIN pg_catalog.pg_proc p ON p.oid = o.oprcode
    JOIN pg_catalog.pg_language l ON l.oid = p.prolang WHERE o.oid >= 16384 AND l.lanname NOT IN ('c', 'internal'))
  OR EXISTS (SELECT FROM pg_catalog.pg_cast c JOIN pg_catalog.pg_proc p ON p.oid = c.castfunc
    JOIN pg_catalog.pg_language l ON l.oid = p.prolang WHERE c.oid >= 16384 AND l.lanname NOT IN ('c', 'internal'))
  OR EXISTS (SELECT FROM pg_catalog.pg_constraint k JOIN pg_catalog.pg_depend d ON d.objid = k.oid
    AND d.classid = 'pg_catalog.pg_constraint'::pg_catalog.regclass WHERE k.contypid <> 0
    AND d.refclassid IN ('pg_catalog.pg_proc'::pg_catalog.regclass, 'pg_catalog.pg_operator'::pg_catalog.regclass)))::pg_catalog.text`)

// A function of an extension is trusted about itself if it is written in C; in another language it may call anything.
// The next columns say whether the function may change the meaning of names, and the level of later transactions, and
// whether it can be nothing but an aggregate. The last one knows functions that the server has in SQL, such as
// col_description and age: their names and operators were resolved when they were made, so nobody can put something else in
// their place, and who replaces one by something that uses what others have made leaves a dependency, or a text.
var functionsSQL = own.SQL(`SELECT p.proname::pg_catalog.text, n.nspname::pg_catalog.text, pg_catalog.bool_or(p.prokind = 'a')::pg_catalog.text,
  pg_catalog.bool_or(p.prokind = 'w')::pg_catalog.text, pg_catalog.bool_or(p.proretset)::pg_catalog.text,
  pg_catalog.bool_and(p.provolatile = 'i' OR p.provolatile = 's' AND l.lanname IN ('c', 'internal'))::pg_catalog.text,
  pg_catalog.bool_or(l.lanname NOT IN ('c', 'internal')
    AND p.prosrc ~* 'set_config|search_path|\mrole\M|authorization|\mtemp|\mcreate\M|\malter\M|\mdrop\M|\mexecute\M|\mprepare\M|\mdeallocate\M')::pg_catalog.text,
  pg_catalog.bool_or(l.lanname NOT IN ('c', 'internal')
    AND p.prosrc ~* 'transaction_isolation|characteristics|set_config|\mreset\M|\mexecute\M')::pg_catalog.text,
  pg_catalog.bool_or(l.lanname NOT IN ('c', 'internal') OR p.prokind = 'a')::pg_catalog.text,
  pg_catalog.bool_and(p.prokind = 'a')::pg_catalog.text,
  pg_catalog.bool_and(p.provolatile <> 'v' AND CASE WHEN l.lanname IN ('c', 'internal') THEN true
    WHEN p.oid < 16384 AND l.lanname = 'sql' THEN pg_catalog.to_jsonb(p) ->> 'prosqlbody' IS NOT NULL
      AND NOT EXISTS (SELECT FROM pg_catalog.pg_depend d WHERE d.classid = 'pg_catalog.pg_proc'::pg_catalog.regclass
        AND d.objid = p.oid AND d.refobjid >= 16384)
    ELSE false END)::pg_catalog.text
FROM pg_catalog.pg_proc p JOIN pg_catalog.pg_namespace n ON n.oid = p.pronamespace
  JOIN pg_catalog.pg_language l ON l.oid = p.prolang
GROUP BY p.proname, n.nspname`)

var operatorsSQL = own.SQL(`SELECT o.oprname::pg_catalog.text, pg_catalog.bool_or(p.proretset)::pg_catalog.text,
  pg_catalog.bool_and(p.provolatile = 'i' OR p.provolatile = 's' AND l.lanname IN ('c', 'internal'))::pg_catalog.text
FROM pg_catalog.pg_operator o
  JOIN pg_catalog.pg_namespace n ON n.oid = o.oprnamespace JOIN pg_catalog.pg_proc p ON p.oid = o.oprcode
  JOIN pg_catalog.pg_language l ON l.oid = p.prolang
WHERE n.nspname <> 'pg_catalog'
  AND (p.proretset OR NOT (p.provolatile = 'i' OR p.provolatile = 's' AND l.lanname IN ('c', 'internal')))
GROUP BY o.oprname`)

// ColumnsSQL is the text that IdentityOf makes the identity of all columns of the table c of pg_class from: what they
// are called, their types and collations, when each was last changed, and what else decides which rows a condition means
// (besideColumns). Where a column's type is a domain or an enumeration, all enumerations' labels are in it. It is the same
// text on connections of all encodings.
const ColumnsSQL = `(SELECT pg_catalog.encode(pg_catalog.sha256(pg_catalog.convert_to(pg_catalog.concat_ws(' ', ` + besideColumns + `,
    pg_catalog.string_agg(pg_catalog.concat_ws(' ', ca.attnum, ca.attname, ca.atttypid, ca.atttypmod, ca.attcollation, ca.xmin,
    CASE WHEN (SELECT y.typtype FROM pg_catalog.pg_type y WHERE y.oid OPERATOR(pg_catalog.=) ca.atttypid) IN ('d', 'e')
      THEN (SELECT pg_catalog.string_agg(pg_catalog.concat_ws(' ', e.enumtypid, e.oid, e.enumlabel, e.enumsortorder, e.xmin), ','
        ORDER BY e.oid) FROM pg_catalog.pg_enum e) END),
    ';' ORDER BY ca.attnum)), pg_catalog.getdatabaseencoding())), 'hex') FROM pg_catalog.pg_attribute ca
  WHERE ca.attrelid OPERATOR(pg_catalog.=) c.oid AND ca.attnum OPERATOR(pg_catalog.>) 0)`

// ColumnsStampSQL is a text that changes whenever ColumnsSQL does, other than by an enumeration, and that takes a fraction
// of its time: whoever changes a column writes its row in the catalog.
const ColumnsStampSQL = `(SELECT pg_catalog.concat_ws(' ', ` + besideColumns + `, pg_catalog.count(*),
    pg_catalog.sum(ca.xmin::pg_catalog.text::pg_catalog.int8)) FROM pg_catalog.pg_attribute ca
  WHERE ca.attrelid OPERATOR(pg_catalog.=) c.oid AND ca.attnum OPERATOR(pg_catalog.>) 0)`

// besideColumns: row security may hide rows, triggers and rules may keep them from being written, and partitions may be
// attached and detached. The server checks foreign keys by triggers of its own, on both tables.
const besideColumns = `c.relrowsecurity, CASE WHEN c.relhastriggers THEN ` + triggersOf + `c.oid) END,
    CASE WHEN c.relhasrules THEN (SELECT pg_catalog.concat_ws(',', pg_catalog.count(*), pg_catalog.sum(ru.xmin::pg_catalog.text::pg_catalog.int8))
      FROM pg_catalog.pg_rewrite ru WHERE ru.ev_class OPERATOR(pg_catalog.=) c.oid) END,
    CASE WHEN c.relkind OPERATOR(pg_catalog.=) 'p' THEN
      (WITH RECURSIVE parts AS (SELECT h.inhrelid, h.xmin FROM pg_catalog.pg_inherits h WHERE h.inhparent OPERATOR(pg_catalog.=) c.oid
        UNION ALL SELECT h.inhrelid, h.xmin FROM parts JOIN pg_catalog.pg_inherits h ON h.inhparent OPERATOR(pg_catalog.=) parts.inhrelid)
      SELECT pg_catalog.string_agg(pg_catalog.concat_ws(' ', parts.inhrelid, parts.xmin, ` + triggersOf + `parts.inhrelid)), ','
        ORDER BY parts.inhrelid) FROM parts) END`

const triggersOf = `(SELECT pg_catalog.concat_ws(',', pg_catalog.count(*), pg_catalog.sum(tg.xmin::pg_catalog.text::pg_catalog.int8))
      FROM pg_catalog.pg_trigger tg WHERE tg.tgrelid OPERATOR(pg_catalog.=) `

// MadeSQL is a text that changes with what somebody has made by the names that conditions use: operators, implicit casts,
// functions that make ranges. It changes with the labels of enumerations, too.
const MadeSQL = `pg_catalog.concat_ws(' ',
  (SELECT pg_catalog.concat_ws(',', pg_catalog.count(*), pg_catalog.sum(mo.xmin::pg_catalog.text::pg_catalog.int8))
   FROM pg_catalog.pg_operator mo WHERE mo.oid OPERATOR(pg_catalog.>=) 16384::pg_catalog.oid AND mo.oprname OPERATOR(pg_catalog.=)
     ANY ('{=,<>,<,<=,>,>=,~~,!~~,&&,@>,<@}'::pg_catalog.name[])),
  (SELECT pg_catalog.concat_ws(',', pg_catalog.count(*), pg_catalog.sum(mc.xmin::pg_catalog.text::pg_catalog.int8))
   FROM pg_catalog.pg_cast mc WHERE mc.oid OPERATOR(pg_catalog.>=) 16384::pg_catalog.oid AND mc.castcontext OPERATOR(pg_catalog.=) 'i'),
  (SELECT pg_catalog.concat_ws(',', pg_catalog.count(*), pg_catalog.sum(mp.xmin::pg_catalog.text::pg_catalog.int8))
   FROM pg_catalog.pg_proc mp WHERE mp.oid OPERATOR(pg_catalog.>=) 16384::pg_catalog.oid AND mp.proname OPERATOR(pg_catalog.=)
     ANY ('{int4range,int8range,numrange,tsrange,tstzrange,daterange}'::pg_catalog.name[])),
  (SELECT pg_catalog.concat_ws(',', pg_catalog.count(*), pg_catalog.sum(me.xmin::pg_catalog.text::pg_catalog.int8))
   FROM pg_catalog.pg_enum me))`

var madeSQL = own.SQL(`SELECT ` + MadeSQL)

var allColumnsSQL = own.SQL(`SELECT c.oid::pg_catalog.text, ` + ColumnsSQL + ` FROM pg_catalog.pg_class c
WHERE c.relkind IN ('r', 'p') AND c.relpersistence = 'p' AND c.oid >= 16384`)
