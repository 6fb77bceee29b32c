package slot

import (
	"context"
	"errors"
	"fmt"
	"math"
	"strconv"
	"strings"
	"sync"
	"time"

	"github.com/jackc/pgconn"

	"zanteyard/catalog"
	"zanteyard/join"
	"zanteyard/own"
	"zanteyard/record"
)

// Control is the audit's own connection for questions. It implements join.Server. If the connection is lost, the next
// question makes another.
type Control struct {
	options Options
	tables  *Tables

	lock     sync.Mutex
	conn     *pgconn.PgConn
	prepared bool  // placeSQL and analysedSQL are prepared on conn
	mark     int64 // of the connection that reads the slot; 0 before that
	reloaded time.Time

	// What was found changed, and isn't told yet, since a Place has failed behind it.
	changed   []record.Relation
	rewritten []join.Rewritten
	remade    bool
	mayMean   bool
	reread    bool
	analysed  string  // what analysedSQL returned last
	roles     string  // and the number of all roles and their names
	settings  float64 // when the settings were read last, in seconds; 0 if that isn't known
}

// NewControl connects, and reads the catalog.
func NewControl(ctx context.Context, options Options) (*Control, *Tables, error) {
	c := &Control{options: options, tables: newTables(options.Show)}
	if err := c.Load(ctx); err != nil {
		return nil, nil, err
	}
	return c, c.tables, nil
}

// Close ends the connection.
func (c *Control) Close(ctx context.Context) {
	c.lock.Lock()
	defer c.lock.Unlock()
	if c.conn != nil {
		c.conn.Close(ctx)
	}
}

// ask runs statements without parameters, and returns the last one's rows as text. NULL is an empty text.
func (c *Control) ask(ctx context.Context, text own.Text) ([][]string, error) {
	c.lock.Lock()
	defer c.lock.Unlock()
	if err := c.connect(ctx); err != nil {
		return nil, err
	}
	return own.Ask(ctx, c.conn, text)
}

// connect makes a connection if there is none. Called with lock held.
func (c *Control) connect(ctx context.Context) error {
	if c.conn != nil && !c.conn.IsClosed() {
		return nil
	}
	conn, err := connect(ctx, c.options, false)
	if err != nil {
		return fmt.Errorf("connect to the server: %w", err)
	}
	if err := sees(ctx, conn, c.mark); err != nil {
		conn.Close(ctx)
		return err
	}
	c.conn, c.prepared = conn, false
	return nil
}

// sees returns an error if a connection isn't to the server that has the mark.
func sees(ctx context.Context, conn *pgconn.PgConn, mark int64) error {
	if mark == 0 {
		return nil
	}
	is, err := own.SeesMark(ctx, conn, mark)
	if err == nil && !is {
		err = own.ErrElsewhere
	}
	return err
}

// Follow makes every question be put to the server that has this mark. The connection that there is has to be to it.
func (c *Control) Follow(ctx context.Context, mark int64) error {
	c.lock.Lock()
	defer c.lock.Unlock()
	c.mark = mark
	if c.conn == nil || c.conn.IsClosed() {
		return nil
	}
	return sees(ctx, c.conn, mark)
}

// where asks where the log stands, for the stamps of these tables, and when the server last analysed analysedSQL. It is
// called so often that the statements are worth preparing.
func (c *Control) where(ctx context.Context, tables string) (place [][]string, analysed string, err error) {
	c.lock.Lock()
	defer c.lock.Unlock()
	if err := c.connect(ctx); err != nil {
		return nil, "", err
	}
	if !c.prepared {
		text := placeSQL
		if c.options.Values != nil {
			text = valuesPlaceSQL
		}
		if err := own.Prepare(ctx, c.conn, placeName, text); err != nil {
			return nil, "", err
		}
		if err := own.Prepare(ctx, c.conn, analysedName, analysedSQL); err != nil {
			return nil, "", err
		}
		c.prepared = true
	}
	its, err := own.AskPrepared(ctx, c.conn, own.Prepared{Name: placeName, Parameters: []string{tables}},
		own.Prepared{Name: analysedName})
	if err != nil {
		// Somebody, such as a pooler, may have dropped one: the next question prepares them again, on another connection.
		c.conn.Close(ctx)
		return nil, "", err
	}
	if len(its[1]) != 1 || len(its[1][0]) != 2 || its[1][0][0] == "" {
		return nil, "", errForm
	}
	read, err := strconv.ParseFloat(its[1][0][1], 64)
	if err != nil {
		return nil, "", errForm
	}
	c.reread = c.reread || c.settings > 0 && read > c.settings
	c.settings = math.Max(c.settings, read)
	return its[0], its[1][0][0], nil
}

const placeName, analysedName = "zanteyard.place", "zanteyard.analysed"

// analysedSQL returns when the server has analysed it: the constant is read then, not when the statement is run. A
// prepared statement is analysed again at its next run after any transaction has committed that made, changed or dropped
// an operator or a schema. So an operator that was made and dropped between two questions is noticed, though nothing is
// left of it in the catalog. It names no table, whose own changes would count as well.
//
// Beside it, when the settings were read last, in seconds. A backend that is new says when the server read them, so the time
// is later than an older backend's only if they were read again.
var analysedSQL = own.SQL("SELECT 'now'::pg_catalog.timestamptz, pg_catalog.date_part('epoch', pg_catalog.pg_conf_load_time())")

// one returns the only value of a statement.
func (c *Control) one(ctx context.Context, text own.Text) (string, error) {
	c.lock.Lock()
	defer c.lock.Unlock()
	if err := c.connect(ctx); err != nil {
		return "", err
	}
	return own.One(ctx, c.conn, text)
}

// Place implements join.Server. The same statement checks the tables that the slot has reported; if one has changed,
// the catalog is read again, and all is asked again.
//
// It is called by one goroutine.
func (c *Control) Place(ctx context.Context) (join.Place, error) {
	place, err := c.place(ctx)
	if err == nil {
		place.Reread = c.reread
		c.changed, c.rewritten, c.remade, c.mayMean, c.reread = nil, nil, false, false, false
	}
	return place, err
}

func (c *Control) place(ctx context.Context) (join.Place, error) {
	for again := 0; ; again++ {
		oids, used := c.tables.usedText()
		rows, analysed, err := c.where(ctx, oids)
		if err != nil {
			return join.Place{}, err
		}
		if len(rows) != 1 || len(rows[0]) < 5 {
			return join.Place{}, errForm
		}
		mayMean := analysed != c.analysed || rows[0][4] != c.roles
		c.mayMean = c.mayMean || mayMean
		c.analysed, c.roles = analysed, rows[0][4]
		remade := len(rows[0]) > 5 && c.tables.remade(rows[0][5])
		c.remade = c.remade || remade
		if (mayMean || remade) && c.options.Remade != nil {
			c.options.Remade()
		}
		at, ok := parsePlace(rows[0][0])
		if !ok {
			return join.Place{}, errForm
		}
		place := join.Place{At: at, Changed: c.changed, Names: c.tables.Names(), Used: used, Shows: rows[0][2]}
		if err := c.tables.hides(); err != nil {
			return join.Place{}, err
		}
		switch {
		case !remade && rows[0][1] == c.tables.usedStamp() && !(c.tables.Missing() && c.mayReload()):
			place.Rewritten = append(c.rewritten, c.tables.versions(rows[0][3])...)
			place.Remade, place.MayMean = c.remade, c.mayMean
			return place, nil
		case again == mostReloads: // somebody changes one table after the other: nothing is verified for now
			place.Unsure, place.Rewritten, place.Remade, place.MayMean = true, c.rewritten, c.remade, c.mayMean
			return place, nil
		}
		more, also, err := c.reload(ctx)
		if err != nil {
			return join.Place{}, err
		}
		c.changed, c.rewritten = append(c.changed, more...), append(c.rewritten, also...)
	}
}

// mostReloads is how often the catalog is read again for one place.
const mostReloads = 2

// mayReload reports whether the last time is long enough ago: names that the catalog no longer has stay unknown.
func (c *Control) mayReload() bool {
	c.lock.Lock()
	defer c.lock.Unlock()
	return time.Since(c.reloaded) > 250*time.Millisecond
}

// versionOfOne is a text that changes whenever what decides a table's name or its replica identity is written, also if it
// is the same afterwards, and with TRUNCATE and the like. It has the table's number, and then who wrote each part last: the
// table's own row, its schema's, and those of its indexes.
const versionOfOne = `pg_catalog.concat_ws(' ', c.oid, pg_catalog.concat_ws(':', 'table', c.xmin), pg_catalog.concat_ws(':', 'schema', n.xmin),
  (SELECT pg_catalog.string_agg(pg_catalog.concat_ws(':', x.indexrelid, x.xmin), ' ' ORDER BY x.indexrelid)
   FROM pg_catalog.pg_index x WHERE x.indrelid = c.oid))`

// stampOfOne is a text that changes with a table's name or key.
const stampOfOne = "pg_catalog.concat_ws(' ', c.oid, n.nspname, c.relname, c.relispartition, c.relreplident, i.indisreplident, " + catalog.IdentitySQL + ")"

const (
	placeBegin = "SELECT pg_catalog.pg_current_wal_insert_lsn(), s.stamps, pg_catalog.pg_current_snapshot(), s.versions, " + rolesSQL
	// rolesSQL changes with a role's name: "$user" in a search path is a schema of that name.
	rolesSQL = `(SELECT pg_catalog.concat_ws(',', pg_catalog.count(*), pg_catalog.sum(pg_catalog.hashtextextended(r.rolname::pg_catalog.text,
    r.oid::pg_catalog.int8))) FROM pg_catalog.pg_roles r)`
	placeFrom = " FROM (SELECT pg_catalog.string_agg("
	placeEnd  = ", '; ' ORDER BY c.oid) AS stamps, pg_catalog.string_agg(" + versionOfOne + `, '; ' ORDER BY c.oid) AS versions
  FROM pg_catalog.pg_class c JOIN pg_catalog.pg_namespace n ON n.oid = c.relnamespace
  LEFT JOIN pg_catalog.pg_index i ON i.indrelid = c.oid AND i.indisprimary
  WHERE c.oid = ANY($1::pg_catalog.oid[])) s`
)

var placeSQL = own.SQL(placeBegin + placeFrom + stampOfOne + placeEnd)

// The same for an audit that wants rows' values: a stamp then changes with each column. The last value changes with what
// operators and the like mean.
const valuesStampOfOne = "pg_catalog.concat_ws(' ', c.oid, n.nspname, c.relname, c.relispartition, c.relreplident, i.indisreplident, " +
	catalog.IdentitySQL + ", " + catalog.ColumnsStampSQL + ")"

var valuesPlaceSQL = own.SQL(placeBegin + ", " + catalog.MadeSQL + placeFrom + valuesStampOfOne + placeEnd)

// columnsSQL returns the columns of tables, other than partitions, whose rows' values may be wanted. What a table's
// columns mean takes long to tell, so it is told once for each table.
var columnsSQL = own.SQL(`WITH stamped AS (SELECT c.oid, ` + catalog.ColumnsSQL + ` AS its, ` + valuesStampOfOne + ` AS stamp
  FROM pg_catalog.pg_class c JOIN pg_catalog.pg_namespace n ON n.oid = c.relnamespace
  LEFT JOIN pg_catalog.pg_index i ON i.indrelid = c.oid AND i.indisprimary
  WHERE c.relkind IN ('r', 'p') AND c.relpersistence = 'p' AND n.nspname NOT IN ('pg_catalog', 'information_schema') OFFSET 0)
SELECT c.oid, c.its, c.stamp, a.attname, a.attnum,
  CASE WHEN t.typtype = 'e' THEN 3500 WHEN t.typname = 'citext' THEN 25 ELSE t.oid END
FROM stamped c
JOIN pg_catalog.pg_attribute a ON a.attrelid = c.oid AND a.attnum > 0 AND NOT a.attisdropped
LEFT JOIN LATERAL (WITH RECURSIVE base AS (SELECT y.oid, y.typtype, y.typbasetype, y.typname FROM pg_catalog.pg_type y
    WHERE y.oid = a.atttypid UNION ALL SELECT y.oid, y.typtype, y.typbasetype, y.typname FROM base
    JOIN pg_catalog.pg_type y ON y.oid = base.typbasetype WHERE base.typtype = 'd')
  SELECT * FROM base WHERE base.typtype <> 'd') t ON true
ORDER BY c.oid, a.attnum`)

// Sees reports whether the server has an advisory lock with this number in the slot's database: whoever holds it is
// connected to the same one.
func (c *Control) Sees(ctx context.Context, lock int64) (bool, error) {
	text, err := c.one(ctx, own.MarkSQL(lock))
	return text == "1", err
}

// Base implements join.Server.
func (c *Control) Base(ctx context.Context) (uint32, error) {
	text, err := c.one(ctx, own.SQL("SELECT pg_catalog.pg_snapshot_xmin(pg_catalog.pg_current_snapshot())"))
	if err != nil {
		return 0, err
	}
	number, err := strconv.ParseUint(text, 10, 64)
	return uint32(number), err
}

// Inspects returns why subtransactions can't be looked up, "" if they can: the role may call the function of the
// extension pg_walinspect, and nobody can have put another one in its place.
func (c *Control) Inspects(ctx context.Context) (reason string) {
	_, reason = c.inspector(ctx)
	return reason
}

// inspector is the function that shows a record of the log: where it is, and its identifier.
type inspector struct{ schema, function string }

// The function is found by the extension that it belongs to, never by its name alone. It is written in C, which only a
// superuser can make, and belongs to one, as the extension and its schema do, or to the audit's own role. Who owned the
// schema could rename it after this question and put another one in its place.
var inspectorSQL = own.SQL(`SELECT n.nspname, p.oid, pg_catalog.has_function_privilege(p.oid, 'EXECUTE')
    AND pg_catalog.has_schema_privilege(n.oid, 'USAGE'),
  (f.rolsuper OR f.rolname = current_user) AND (o.rolsuper OR o.rolname = current_user)
    AND l.lanname = 'c' AND p.probin = '$libdir/pg_walinspect',
  (s.rolsuper OR s.rolname = current_user)
FROM pg_catalog.pg_extension e
JOIN pg_catalog.pg_depend d ON d.refclassid = 'pg_catalog.pg_extension'::pg_catalog.regclass AND d.refobjid = e.oid
  AND d.classid = 'pg_catalog.pg_proc'::pg_catalog.regclass AND d.deptype = 'e'
JOIN pg_catalog.pg_proc p ON p.oid = d.objid
JOIN pg_catalog.pg_language l ON l.oid = p.prolang
JOIN pg_catalog.pg_namespace n ON n.oid = p.pronamespace
JOIN pg_catalog.pg_roles f ON f.oid = p.proowner
JOIN pg_catalog.pg_roles o ON o.oid = e.extowner
JOIN pg_catalog.pg_database b ON b.datname = pg_catalog.current_database()
JOIN pg_catalog.pg_roles s ON s.oid = CASE WHEN n.nspowner =
  (SELECT w.oid FROM pg_catalog.pg_roles w WHERE w.rolname = 'pg_database_owner') THEN b.datdba ELSE n.nspowner END
WHERE e.extname = 'pg_walinspect' AND p.proname = 'pg_get_wal_record_info'
  AND p.pronargs = 1 AND p.proargtypes[0] = 'pg_catalog.pg_lsn'::pg_catalog.regtype`)

func (c *Control) inspector(ctx context.Context) (its inspector, reason string) {
	rows, err := c.ask(ctx, inspectorSQL)
	switch {
	case err != nil:
		return its, err.Error()
	case len(rows) != 1:
		return its, "the extension pg_walinspect isn't created"
	case rows[0][3] != "t":
		return its, "the extension pg_walinspect or its function doesn't belong to a superuser"
	case rows[0][4] != "t":
		return its, "the schema of the extension pg_walinspect doesn't belong to a superuser"
	case rows[0][2] != "t":
		return its, "the role may not call pg_walinspect's functions"
	}
	return inspector{rows[0][0], rows[0][1]}, ""
}

// Subtransactions implements join.Server, using the commit records at these places.
func (c *Control) Subtransactions(ctx context.Context, starts []uint64) ([][]uint32, error) {
	by, reason := c.inspector(ctx)
	if reason != "" {
		return nil, errors.New(reason)
	}
	subs := make([][]uint32, len(starts))
	rows, err := c.commits(ctx, by, starts)
	if err == nil && len(rows) == len(starts) {
		for i, row := range rows {
			subs[i] = subsOf(row[0])
		}
		return subs, nil
	}
	for i, start := range starts { // a record that is gone makes the whole question fail; one at a time, the others are answered
		if rows, one := c.commits(ctx, by, []uint64{start}); one == nil && len(rows) == 1 {
			subs[i] = subsOf(rows[0][0])
		} else if ctx.Err() != nil {
			return subs, ctx.Err()
		}
	}
	return subs, nil
}

// commits calls the function by its name, exactly as it is declared. If those who are trusted have moved it since, no
// rows are returned. That alone protects nothing: the planner may already run what another function of the name does.
func (c *Control) commits(ctx context.Context, by inspector, starts []uint64) ([][]string, error) {
	texts := make(own.Literals, len(starts))
	for i, start := range starts {
		texts[i] = placeText(start)
	}
	name := own.Name{by.schema, "pg_get_wal_record_info"}
	number, err := strconv.ParseUint(by.function, 10, 32)
	if err != nil {
		return nil, err
	}
	return c.ask(ctx, own.SQL("SELECT i.description FROM pg_catalog.unnest(ARRAY[%s]::pg_catalog.pg_lsn[]) "+
		"WITH ORDINALITY l(lsn, n), LATERAL %s(l.lsn::pg_catalog.pg_lsn) i "+
		"WHERE %s::pg_catalog.regprocedure = %s::pg_catalog.oid ORDER BY l.n", texts, name,
		own.Literal(signatureOf(name)), own.Number(number)))
}

// signatureOf writes a function with the one argument pg_lsn, as regprocedure reads it.
func signatureOf(name own.Name) string { return name.String() + "(pg_catalog.pg_lsn)" }

// subsOf parses a commit record's description: "..; subxacts: 726 727; ..".
func subsOf(description string) []uint32 {
	_, after, found := strings.Cut(description, "subxacts:")
	if !found {
		return nil
	}
	list, _, _ := strings.Cut(after, ";")
	var subs []uint32
	for _, text := range strings.Fields(list) {
		number, err := strconv.ParseUint(text, 10, 32)
		if err != nil {
			break
		}
		subs = append(subs, uint32(number))
	}
	return subs
}

var (
	tablesSQL       = own.SQL(tablesBegin + stampOfOne + tablesEnd)
	valuesTablesSQL = own.SQL(tablesBegin + valuesStampOfOne + tablesEnd)
)

const tablesBegin = `SELECT c.oid, n.nspname, c.relname, CASE WHEN c.relispartition THEN
  (SELECT p.relid::pg_catalog.oid FROM pg_catalog.pg_partition_ancestors(c.oid) WITH ORDINALITY p(relid, level)
   JOIN pg_catalog.pg_index ix ON ix.indrelid = p.relid AND ix.indisprimary ORDER BY p.level DESC LIMIT 1) END,
  a.attname, CASE WHEN t.typtype = 'e' THEN 3500 WHEN t.typname = 'citext' AND t.typtype = 'b' THEN 25 ELSE t.oid END,
  `

const tablesEnd = `, top.nspname, top.relname, ` + catalog.IdentitySQL + `, NOT i.indimmediate,
  c.relkind = 'r' AND (c.relreplident = 'n' OR c.relreplident = 'i' AND NOT i.indisreplident),
  c.relkind = 'p' OR c.relreplident = 'f' OR EXISTS (SELECT FROM pg_catalog.pg_index r WHERE r.indrelid = c.oid
    AND CASE c.relreplident WHEN 'd' THEN r.indisprimary WHEN 'i' THEN r.indisreplident ELSE false END
    AND r.indisvalid AND r.indimmediate), ` + versionOfOne + `
FROM pg_catalog.pg_class c JOIN pg_catalog.pg_namespace n ON n.oid = c.relnamespace
LEFT JOIN pg_catalog.pg_index i ON i.indrelid = c.oid AND i.indisprimary
LEFT JOIN LATERAL pg_catalog.unnest(i.indkey) WITH ORDINALITY k(number, place) ON k.place <= i.indnkeyatts
LEFT JOIN pg_catalog.pg_attribute a ON a.attrelid = c.oid AND a.attnum = k.number
LEFT JOIN LATERAL (WITH RECURSIVE base AS (SELECT y.oid, y.typtype, y.typbasetype, y.typname FROM pg_catalog.pg_type y
    WHERE y.oid = a.atttypid UNION ALL SELECT y.oid, y.typtype, y.typbasetype, y.typname FROM base
    JOIN pg_catalog.pg_type y ON y.oid = base.typbasetype WHERE base.typtype = 'd')
  SELECT * FROM base WHERE base.typtype <> 'd') t ON true
LEFT JOIN LATERAL (SELECT m.nspname, r.relname FROM pg_catalog.pg_class r
  JOIN pg_catalog.pg_namespace m ON m.oid = r.relnamespace
  WHERE c.relispartition AND r.oid = pg_catalog.pg_partition_root(c.oid)) top ON true
WHERE c.relkind IN ('r', 'p', 'm') AND c.relpersistence = 'p' AND n.nspname NOT IN ('pg_catalog', 'information_schema')
ORDER BY c.oid, k.place`

// Load reads the catalog.
func (c *Control) Load(ctx context.Context) error {
	_, _, err := c.reload(ctx)
	return err
}

// reload reads the catalog again, and returns the tables that have changed, and those whose definitions have been written.
func (c *Control) reload(ctx context.Context) ([]record.Relation, []join.Rewritten, error) {
	text := tablesSQL
	if c.options.Values != nil {
		text = valuesTablesSQL
	}
	rows, err := c.ask(ctx, text)
	if err != nil {
		return nil, nil, fmt.Errorf("read the catalog: %w", err)
	}
	c.lock.Lock()
	c.reloaded = time.Now()
	c.lock.Unlock()
	var all []*Table
	for _, row := range rows {
		if len(all) == 0 || strconv.FormatUint(uint64(all[len(all)-1].Relation), 10) != row[0] {
			one, err := c.table(row)
			if err != nil {
				return nil, nil, err
			}
			all = append(all, one)
		}
		if row[4] == "" {
			continue
		}
		number, err := strconv.ParseUint(row[5], 10, 32)
		if err != nil {
			return nil, nil, fmt.Errorf("read the catalog: %w", err)
		}
		last := all[len(all)-1]
		last.Key = append(last.Key, Column{Name: row[4], Type: uint32(number)})
	}
	if c.options.Values != nil {
		if err := c.columns(ctx, all); err != nil {
			return nil, nil, err
		}
	}
	changed, rewritten := c.tables.set(all)
	return changed, rewritten, nil
}

var madeSQL = own.SQL("SELECT " + catalog.MadeSQL)

// columns reads the tables' columns. What is made meanwhile is noticed by the next place.
func (c *Control) columns(ctx context.Context, all []*Table) error {
	if made, err := c.one(ctx, madeSQL); err != nil {
		return fmt.Errorf("read the catalog: %w", err)
	} else if !c.tables.knowsMade() {
		c.tables.remade(made)
	}
	rows, err := c.ask(ctx, columnsSQL)
	if err != nil {
		return fmt.Errorf("read the catalog: %w", err)
	}
	by := make(map[string]*Table, len(all))
	for _, one := range all {
		by[strconv.FormatUint(uint64(one.Relation), 10)] = one
	}
	for _, row := range rows {
		its := by[row[0]]
		if its == nil {
			continue // it was made just now
		}
		number, err := strconv.ParseInt(row[4], 10, 16)
		if err != nil {
			return fmt.Errorf("read the catalog: %w", err)
		}
		kind, _ := strconv.ParseUint(row[5], 10, 32)
		if its.columns == nil {
			its.columns, its.shape = map[string]*catalog.Column{}, catalog.IdentityOf(row[1])
			if row[2] != its.stamp {
				its.stamp = "changed" // between the two questions: both are asked again
			}
		}
		its.columns[row[3]] = &catalog.Column{Name: row[3], Number: int16(number), Type: uint32(kind)}
	}
	return nil
}

func (c *Control) table(row []string) (*Table, error) {
	oid, err := strconv.ParseUint(row[0], 10, 32)
	if err != nil {
		return nil, fmt.Errorf("read the catalog: %w", err)
	}
	its := &Table{Relation: record.Relation(oid), Root: record.Relation(oid), Schema: row[1], Name: row[2], stamp: row[6]}
	its.deferrable, its.noOldKeys, its.identified = row[10] == "t", row[11] == "t", row[12] == "t"
	its.version = row[13]
	if row[9] != "" {
		its.identity = catalog.KeyIdentity(its.Schema, its.Name, row[9])
	}
	if root, err := strconv.ParseUint(row[3], 10, 32); err == nil {
		its.Root = record.Relation(root)
	}
	its.unasked = !c.options.Asked.Has(its.Schema, its.Name) &&
		(row[8] == "" || !c.options.Asked.Has(row[7], row[8]))
	return its, nil
}
