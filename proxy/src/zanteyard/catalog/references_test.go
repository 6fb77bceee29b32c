package catalog_test

import (
	"fmt"
	"sort"
	"strings"
	"testing"

	"github.com/jackc/pgconn"

	"zanteyard/catalog"
)

const referring = `CREATE TABLE top (id int PRIMARY KEY, a int, b text, UNIQUE (b, a)); CREATE TABLE tree (id int PRIMARY KEY); CREATE TABLE twig () INHERITS (tree);
	CREATE TABLE ranged (id int PRIMARY KEY) PARTITION BY RANGE (id); CREATE UNLOGGED TABLE quick (id int PRIMARY KEY REFERENCES top);
	CREATE TABLE low (id int PRIMARY KEY REFERENCES top, x int REFERENCES top DEFERRABLE INITIALLY DEFERRED, up int REFERENCES low ON DELETE SET NULL,
		b varchar, a int NOT NULL, tree int REFERENCES tree, ranged int REFERENCES ranged, since int, off int,
		FOREIGN KEY (a, b) REFERENCES top (a, b) MATCH FULL);
	ALTER TABLE low ADD FOREIGN KEY (since) REFERENCES top NOT VALID;
	CREATE TABLE hooked (id int PRIMARY KEY, x int REFERENCES top ON UPDATE CASCADE, y int REFERENCES top ON DELETE RESTRICT);
	CREATE TABLE ruled (id int PRIMARY KEY, x int REFERENCES top ON DELETE SET DEFAULT, y int REFERENCES top);
	CREATE RULE r AS ON DELETE TO ruled DO INSTEAD NOTHING; CREATE TABLE off (id int PRIMARY KEY, x int REFERENCES top);
	CREATE TABLE offs (id int PRIMARY KEY, x int REFERENCES top (id)); ALTER TABLE off DISABLE TRIGGER ALL; ALTER TABLE offs DISABLE TRIGGER ALL;
	ALTER TABLE offs ENABLE REPLICA TRIGGER "%s"; CREATE TABLE parted (id int PRIMARY KEY, x int REFERENCES top) PARTITION BY RANGE (id);
	CREATE TABLE part PARTITION OF parted FOR VALUES FROM (0) TO (9)`

// TestReferences: which foreign keys the server checks.
func TestReferences(t *testing.T) {
	connection := open(t, "referring")
	first, then, _ := strings.Cut(referring, `ALTER TABLE offs ENABLE REPLICA TRIGGER "%s"; `)
	run(t, connection, first)
	for _, one := range run(t, connection, "SELECT tgname FROM pg_trigger WHERE tgrelid = 'offs'::regclass") {
		run(t, connection, fmt.Sprintf("ALTER TABLE offs ENABLE REPLICA TRIGGER %q", one[0]))
	}
	run(t, connection, then)
	run(t, connection, "CREATE TRIGGER h AFTER INSERT ON hooked FOR EACH ROW EXECUTE FUNCTION hook()")
	c := load(t, connection)
	for name, want := range map[string]string{"low": "a,b to a,b; id to id required; up to id; x to id", "hooked": "y to id", "ruled": "y to id",
		"off": "", "offs": "", "parted": "", "part": "", "quick": ""} {
		if got := references(c, name); got != want {
			t.Errorf("%s refers by %q, not %q", name, got, want)
		}
	}
}

func references(c *catalog.Catalog, name string) string {
	var all []string
	table, _ := c.Find("", name)
	for _, one := range table.References {
		to, _ := c.Table(one.To)
		text := named(table, one.Columns) + " to " + named(to, one.Keys)
		if one.Required {
			text += " required"
		}
		all = append(all, text)
	}
	sort.Strings(all)
	return strings.Join(all, "; ")
}

func named(table *catalog.Table, numbers []int16) string {
	var all []string
	for _, number := range numbers {
		for _, column := range table.Columns {
			if column.Number == number {
				all = append(all, column.Name)
			}
		}
	}
	return strings.Join(all, ",")
}

// TestStampsOfReferences: whoever changes whether a foreign key is checked changes what identifies both tables, also if all is
// as before afterwards.
func TestStampsOfReferences(t *testing.T) {
	connection := open(t, "stamps")
	run(t, connection, "CREATE TABLE top (id int PRIMARY KEY); CREATE TABLE low (id int PRIMARY KEY, x int NOT NULL REFERENCES top)")
	was := stamps(t, connection)
	for _, one := range []struct {
		sql      string
		low, top bool
	}{
		{"INSERT INTO top VALUES (1); INSERT INTO low VALUES (1, 1)", false, false},
		{"ALTER TABLE low DISABLE TRIGGER ALL; ALTER TABLE low ENABLE TRIGGER ALL", true, false},
		{"ALTER TABLE top DISABLE TRIGGER ALL; ALTER TABLE top ENABLE TRIGGER ALL", false, true},
		{"ALTER TABLE low ALTER x DROP NOT NULL; ALTER TABLE low ALTER x SET NOT NULL", true, false},
		{"ALTER TABLE low DROP CONSTRAINT low_x_fkey; ALTER TABLE low ADD FOREIGN KEY (x) REFERENCES top", true, true},
		{"ALTER TABLE low ADD FOREIGN KEY (id) REFERENCES top NOT VALID", true, true},
	} {
		run(t, connection, one.sql)
		is := stamps(t, connection)
		for i, changes := range []bool{one.low, one.low, one.top, one.top} {
			if changes != (is[i] != was[i]) {
				t.Errorf("%s: stamp %d of low, low, top, top has changed: %v", one.sql, i, !changes)
			}
		}
		was = is
	}
}

func stamps(t *testing.T, connection *pgconn.PgConn) (all []string) {
	for _, table := range []string{"low", "top"} {
		row := run(t, connection, "SELECT "+catalog.ColumnsSQL+", "+catalog.ColumnsStampSQL+" FROM pg_class c WHERE c.oid = '"+table+"'::regclass")[0]
		all = append(all, row...)
	}
	return all
}
