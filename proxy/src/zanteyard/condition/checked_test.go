package condition_test

import (
	"context"
	"flag"
	"fmt"
	"math/rand"
	"strings"
	"testing"
	"time"

	"github.com/jackc/pgconn"

	"zanteyard/catalog"
	"zanteyard/condition"
)

// Foreign keys of all kinds, and some that aren't checked, or weren't: each of these has a row that refers to nothing.
const referringSchema = `CREATE TABLE top (id int PRIMARY KEY, x int UNIQUE, CHECK (id < 5 AND x IS NOT NULL));
	CREATE TABLE pair (a int, b text, x int, PRIMARY KEY (a, b));
	CREATE TABLE mid (id bigint PRIMARY KEY, top int NOT NULL REFERENCES top DEFERRABLE INITIALLY DEFERRED, other int REFERENCES top (x), x int);
	CREATE TABLE low (id int PRIMARY KEY, mid int REFERENCES mid ON DELETE CASCADE, top int REFERENCES top, up int REFERENCES low,
		a int, b varchar, x int, FOREIGN KEY (b, a) REFERENCES pair (b, a));
	CREATE TABLE firm (id int PRIMARY KEY, mid int NOT NULL REFERENCES mid, low int NOT NULL REFERENCES low, x int);
	CREATE TABLE since (id int PRIMARY KEY, top int, x int); CREATE TABLE off (id int PRIMARY KEY, top int REFERENCES top, x int);
	CREATE TABLE hooked (id int PRIMARY KEY, top int REFERENCES top ON DELETE CASCADE, x int);
	CREATE TABLE several (id int PRIMARY KEY, x int); CREATE TABLE more (id int PRIMARY KEY) INHERITS (several);
	CREATE TABLE heir (id int PRIMARY KEY, several int REFERENCES several, x int);
	CREATE FUNCTION keeps() RETURNS trigger LANGUAGE plpgsql AS 'BEGIN RETURN NULL; END';
	INSERT INTO since VALUES (9, 9, 1); ALTER TABLE since ADD FOREIGN KEY (top) REFERENCES top NOT VALID;
	ALTER TABLE off DISABLE TRIGGER ALL; INSERT INTO off VALUES (9, 9, 1);
	INSERT INTO top VALUES (4, 4); INSERT INTO hooked VALUES (9, 4, 1);
	CREATE TRIGGER keeps BEFORE DELETE ON hooked FOR EACH ROW EXECUTE FUNCTION keeps(); DELETE FROM top`

var referring = map[string][]string{"top": {"id", "x"}, "pair": {"a", "b", "x"}, "mid": {"id", "top", "other", "x"},
	"low": {"id", "mid", "top", "up", "a", "b", "x"}, "firm": {"id", "mid", "low", "x"}, "since": {"id", "top", "x"},
	"off": {"id", "top", "x"}, "hooked": {"id", "top", "x"}, "several": {"id", "x"}, "heir": {"id", "several", "x"}}

// checkedOf has, for each join, of which tables it asks the rows whose foreign keys were checked, and for what.
var checkedOf = []struct{ from, asks string }{
	{"low JOIN mid ON mid.id = low.mid WHERE low.x = 1", "low WHERE x = 1 AND mid IS NOT NULL"},
	{"mid JOIN top ON top.id = mid.top", "mid"}, {"mid, top WHERE mid.top = top.id AND mid.x IN (1, 2)", "mid WHERE x IN (1, 2)"},
	{"mid JOIN top ON top.x = mid.other", "mid WHERE other IS NOT NULL"},
	{"low JOIN mid ON mid.id = low.mid JOIN top ON top.id = mid.top WHERE low.id = 3", "low WHERE id = 3 AND mid IS NOT NULL"},
	{"low JOIN pair USING (a, b) WHERE low.x = 1", "low WHERE x = 1 AND b IS NOT NULL AND a IS NOT NULL"},
	{"firm JOIN low ON firm.low = low.id JOIN mid ON firm.mid = mid.id", "firm"},
	{"low AS l JOIN low AS u ON l.up = u.id WHERE l.x = 2", "low WHERE x = 2 AND up IS NOT NULL"},
	{"low JOIN top ON top.id = low.top LEFT JOIN mid ON mid.id = low.mid AND mid.x = 1", "low WHERE top IS NOT NULL"},
	{"(SELECT * FROM low WHERE x = 1) AS s JOIN top ON top.id = s.top", "low WHERE x = 1 AND top IS NOT NULL"},
	// The other table is asked for something, or by something else than the whole foreign key.
	{"low JOIN mid ON mid.id = low.mid WHERE low.x = 1 AND mid.x = 1", ""}, {"low JOIN mid ON mid.id = low.x", ""},
	{"low JOIN top ON top.id = low.mid", ""}, {"mid JOIN top ON top.x = mid.top", ""}, {"low JOIN pair ON pair.a = low.a", ""},
	{"low JOIN pair ON pair.a = low.a AND pair.b = low.b AND pair.x = low.x", ""}, {"low JOIN mid ON mid.id <= low.mid", ""},
	{"low JOIN pair ON pair.a = low.x AND pair.b = low.b", ""}, {"mid JOIN top ON top.id = mid.top AND top.x = mid.other", ""},
	{"low JOIN mid ON mid.id = low.mid JOIN top ON top.id = mid.top AND top.id = low.top", ""},
	{"low JOIN mid ON mid.id = low.mid OR low.x = 1", ""}, {"low JOIN top ON top.id = low.top WHERE top.id > 0", ""},
	{"low JOIN top ON top.id = low.top WHERE 1 = 1", ""}, {"low JOIN top ON top.id = low.top WHERE random() < 2", ""},
	{"low JOIN top ON top.id = low.top AND low.x + 0 = 1", ""}, {"low, mid", ""},
	{"low JOIN top ON top.id = low.top WHERE low.x IN (SELECT x FROM mid)", ""},
	// What is referred to may refer to nothing.
	{"firm JOIN low ON firm.low = low.id JOIN top ON top.id = low.top", ""}, {"low JOIN mid ON mid.id = low.mid JOIN top ON top.x = mid.other", ""},
	{"mid LEFT JOIN low ON low.mid = mid.id JOIN top ON top.id = low.top", ""},
	{"low JOIN (SELECT * FROM mid LIMIT 1) AS mid ON mid.id = low.mid", ""}, {"(SELECT * FROM low LIMIT 9) AS l JOIN mid ON mid.id = l.mid", ""},
	// Keys that aren't checked, or whose rows may lose what they refer to.
	{"since JOIN top ON top.id = since.top", ""}, {"off JOIN top ON top.id = off.top", ""}, {"hooked JOIN top ON top.id = hooked.top", ""},
	{"heir JOIN several ON several.id = heir.several", ""},
}

// TestChecked: whichever rows of a table satisfy what a join asks of those whose foreign keys were checked, they are in the
// result, and no others are.
func TestChecked(t *testing.T) {
	conn, all := open(t, "checked", referringSchema)
	r := rand.New(rand.NewSource(7))
	for round := 0; round < 5; round++ {
		tables := fillReferring(t, conn, r)
		for _, one := range checkedOf {
			var asked []string
			for _, side := range joinedSides(t, all, one.from) {
				if side.Checked != nil {
					asked = append(asked, compareChecked(t, conn, one.from, side, tables).String())
				}
			}
			if got := strings.Join(asked, "; "); got != one.asks {
				t.Errorf("%s asks of those for %q", one.from, got)
			}
		}
	}
}

var checkedJoins = flag.Int("checked-joins", 400, "random joins by foreign keys that are compared")

// TestRandomCheckedJoins: the same of joins that are put together by chance.
func TestRandomCheckedJoins(t *testing.T) {
	conn, all := open(t, "random_checked", referringSchema)
	seed := time.Now().UnixNano()
	r := rand.New(rand.NewSource(seed))
	var tables map[string][][]string
	asked, none, names := 0, 0, map[string]int{}
	for round := 0; round < *checkedJoins; round++ {
		if round%20 == 0 {
			tables = fillReferring(t, conn, r)
		}
		from := randomReferring(r)
		for _, side := range joinedSides(t, all, from) {
			if side.Checked != nil {
				compareChecked(t, conn, from, side, tables)
				names[side.Checked.Table.Name]++
				if asked++; rows(t, conn, "SELECT count(*) FROM "+from)[0][0] == "0" {
					none++
				}
			}
		}
	}
	if t.Logf("seed %d: of %d joins %d ask so, %d of them found no row: %v", seed, *checkedJoins, asked, none, names); asked < *checkedJoins/10 ||
		none < *checkedJoins/50 || names["since"]+names["off"]+names["hooked"]+names["heir"] > 0 {
		t.Errorf("seed %d: of %d joins %d ask so, %d of them found no row: %v", seed, *checkedJoins, asked, none, names)
	}
}

// compareChecked compares what a side asks with the rows of its table that are in the result.
func compareChecked(t *testing.T, conn *pgconn.PgConn, from string, side condition.Side, tables map[string][][]string) *condition.Condition {
	t.Helper()
	its, err := side.Checked.Bind(condition.Arguments{})
	if err != nil {
		t.Fatalf("%s: %v", from, err)
	}
	name, _, _ := strings.Cut(side.Name, condition.Within)
	found := map[string]bool{}
	for _, one := range rows(t, conn, "SELECT DISTINCT "+name+".id FROM "+from) {
		found[one[0]] = true
	}
	for _, version := range tables[side.Checked.Table.Name] {
		if holds := its.Holds(row(version...)) == condition.Yes; holds && !found[version[0]] || !holds && found[version[0]] && side.Checked.Partly == nil {
			t.Errorf("%s: %v of %v is %v", from, its, version, holds)
		}
	}
	return its
}

func joinedSides(t *testing.T, all *catalog.Catalog, from string) []condition.Side {
	t.Helper()
	text := "SELECT * FROM " + from
	stmt, err := parsed(t, text)
	if err != nil {
		t.Fatal(err)
	}
	sides, err := condition.Joined(stmt, text, all)
	if err != nil {
		t.Fatalf("%s: %v", from, err)
	}
	return sides
}

// fillReferring fills the tables anew. What refers to nothing stays.
func fillReferring(t *testing.T, conn *pgconn.PgConn, r *rand.Rand) map[string][][]string {
	rows(t, conn, "DELETE FROM firm; DELETE FROM low; DELETE FROM mid; DELETE FROM heir; DELETE FROM several; DELETE FROM off WHERE id < 9; "+
		"DELETE FROM since WHERE id < 9; ALTER TABLE hooked DISABLE TRIGGER keeps; DELETE FROM hooked WHERE id < 9; "+
		"ALTER TABLE hooked ENABLE TRIGGER keeps; DELETE FROM top; DELETE FROM pair")
	some := func(n int) string {
		if r.Intn(5) == 0 {
			return "NULL"
		}
		return fmt.Sprint(r.Intn(n))
	}
	insert := func(table string, values ...any) {
		result := conn.Exec(context.Background(), "INSERT INTO "+table+" VALUES ("+strings.TrimSuffix(fmt.Sprintln(values...), "\n")+")")
		if _, err := result.ReadAll(); err != nil && !strings.Contains(err.Error(), "violates") {
			t.Fatal(err)
		}
	}
	for i := 0; i < 3; i++ {
		insert("top", i, ",", (i+r.Intn(3))%4)
		insert("pair", r.Intn(3), ", '", r.Intn(2), "',", r.Intn(3))
	}
	for i := 0; i < 5; i++ {
		insert("mid", i, ",", r.Intn(4), ",", some(4), ",", some(4))
	}
	for i := 0; i < 6; i++ {
		b := "NULL"
		if r.Intn(3) > 0 {
			b = fmt.Sprintf("' %d '", r.Intn(2))
		}
		insert("low", i, ",", some(5), ",", some(4), ",", some(i+1), ",", some(3), ",", b, ",", some(4))
		insert("firm", i, ",", r.Intn(5), ",", r.Intn(6), ",", some(4))
		insert("since", i, ",", some(4), ",", some(4))
		insert("off", i, ",", some(4), ",", some(4))
		insert("hooked", i, ",", some(4), ",", some(4))
		insert("several", i, ",", some(4))
		insert("heir", i, ",", some(6), ",", some(4))
	}
	tables := map[string][][]string{}
	for name, columns := range referring {
		var all []string
		for _, column := range columns {
			all = append(all, "coalesce("+column+"::text, 'NULL')")
		}
		tables[name] = rows(t, conn, "SELECT "+strings.Join(all, ", ")+" FROM "+name)
	}
	return tables
}

// referrals are the foreign keys, as conditions of two tables by names.
var referrals = map[string][][2]string{
	"mid":   {{"top", "%[1]s.top = %[2]s.id"}, {"top", "%[2]s.x = %[1]s.other"}},
	"low":   {{"mid", "%[1]s.mid = %[2]s.id"}, {"top", "%[1]s.top = %[2]s.id"}, {"low", "%[2]s.id = %[1]s.up"}, {"pair", "%[1]s.a = %[2]s.a AND %[2]s.b = %[1]s.b"}},
	"firm":  {{"mid", "%[1]s.mid = %[2]s.id"}, {"low", "%[2]s.id = %[1]s.low"}},
	"since": {{"top", "%[1]s.top = %[2]s.id"}}, "off": {{"top", "%[1]s.top = %[2]s.id"}}, "hooked": {{"top", "%[1]s.top = %[2]s.id"}},
	"heir": {{"several", "%[1]s.several = %[2]s.id"}},
}

// randomReferring puts a FROM and a WHERE together, mostly along foreign keys.
func randomReferring(r *rand.Rand) string {
	starts := []string{"low", "low", "low", "firm", "firm", "mid", "since", "off", "hooked", "heir"}
	its := []string{starts[r.Intn(len(starts))]}
	name := func(i int) string { return fmt.Sprintf("t%d", i) }
	test := func(i int) string {
		columns := referring[its[i]]
		column := name(i) + "." + columns[r.Intn(len(columns))]
		if strings.HasSuffix(column, ".b") {
			return column + " IS NOT NULL"
		}
		return column + []string{" = 1", " IN (0, 2)", " < 2", " IS NOT NULL", " <> 3", " IS NULL"}[r.Intn(6)]
	}
	from := its[0] + " AS t0"
	if r.Intn(4) == 0 {
		from = "(SELECT * FROM " + its[0] + " AS t0 WHERE " + test(0) + ") AS t0"
	}
	for n := 1 + r.Intn(3); n > 0; n-- {
		i := r.Intn(len(its))
		to := referrals[its[i]]
		if len(to) == 0 {
			continue
		}
		by := to[r.Intn(len(to))]
		its = append(its, by[0])
		last := len(its) - 1
		on := fmt.Sprintf(by[1], name(i), name(last))
		switch r.Intn(12) {
		case 0:
			on = fmt.Sprintf("%s.x = %s.x", name(i), name(last))
		case 1:
			on += fmt.Sprintf(" AND %s.x = %s.x", name(r.Intn(len(its))), name(last))
		case 2:
			on += " AND " + test(r.Intn(len(its)))
		case 3:
			on, _, _ = strings.Cut(on, " AND ")
		}
		from += []string{" JOIN ", " JOIN ", " JOIN ", " LEFT JOIN "}[r.Intn(4)] + by[0] + " AS " + name(last) + " ON " + on
	}
	for i, word := r.Intn(3), " WHERE "; i > 0; i, word = i-1, " AND " {
		at := 0
		if r.Intn(6) == 0 {
			at = r.Intn(len(its))
		}
		if from += word + test(at); r.Intn(6) == 0 {
			from += " AND (" + test(0) + " OR " + test(0) + ")"
		}
	}
	return from
}
