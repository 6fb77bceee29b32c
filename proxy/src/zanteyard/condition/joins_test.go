package condition_test

import (
	"flag"
	"fmt"
	"math/rand"
	"strings"
	"testing"
	"time"

	"github.com/jackc/pgconn"

	"zanteyard/catalog"
	"zanteyard/condition"
	"zanteyard/record"
)

const joinsSchema = `CREATE TABLE a (id int PRIMARY KEY, x int, t text); CREATE TABLE b (id int PRIMARY KEY, a_id int, z int, t text);
	CREATE TABLE c (id int, n int, z int, PRIMARY KEY (id, n)); CREATE TABLE secured (id int PRIMARY KEY, a_id int);
	ALTER TABLE secured ENABLE ROW LEVEL SECURITY; CREATE VIEW viewed AS SELECT * FROM a; CREATE DOMAIN small AS int;`

// joined has, for each join, why each of its tables isn't followed, or "" if it is.
var joined = []struct{ from, why string }{
	{"a JOIN b ON a.id = b.a_id WHERE a.x = 1", "|"},
	{"a JOIN b ON a.id = b.a_id WHERE b.z = 2 AND x > 0", "|"},
	{"a, b WHERE a.id = a_id AND b.z IN (1, 2)", "|"},
	{"a, b WHERE a.id = b.id AND (b.z = 1 OR a.id = 2)", "|"}, // partly
	{"a, b WHERE a.id = b.id AND (b.z = 1 OR b.id = 2)", "|"},
	{"a, b WHERE a.x = 1 AND b.z = 1", "|"},
	{"a JOIN b ON a.id < b.id WHERE a.x IS NOT NULL", "|"},
	{"a LEFT JOIN b ON b.a_id = a.id WHERE a.x = 1", "|"},
	{"a LEFT JOIN b ON b.a_id = a.id AND b.z = 1", "|"},
	{"a LEFT JOIN b ON b.a_id = a.id WHERE b.z = 1", "a condition on a table that an outer join may leave out|"},
	{"a LEFT JOIN b ON b.a_id = a.id WHERE b.id IS NULL",
		"a condition on a table that an outer join may leave out|a condition on a table that an outer join may leave out"},
	{"a LEFT JOIN b ON b.a_id = a.id WHERE b.z = 1 OR b.id IS NULL",
		"a condition on a table that an outer join may leave out|a condition on a table that an outer join may leave out"},
	{"a LEFT JOIN b ON b.a_id = a.id WHERE (b.z = 1 OR b.z > 5) AND b.id IS NOT NULL AND NOT b.z = 3",
		"a condition on a table that an outer join may leave out|"},
	{"a LEFT JOIN b ON b.a_id = a.id WHERE b.z = 1 AND a.x IS NOT NULL", "a condition on a table that an outer join may leave out|"},
	{"a LEFT JOIN b ON b.a_id = a.id WHERE NOT b.id IS NOT NULL",
		"a condition on a table that an outer join may leave out|a condition on a table that an outer join may leave out"},
	{"a LEFT JOIN b ON b.a_id = a.id WHERE (b.z = 1) IS NOT TRUE",
		"a condition on a table that an outer join may leave out|a condition on a table that an outer join may leave out"},
	{"a LEFT JOIN b ON b.a_id = a.id WHERE b.z <> ALL (SELECT n FROM c WHERE n > 99)",
		"a condition on a table that an outer join may leave out|a condition on a table that an outer join may leave out|"},
	{"a LEFT JOIN b ON b.a_id = a.id WHERE a.x = 1 OR b.z = 1",
		"a condition on a table that an outer join may leave out|a condition on a table that an outer join may leave out"},
	{"a LEFT JOIN b ON b.a_id = a.id AND a.x = 1", "|"},
	{"a JOIN c USING (id) WHERE c.z = 1", "|"},
	{"a JOIN c USING (id) WHERE id = 1", "|"},
	{"a LEFT JOIN c USING (id) WHERE id > 1", "|"},
	{"a JOIN b ON a.id = b.id JOIN c ON c.id = b.id AND c.n = a.id WHERE c.z IN (0, 1)",
		"a condition over three tables|a condition over three tables|a condition over three tables"},
	{"b JOIN a ON b.a_id = a.id JOIN c ON c.id = b.z AND c.n = 1",
		"||"},
	{"a LEFT JOIN b ON b.a_id = a.id LEFT JOIN c ON c.id = b.id AND c.z = 0 WHERE a.x < 2", "||"},
	{"a LEFT JOIN b ON b.a_id = a.id LEFT JOIN c ON c.id = a.id WHERE b.z = 1",
		"a condition on a table that an outer join may leave out||a condition on a table that an outer join may leave out"},
	{"a AS one JOIN a AS two ON one.id = two.x", "|"},
	{"a JOIN b ON a.id = b.a_id AND random() < 2", "a function or subquery over other tables|a function or subquery over other tables"},
	{"a JOIN b ON a.id = b.a_id WHERE EXISTS (SELECT 1 FROM c)", "|"},
	{"a JOIN b ON a.id = b.a_id WHERE EXISTS (SELECT 1 FROM c WHERE c.id = a.x) AND b.z = 1", "|"},
	{"a JOIN b ON a.id = b.a_id AND a.x IN (SELECT a_id FROM b AS other)", "|"},
	{"a JOIN b ON a.id = b.a_id AND a.x IN (SELECT o.a_id FROM b AS o WHERE o.z = b.z)", "a subquery|"},
	{"a JOIN b ON a.id = b.a_id AND a.x IN (SELECT a.n FROM c AS a)", "|"},
	{"a JOIN b ON a.id = b.a_id AND a.x IN (SELECT c.n FROM c LIMIT 1)", "a subquery|a function or subquery over other tables"},
	{"a JOIN b ON a.id = b.a_id AND a.x IN (SELECT abs(c.n) FROM c)", "a subquery|a function or subquery over other tables"},
	{"a JOIN b ON a.id = b.a_id AND a.x IN (SELECT s.id FROM secured s)", "a subquery|a function or subquery over other tables"},
	{"a JOIN b ON a.id = b.a_id AND a.x IN (SELECT v.id FROM viewed v)", "a subquery|a function or subquery over other tables"},
	// A table's name that stands for its rows mentions it.
	{"a JOIN b ON a.id = b.a_id WHERE EXISTS (SELECT 1 FROM c WHERE c.id = (a).id)",
		"a function or subquery over other tables|a function or subquery over other tables"},
	{"a JOIN b ON a.id = b.a_id WHERE EXISTS (SELECT 1 FROM c WHERE a IS NOT NULL)",
		"a function or subquery over other tables|a function or subquery over other tables"},
	{"a JOIN b ON a.id = b.a_id WHERE b.z = 1 AND EXISTS (SELECT 1 FROM c WHERE (c.z, c.n) IN (SELECT c.n, c.z))",
		"|"},
	{"a JOIN b ON a.id = b.a_id AND a.x::numeric(3) = 1", "|"},
	{"a JOIN b ON a.id = b.a_id WHERE a.x % 2 = 0 AND b.z <> b.a_id", "|"}, {"a JOIN b ON a.id = b.a_id WHERE b.z * 2 > b.a_id OR b.a_id IS NULL", "|"},
	{"a WHERE a.x IN (SELECT z FROM b WHERE b.id > 1)", ""}, {"a WHERE (a.x IN (SELECT z FROM b WHERE z < 2)) IS NOT FALSE", ""},
	{"b WHERE (a_id, z) IN (SELECT a.x, c.z FROM a, c)", ""}, {"c WHERE EXISTS (SELECT 1 FROM b WHERE b.z = c.z AND c.n > 1)", ""},
	{"a LEFT JOIN b ON b.a_id = a.id AND b.z IN (SELECT n FROM c)", "|"},
	{"b JOIN a ON a.id = b.a_id WHERE a.x + b.z > 2", "|an expression over a column"}, {"b JOIN a ON a.id = b.a_id WHERE (a.x = 1 AND b.z < 2) OR (a.x < b.z AND b.a_id > 2)", "|a comparison without a column"},
	{"b JOIN a ON a.id = b.a_id WHERE EXISTS (SELECT 1 FROM c WHERE c.n = a.x AND c.z < b.z)", "|a subquery"},
	{"b LEFT JOIN a ON a.id = b.a_id WHERE a.x + b.z > 2",
		"a condition on a table that an outer join may leave out|a condition on a table that an outer join may leave out"},
	// What doesn't depend on the table may still empty the result.
	{"a LEFT JOIN b ON b.a_id = a.id WHERE a.x = 1 AND 1 = 0", "|"},
	{"a LEFT JOIN b ON b.a_id = a.id WHERE a.x = 1 AND EXISTS (SELECT 1 FROM c WHERE c.n = 99)", "|"},
	{"a LEFT JOIN b ON b.a_id = a.id WHERE a.x = 1 AND NOT EXISTS (SELECT 1 FROM c WHERE c.n = 99)", "||"},
	// Beside no rows of the others nothing was asked for.
	{"a LEFT JOIN b ON b.z IN (0, 1, 2, 3) WHERE a.x = 99", "|"},
	{"a, b WHERE a.x = 99 AND b.z IN (0, 1, 2, 3)", "|"},
	// One condition over two others' rows.
	{"a, b, c WHERE (c.n = a.id OR c.n = b.id) AND c.z IS NOT NULL", "||a condition over three tables"},
	// A name means a table of the subquery around it, and not of one beside it.
	{"a JOIN b ON a.id = b.id WHERE EXISTS (SELECT 1 FROM c WHERE b.z = c.z AND EXISTS (SELECT 1 FROM b WHERE b.id = 0))",
		"a function or subquery over other tables|a function or subquery over other tables"},
	{"a JOIN b ON a.id = b.id WHERE EXISTS (SELECT 1 FROM c AS b WHERE b.n = a.id)", "a subquery|"},
	{"a JOIN b ON a.id = b.id AND a.x::small = 1", "an expression over a column|a function or subquery over other tables"},
	// Names with a schema, and with a database.
	{"a JOIN b ON public.a.id = b.a_id WHERE public.b.z = 1", "|"},
	{"a JOIN c ON c.id = a.id AND public.c.n = 1", "|"},
	// Subqueries in FROM.
	{"(SELECT * FROM a WHERE x = 1) AS s", ""}, {"(SELECT a.x, id FROM a) AS s WHERE s.x = 1", ""},
	{"(SELECT id, x AS y, t AS x FROM a WHERE id > 1) AS s WHERE s.y = 1", ""}, {"(SELECT id, 1 AS x FROM a) AS s WHERE x = 1", "a function or subquery over other tables"},
	{"(SELECT id, x + 1 AS y FROM a WHERE x > 0) AS s", ""}, {"(SELECT id, x + 1 AS y FROM a WHERE x > 0) AS s WHERE y > 1", "a function or subquery over other tables"},
	{"(SELECT id, x AS y, id AS y FROM a) AS s", ""}, {"(SELECT id FROM a WHERE s IS NULL) AS s", "a function or subquery over other tables"},
	{"(SELECT id FROM a WHERE x = 1) AS s JOIN b ON s.id = b.a_id WHERE z < 3", "|"},
	{"(SELECT id, id AS a_id FROM a WHERE x = 1) AS s JOIN b USING (a_id) WHERE a_id > 0", "|"},
	{"(SELECT id FROM a WHERE x = 1 LIMIT 9) AS s JOIN b ON s.id = b.a_id", "a LIMIT or OFFSET in a subquery in FROM|"},
	{"(SELECT id FROM a WHERE x = 1 LIMIT 1) AS s LEFT JOIN b ON s.id = b.a_id AND b.z = 1", "a LIMIT or OFFSET in a subquery in FROM|"},
	{"a LEFT JOIN (SELECT * FROM b WHERE z = 1) AS s ON s.a_id = a.id", "|"},
	{"a LEFT JOIN (SELECT * FROM (SELECT * FROM b WHERE z < 3) AS u WHERE z > 0) AS s ON s.a_id = a.id AND a_id < 2", "|"},
	{"a LEFT JOIN (SELECT * FROM b WHERE z = 1) AS s ON s.a_id = a.id WHERE s.z = 1", "a condition on a table that an outer join may leave out|"},
	{"a JOIN (SELECT * FROM b WHERE b.z IN (SELECT c.n FROM c)) AS s ON s.a_id = a.id", "a function or subquery over other tables|a function or subquery over other tables"},
	{"(SELECT * FROM a WHERE random() < 2) AS s JOIN b ON b.a_id = s.id", "a function or subquery over other tables|a function or subquery over other tables"},
	{"(SELECT a.id, b.z FROM a JOIN b ON b.id = a.id WHERE a.x = 1) AS s JOIN c ON c.id = s.id", "||"},
}

// TestJoined: beside the other tables' rows of a row of the result, what satisfies a table's condition is in the result,
// and what doesn't isn't.
func TestJoined(t *testing.T) {
	conn, all := open(t, "joined", joinsSchema)
	r := rand.New(rand.NewSource(1))
	value := func() string {
		if r.Intn(6) == 0 {
			return "NULL"
		}
		return fmt.Sprint(r.Intn(4))
	}
	for round := 0; round < 5; round++ {
		rows(t, conn, "TRUNCATE a, b, c")
		tables := map[string][][]string{}
		for i := 0; i < 5; i++ {
			for name, its := range map[string][]string{
				"a": {fmt.Sprint(i), value(), "x"}, "b": {fmt.Sprint(i), value(), value(), "x"}, "c": {fmt.Sprint(r.Intn(4)), fmt.Sprint(i), value()},
			} {
				tables[name] = append(tables[name], its)
				rows(t, conn, "INSERT INTO "+name+" VALUES ("+strings.ReplaceAll(strings.Join(its, ", "), "x", "'x'")+")")
			}
		}
		for _, one := range joined {
			text := "SELECT * FROM " + one.from
			stmts, err := parsed(t, text)
			if err != nil {
				t.Fatal(err)
			}
			sides, err := condition.Joined(stmts, text, all)
			if err != nil {
				t.Fatalf("%s: %v", one.from, err)
			}
			var whys []string
			for _, side := range sides {
				why := ""
				if side.Why != nil {
					why = side.Why.Error()
				}
				whys = append(whys, why)
			}
			if got := strings.Join(whys, "|"); got != one.why {
				t.Errorf("%s: %s in place of %s", one.from, got, one.why)
			}
			if strings.Contains(one.from, "random") || strings.Contains(one.from, "secured") {
				continue
			}
			for _, side := range sides {
				if side.Form != nil {
					compareSide(t, conn, one.from, side, sides, tables)
				}
			}
		}
	}
}

// compareSide compares what a join asks of one of its tables with what is in its result.
func compareSide(t *testing.T, conn *pgconn.PgConn, from string, side condition.Side, all []condition.Side, tables map[string][][]string) (compared int) {
	t.Helper()
	if side.Absent {
		return compareAbsent(t, conn, from, side, tables)
	}
	found, with := map[string]bool{}, condition.Arguments{Beside: map[string][]record.Key{}}
	for _, row := range rows(t, conn, "SELECT DISTINCT "+keyText(side.Form.Table.Name, side.Name)+" FROM "+from) {
		found[row[0]] = true
	}
	with.HasRows = len(found) > 0
	isBeside := with.HasRows || !side.Form.Given
	for _, outer := range side.Form.Outer {
		if with.Beside[outer.Name] != nil {
			continue
		}
		key, more := keyText(outer.Table.Name, outer.Name), []*catalog.Column(nil)
		for _, its := range all {
			if its.Name == outer.Name {
				more = its.More
			}
		}
		name, _, _ := strings.Cut(outer.Name, condition.Within)
		for _, column := range more {
			key += ", " + name + "." + column.Name + "::text"
		}
		for _, row := range rows(t, conn, "SELECT DISTINCT "+key+" FROM "+from) {
			if row[0] == "" { // an outer join found none
				continue
			}
			var values []*string
			for i := range row[1:] {
				if row[1+i] == "" {
					values = append(values, nil)
				} else {
					values = append(values, &row[1+i])
				}
			}
			with.Beside[outer.Name] = append(with.Beside[outer.Name],
				condition.Beside(record.Key(strings.ReplaceAll(row[0], "/", "\x00")), values))
		}
		isBeside = isBeside && with.Beside[outer.Name] != nil
	}
	its, err := side.Form.Bind(with)
	if !isBeside {
		if err == nil || err.Error() != "a join of no rows, beside which others could stand" {
			t.Errorf("%s: %v", from, err)
		}
		return 0
	}
	if err != nil {
		t.Fatalf("%s: %v", from, err)
	}
	for _, version := range tables[side.Form.Table.Name] {
		key := version[0]
		if side.Form.Table.Name == "c" {
			key += "/" + version[1]
		}
		if got := its.Holds(row(version...)) == condition.Yes; got && !found[key] || !got && found[key] && side.Form.Partly == nil {
			t.Errorf("%s: %v of %s is %v", from, its, key, got)
		}
		compared++
	}
	return compared
}

// compareAbsent compares what a subquery that found nothing asks of its table with the rows that it has.
func compareAbsent(t *testing.T, conn *pgconn.PgConn, from string, side condition.Side, tables map[string][][]string) (compared int) {
	t.Helper()
	with := condition.Arguments{Beside: map[string][]record.Key{}}
	with.HasRows = rows(t, conn, "SELECT count(*) FROM "+from)[0][0] != "0"
	for _, outer := range side.Form.Outer {
		if outer.Place >= len(outer.Table.Key) { // TestJoined has those
			return 0
		}
		if with.Beside[outer.Name] != nil {
			continue
		}
		for _, row := range rows(t, conn, "SELECT DISTINCT "+keyText(outer.Table.Name, outer.Name)+" FROM "+from) {
			if row[0] != "" {
				with.Beside[outer.Name] = append(with.Beside[outer.Name], record.Key(strings.ReplaceAll(row[0], "/", "\x00")))
			}
		}
	}
	its, err := side.Form.Bind(with)
	if err != nil {
		if with.HasRows && !strings.Contains(from, "LIMIT 0") && (len(side.Form.Outer) == 0 || with.Beside[side.Form.Outer[0].Name] != nil) {
			t.Errorf("%s: %v", from, err)
		}
		return 0
	}
	if !with.HasRows {
		t.Errorf("%s: %v, without a row", from, its)
	}
	for _, version := range tables[side.Form.Table.Name] {
		if its.Holds(row(version...)) == condition.Yes {
			t.Errorf("%s: %v holds of %s", from, its, version)
		}
		compared++
	}
	return compared
}

var joins = flag.Int("joins", 120, "random joins that are compared")

// TestRandomJoins: the same of joins that are put together by chance.
func TestRandomJoins(t *testing.T) {
	conn, all := open(t, "random_joins", joinsSchema)
	r := rand.New(rand.NewSource(time.Now().UnixNano()))
	compared, refused := 0, map[string]int{}
	for round := 0; round < *joins; round++ {
		if round%20 == 0 {
			rows(t, conn, "TRUNCATE a, b, c")
		}
		tables := fillJoined(t, conn, r, round%20 == 0)
		from := randomJoin(r)
		text := "SELECT * FROM " + from
		stmt, err := parsed(t, text)
		if err != nil {
			t.Fatal(err)
		}
		sides, err := condition.Joined(stmt, text, all)
		if err != nil {
			t.Fatalf("%s: %v", from, err)
		}
		for _, side := range sides {
			if side.Form == nil {
				refused[side.Why.Error()]++
				continue
			}
			compared += compareSide(t, conn, from, side, sides, tables)
		}
	}
	if t.Logf("%d evaluations, refused: %v", compared, refused); compared < *joins/2 {
		t.Errorf("%d evaluations, refused: %v", compared, refused)
	}
}

// fillJoined fills the tables, or reads them.
func fillJoined(t *testing.T, conn *pgconn.PgConn, r *rand.Rand, fresh bool) map[string][][]string {
	value := func() string {
		if r.Intn(6) == 0 {
			return "NULL"
		}
		return fmt.Sprint(r.Intn(4))
	}
	for i := 0; i < 4 && fresh; i++ {
		rows(t, conn, fmt.Sprintf("INSERT INTO a VALUES (%d, %s, 'x')", i, value()))
		rows(t, conn, fmt.Sprintf("INSERT INTO b VALUES (%d, %s, %s, 'x')", i, value(), value()))
		rows(t, conn, fmt.Sprintf("INSERT INTO c VALUES (%d, %d, %s)", r.Intn(4), i, value()))
	}
	tables := map[string][][]string{}
	for name, columns := range map[string]string{"a": "id, x, t", "b": "id, a_id, z, t", "c": "id, n, z"} {
		tables[name] = rows(t, conn, "SELECT "+columns+" FROM "+name)
		for _, its := range tables[name] {
			for i := range its {
				if its[i] == "" {
					its[i] = "NULL"
				}
			}
		}
	}
	return tables
}

// randomJoin puts a FROM and a WHERE together.
func randomJoin(r *rand.Rand) string {
	columns := map[string][]string{"a": {"a.id", "a.x"}, "b": {"b.id", "b.a_id", "b.z"}, "c": {"c.id", "c.n", "c.z"}}
	pick := func(from []string) string { return from[r.Intn(len(from))] }
	names := []string{"a", "b", "c"}
	r.Shuffle(3, func(i, k int) { names[i], names[k] = names[k], names[i] })
	names = names[:2+r.Intn(2)]
	test := func(those []string) string {
		one := pick(columns[pick(those)])
		switch r.Intn(5) {
		case 0:
			return one + pick([]string{" = ", " < ", " <> "}) + fmt.Sprint(r.Intn(4))
		case 1:
			return one + pick([]string{" IS NULL", " IS NOT NULL", " IN (0, 1, 3)"})
		case 2:
			return "(" + one + " = 1 OR " + pick(columns[pick(those)]) + pick([]string{" = ", " > "}) + pick(columns[pick(those)]) + ")"
		}
		return one + pick([]string{" = ", " = ", " <= "}) + pick(columns[pick(those)])
	}
	// Some are in subqueries, by which the statement knows the same columns.
	as := func(name string) string {
		its := " FROM " + name
		if r.Intn(2) == 0 {
			its += " WHERE " + test([]string{name})
		}
		switch r.Intn(6) {
		case 0:
			return "(SELECT *" + its + ") AS " + name
		case 1:
			all := append([]string{"1 AS one"}, columns[name]...)
			r.Shuffle(len(all), func(i, k int) { all[i], all[k] = all[k], all[i] })
			return "(SELECT " + strings.Join(all, ", ") + its + " ORDER BY 1) AS " + name
		case 2:
			return "(SELECT s.* FROM (SELECT *" + its + ") AS s) AS " + name
		}
		return name
	}
	from := as(names[0])
	for i := 1; i < len(names); i++ {
		from += pick([]string{" JOIN ", " JOIN ", " LEFT JOIN "}) + as(names[i]) + " ON " + test(names[:i+1])
		if r.Intn(2) == 0 {
			from += " AND " + test(names[:i+1])
		}
	}
	for i, word := 0, " WHERE "; i < r.Intn(4); i, word = i+1, " AND " {
		from += word + test(names)
	}
	return from
}

// keyText writes a table's key. Of one in a subquery, the subquery has the columns.
func keyText(table, name string) string {
	name, _, _ = strings.Cut(name, condition.Within)
	if table == "c" {
		return name + ".id::text || '/' || " + name + ".n::text"
	}
	return name + ".id::text"
}

// TestBesideManyRows: a condition is compared with only so many rows of another table, unless it is one of equality.
func TestBesideManyRows(t *testing.T) {
	_, all := open(t, "beside_many_rows", joinsSchema)
	for on, want := range map[string][2]string{
		"c.n = a.id": {"c WHERE n IN (", "c WHERE n IN ("}, "c.n < a.id": {"c WHERE n < '", "a join beside more rows than are compared"},
		"(c.n = a.id OR c.z = a.id)": {"c WHERE n = 0 OR z = 0 OR", "a join beside more rows than are compared"},
	} {
		text := "SELECT * FROM a, c WHERE " + on
		stmt, err := parsed(t, text)
		if err != nil {
			t.Fatal(err)
		}
		sides, err := condition.Joined(stmt, text, all)
		if err != nil || sides[1].Form == nil {
			t.Fatalf("%s: %v", on, err)
		}
		for i, count := range []int{64, 65} {
			with := condition.Arguments{HasRows: true, Beside: map[string][]record.Key{}}
			for n := 0; n < count; n++ {
				with.Beside["a"] = append(with.Beside["a"], record.Key(fmt.Sprint(n)))
			}
			its, err := sides[1].Form.Bind(with)
			got := fmt.Sprint(err)
			if err == nil {
				got = its.String()
				if holds := its.Holds(row("9", "63", "70")) == condition.Yes; holds != (on != "c.n < a.id") {
					t.Errorf("%s beside %d rows holds: %v", on, count, holds)
				}
			}
			if !strings.HasPrefix(got, strings.TrimSuffix(want[i], "'")) {
				t.Errorf("%s beside %d rows: %s", on, count, got)
			}
		}
		if _, err := sides[1].Form.Bind(condition.Arguments{HasRows: true}); err == nil {
			t.Errorf("%s beside no row is followed", on)
		}
	}
}

// subqueries has, for each statement, what it asks of its own tables, and then of those of subqueries that found nothing.
var subqueries = []struct{ from, want string }{
	{"a WHERE a.x = 1 AND EXISTS (SELECT 1 FROM c WHERE c.n = 1)", "a WHERE x = 1"},
	{"a WHERE a.x > 0 AND NOT EXISTS (SELECT 1 FROM c WHERE c.n = 1 AND z = 2)", "a WHERE x > 0; c WHERE n = 1 AND z = 2"},
	{"a WHERE x > 0 AND NOT EXISTS (SELECT FROM c WHERE c.id = 9 LIMIT 1)", "a WHERE x > 0; c WHERE id = 9"},
	{"a WHERE x > 0 AND NOT EXISTS (SELECT FROM c WHERE n = 9 LIMIT 0)", "a WHERE x > 0; a subquery with LIMIT 0, or a LIMIT that isn't a number"},
	{"a WHERE x > 0 AND NOT EXISTS (SELECT FROM c WHERE n = 9 LIMIT NULL)", "a WHERE x > 0; c WHERE n = 9"},
	{"a WHERE NOT EXISTS (SELECT n FROM c WHERE c.id = a.id AND n > 1)", "a subquery; c WHERE n > 1 AND id IN (..)"},
	{"a WHERE NOT EXISTS (SELECT n FROM c WHERE id = a.id AND c.n <> a.id)", "a subquery; c WHERE .."},
	{"a WHERE a.id NOT IN (SELECT c.n FROM c WHERE z = 1)", "a subquery; c WHERE z = 1 AND n IN (..)"},
	{"a WHERE a.id <> ALL (SELECT c.n FROM c WHERE z = 1)", "a subquery; c WHERE z = 1 AND n IN (..)"},
	{"a WHERE NOT (a.id = ANY (SELECT c.n FROM c))", "a subquery; c WHERE n IN (..)"},
	{"a WHERE x = 1 AND 3 NOT IN (SELECT z FROM c WHERE n = 0)", "a WHERE x = 1; c WHERE n = 0 AND z = 3"},
	{"a WHERE x = 1 AND 3 NOT IN (SELECT DISTINCT z FROM c WHERE n = 0)", "a WHERE x = 1; c WHERE n = 0 AND z = 3"},
	{"a WHERE x = 1 AND NOT EXISTS (SELECT 1 FROM c WHERE n = 5 OR abs(z) = 9)", "a subquery; c WHERE n = 5"},
	{"a WHERE x = 1 AND NOT EXISTS (SELECT 1 FROM c WHERE n = 5 GROUP BY z)", "a WHERE x = 1; c WHERE n = 5"},
	{"a WHERE x >= 1 AND NOT EXISTS (SELECT 1 FROM a AS o WHERE o.x = 99 AND o.t = 'x')", "a WHERE x >= 1; a WHERE x = 99 AND t = 'x'"},
	{"a WHERE x >= 1 AND NOT EXISTS (SELECT 1 FROM a AS o WHERE x = 99)", "a WHERE x >= 1; a WHERE x = 99"},
	{"a WHERE x >= 1 AND NOT EXISTS (SELECT 1 FROM a WHERE x = 99)", "a WHERE x >= 1; a subquery over a table with the name of one around it"},
	// An inner name means a column of the inner table, if that has it.
	{"a WHERE NOT EXISTS (SELECT 1 FROM b WHERE b.a_id = id)", "a; a comparison of two columns"},
	{"a WHERE NOT EXISTS (SELECT 1 FROM b WHERE a_id = a.id AND b.z = 1)", "a subquery; b WHERE z = 1 AND a_id IN (..)"},
	{"a WHERE NOT EXISTS (SELECT 1 FROM b WHERE a_id = x)", "a subquery; b WHERE a_id IN (..)"},
	{"a WHERE x = 1 AND NOT EXISTS (SELECT 1 FROM b WHERE b IS NULL)", "a WHERE x = 1; an unknown column"},
	{"a WHERE x = 1 AND NOT EXISTS (SELECT 1 FROM c WHERE a IS NULL)", "a subquery; an unknown column"},
	{"a WHERE x = 1 AND NOT EXISTS (SELECT 1 FROM c WHERE ctid IS NULL)", "a WHERE x = 1; an unknown column"},
	// What finds nothing though there are rows, or something though there are none.
	{"a WHERE x = 1 AND NOT EXISTS (SELECT 1 FROM c WHERE n = 5 OFFSET 1)", "a subquery; a subquery over several tables, or in another form"},
	{"a WHERE x = 1 AND NOT EXISTS (SELECT z FROM c GROUP BY z HAVING count(*) > 9)", "a subquery; a subquery over several tables, or in another form"},
	{"a WHERE x = 1 AND NOT EXISTS (SELECT 1 FROM c, b WHERE c.n = b.z AND false)", "a WHERE x = 1; a subquery over several tables, or in another form"},
	{"a WHERE x = 1 AND NOT EXISTS (SELECT 1 FROM c WHERE false UNION SELECT 2 WHERE false)", "a WHERE x = 1; a subquery over several tables, or in another form"},
	{"a WHERE x = 1 AND NOT EXISTS (SELECT generate_series(1, 0) FROM c)", "a subquery; a function that returns any number of rows"},
	{"a WHERE x = 1 AND NOT EXISTS (SELECT 1 FROM c FOR UPDATE SKIP LOCKED)", "a subquery; a subquery over several tables, or in another form"},
	{"a WHERE x = 1 AND NOT EXISTS (SELECT 1 FROM secured)", "a subquery; row security"},
	{"a WHERE x = 1 AND NOT EXISTS (SELECT 1 FROM viewed)", "a subquery; a view"},
	{"a WHERE x = 1 AND NOT EXISTS (SELECT 1 FROM ONLY c WHERE false)", "a WHERE x = 1; ONLY"},
	{"a WHERE x = 1 AND NOT EXISTS (SELECT 1 FROM c TABLESAMPLE BERNOULLI (0))", "a subquery; TABLESAMPLE"},
	{"a WHERE x = 1 AND 3 NOT IN (SELECT z FROM c LIMIT 1)", "a subquery; a subquery with LIMIT 0, or a LIMIT that isn't a number"},
	{"a WHERE x = 1 AND 3 NOT IN (SELECT z + 1 FROM c)", "a WHERE x = 1; an expression over a column"},
	// What doesn't say that nothing was found.
	{"a WHERE x = 1 AND NOT (EXISTS (SELECT 1 FROM c) AND x = 2)", "a subquery"},
	{"a WHERE x = 1 OR NOT EXISTS (SELECT 1 FROM c)", "a WHERE x = 1"},
	{"a WHERE x = 1 AND 3 NOT IN (1, 2)", "a WHERE x = 1 AND 3 NOT IN (1, 2)"},
	{"a WHERE x = 1 AND 3 = ANY (SELECT z FROM c)", "a WHERE x = 1"},
	{"a WHERE x = 1 AND 3 <> ANY (SELECT z FROM c)", "a WHERE x = 1"},
	{"a WHERE x = 1 AND NOT (3 <> ALL (SELECT z FROM c))", "a WHERE x = 1"},
	{"a WHERE x = 1 AND 3 = ALL (SELECT z FROM c)", "a WHERE x = 1"},
	{"a WHERE x = 1 AND random() < 2 AND NOT EXISTS (SELECT 1 FROM c WHERE n = 77)", "a subquery; c WHERE n = 77"},
	// Beside rows of several tables.
	{"a JOIN b ON a.id = b.a_id WHERE NOT EXISTS (SELECT 1 FROM c WHERE c.id = a.id AND c.n = 3 AND c.z = b.id)",
		"a subquery; a subquery; a condition over three tables"},
	{"a JOIN b ON a.id = b.a_id WHERE NOT EXISTS (SELECT 1 FROM c WHERE c.id = b.id AND c.n = 3)",
		"a column of another table that isn't in its key; a subquery; c WHERE n = 3 AND id IN (..)"},
	{"a LEFT JOIN b ON a.id = b.a_id AND NOT EXISTS (SELECT 1 FROM c WHERE c.n = 3)", "a; a subquery"},
}

// TestSubqueriesOfHiddenNames: a name in a subquery that may come to mean another table isn't followed.
func TestSubqueriesOfHiddenNames(t *testing.T) {
	_, all := open(t, "subqueries_of_hidden_names", joinsSchema+"CREATE SCHEMA before")
	const hidden = "a table's name that may come to mean one in another schema of the search path"
	for _, x := range []struct{ path, text, want string }{
		{`["before", "public"]`, "SELECT * FROM a WHERE x = 1 AND NOT EXISTS (SELECT 1 FROM c WHERE n = 1)", "a subquery; " + hidden},
		{`["before", "public"]`, "SELECT * FROM a WHERE x = 1 AND NOT EXISTS (SELECT 1 FROM public.c WHERE n = 1)", "; "},
		{`["before", "public"]`, "UPDATE a SET x = 2 WHERE x = 1 AND NOT EXISTS (SELECT 1 FROM public.c WHERE n = 1)", hidden + "; "},
		{`["before", "public"]`, "UPDATE public.a SET x = 2 WHERE x = 1 AND NOT EXISTS (SELECT 1 FROM public.c WHERE n = 1)", "; "},
		{`["public", "before"]`, "UPDATE a SET x = 2 WHERE x = 1 AND NOT EXISTS (SELECT 1 FROM c WHERE n = 1)", "; "},
		{`["before", "public"]`, "INSERT INTO a SELECT 1 WHERE NOT EXISTS (SELECT 1 FROM c WHERE n = 1)", hidden},
		{`["public"]`, "INSERT INTO a SELECT 1 WHERE NOT EXISTS (SELECT 1 FROM c WHERE n = 1)", ""},
		{`["public"]`, "INSERT INTO a SELECT b.id FROM b WHERE NOT EXISTS (SELECT 1 FROM c WHERE n = b.id)", "an unknown column"},
		{`["public"]`, "DELETE FROM a WHERE NOT EXISTS (SELECT 1 FROM c WHERE n = a.id)", "a subquery; a subquery that depends on rows that aren't told"},
	} {
		stmt, err := parsed(t, x.text)
		if err != nil {
			t.Fatal(err)
		}
		sides, err := condition.Joined(stmt, x.text, in(t, all, x.path))
		if err != nil {
			t.Errorf("%s: %v", x.text, err)
			continue
		}
		var whys []string
		for _, side := range sides {
			why := ""
			if side.Why != nil {
				why = side.Why.Error()
			}
			whys = append(whys, why)
		}
		if got := strings.Join(whys, "; "); got != x.want {
			t.Errorf("%s with %s: %s in place of %s", x.text, x.path, got, x.want)
		}
	}
}

// TestSubqueries: if a statement has a result, what its own tables are asked for is in it, and what a subquery that found
// nothing asks for isn't there.
func TestSubqueries(t *testing.T) {
	conn, all := open(t, "subqueries", joinsSchema)
	r := rand.New(rand.NewSource(3))
	bound := map[string]int{}
	for round := 0; round < 8; round++ {
		rows(t, conn, "TRUNCATE a, b, c")
		tables := fillJoined(t, conn, r, true)
		for _, one := range subqueries {
			text := "SELECT * FROM " + one.from
			stmt, err := parsed(t, text)
			if err != nil {
				t.Fatal(err)
			}
			sides, err := condition.Joined(stmt, text, all)
			if err != nil {
				if round == 0 && err.Error() != "several tables, or none" {
					t.Errorf("%s: %v", one.from, err)
				}
				continue
			}
			wants := strings.Split(one.want, "; ")
			if len(sides) != len(wants) {
				t.Errorf("%s: %d sides", one.from, len(sides))
				continue
			}
			for i, side := range sides {
				if side.Form == nil {
					if side.Why.Error() != wants[i] {
						t.Errorf("%s: %v in place of %s", one.from, side.Why, wants[i])
					}
					continue
				}
				compared := compareSide(t, conn, one.from, side, sides, tables)
				if its, err := side.Form.Bind(condition.Arguments{HasRows: true}); err == nil && its.String() != wants[i] {
					t.Errorf("%s: %v in place of %s", one.from, its, wants[i])
				} else if head := strings.Split(wants[i], " (..)")[0]; err != nil && len(side.Form.Outer) == 0 && err.Error() != wants[i] {
					t.Errorf("%s: %v in place of %s", one.from, err, head)
				}
				bound[one.from+wants[i]] += compared
			}
		}
	}
	t.Logf("%d of %d were compared", len(bound), len(subqueries))
}

func TestJoinsRefused(t *testing.T) {
	_, all := open(t, "joins_refused", joinsSchema)
	for text, want := range map[string]string{
		"SELECT * FROM a":                                                "several tables, or none",
		"SELECT * FROM a NATURAL JOIN b":                                 "a join that isn't followed",
		"SELECT * FROM a FULL JOIN b USING (id)":                         "a join that isn't followed",
		"SELECT * FROM a RIGHT JOIN b USING (id)":                        "a join that isn't followed",
		"SELECT * FROM a LEFT JOIN (b JOIN c USING (id)) USING (id)":     "a join that isn't followed",
		"SELECT * FROM a, (SELECT 1) s":                                  "a subquery in FROM that isn't followed",
		"SELECT * FROM a, LATERAL (SELECT a.x) s":                        "a subquery in FROM that isn't followed",
		"SELECT * FROM (SELECT * FROM a) s (y, z)":                       "a table alias that renames columns",
		"SELECT * FROM (SELECT DISTINCT x FROM a) s":                     "a subquery in FROM that groups, merges or unites rows",
		"SELECT * FROM (SELECT x FROM a GROUP BY x) s":                   "a subquery in FROM that groups, merges or unites rows",
		"SELECT * FROM (SELECT count(*) FROM a) s":                       "a subquery in FROM that groups, merges or unites rows",
		"SELECT * FROM (SELECT generate_series(1, x) FROM a) s":          "a subquery in FROM that groups, merges or unites rows",
		"SELECT * FROM (SELECT id FROM a UNION ALL SELECT 1) s":          "a subquery in FROM that groups, merges or unites rows",
		"SELECT * FROM (VALUES (1)) s (y), a":                            "a table alias that renames columns",
		"SELECT * FROM (SELECT id FROM a FOR UPDATE) s":                  "FOR UPDATE of several tables",
		"SELECT * FROM (SELECT id FROM a) s FOR UPDATE":                  "FOR UPDATE of several tables",
		"SELECT * FROM (SELECT * FROM secured) s":                        "row security",
		"SELECT * FROM (SELECT * FROM viewed) s":                         "unknown table",
		"SELECT * FROM (SELECT * FROM a TABLESAMPLE system (1)) s":       "a join that isn't followed",
		"SELECT * FROM a LEFT JOIN (SELECT b.id FROM b, c) s USING (id)": "a join that isn't followed",
		"SELECT * FROM (WITH a AS (SELECT 1 AS id) SELECT id FROM a) s":  "WITH",
		"WITH RECURSIVE s AS (SELECT 1 AS id) SELECT * FROM s":           "WITH",
		"WITH s AS (DELETE FROM a RETURNING id) SELECT * FROM s":         "WITH",
		"SELECT * FROM (a JOIN b USING (id)) AS j, c":                    "a join that isn't followed",
		"SELECT * FROM a, secured":                                       "row security",
		"SELECT * FROM a, viewed":                                        "unknown table",
		"SELECT * FROM a, b FOR UPDATE":                                  "FOR UPDATE of several tables",
		"SELECT * FROM a, nowhere":                                       "unknown table",
		"SELECT * FROM a, public.a":                                      "two tables with the same name",
		"SELECT * FROM a, b FOR UPDATE SKIP LOCKED":                      "SKIP LOCKED",
		"WITH b AS (SELECT 1) SELECT * FROM a, b":                        "a subquery in FROM that isn't followed",
		"WITH u AS (SELECT 1) SELECT * FROM a, b":                        "WITH",
		"DELETE FROM a USING b WHERE a.id = b.id":                        "several tables, or none",
	} {
		stmt, err := parsed(t, text)
		if err != nil {
			t.Fatal(err)
		}
		if _, err := condition.Joined(stmt, text, all); err == nil || err.Error() != want {
			t.Errorf("%s: %v in place of %s", text, err, want)
		}
	}
}

// TestLikewiseRefused: that a part which isn't followed holds of a row says something only of rows whose columns have the same
// values to every function: equal numbers may be written in two ways, and so may texts of a collation that isn't
// deterministic; and the log doesn't have what is generated.
func TestLikewiseRefused(t *testing.T) {
	_, all := open(t, "likewise_refused", `CREATE COLLATION loose (provider = icu, locale = 'und-u-ks-level2', deterministic = false);
		CREATE TABLE k (id int PRIMARY KEY, x int, p numeric, g int GENERATED ALWAYS AS (x + 1) STORED, c text COLLATE loose, t text);
		CREATE TABLE b (id int PRIMARY KEY, z int)`)
	const join = "SELECT * FROM k JOIN b ON b.id = k.id WHERE b.z = 1 AND "
	for text, followed := range map[string]bool{
		join + "k.x % 2 = 0": true, join + "k.t || 'x' = 'ax'": true, join + "k.p * 2 > 3": false, join + "k.g % 2 = 0": false,
		join + "k.c || 'x' = 'ax'": false, join + "k.x % 2 = k.p * 2": false,
		// A row that is locked may be newer than what the subquery has seen.
		"SELECT * FROM k WHERE t = 'a' AND x IN (SELECT z FROM b)":            true,
		"SELECT * FROM k WHERE t = 'a' AND x IN (SELECT z FROM b) FOR UPDATE": false,
	} {
		stmt, err := parsed(t, text)
		if err != nil {
			t.Fatal(err)
		}
		sides, err := condition.Joined(stmt, text, all)
		is := err == nil
		for _, side := range sides {
			is = is && (side.Name != "k" || side.Why == nil)
		}
		if is != followed {
			t.Errorf("%s: it is followed: %v, %v", text, is, err)
		}
	}
}

// TestJoinsOfOtherNames: a name that doesn't mean a column of the join's tables is refused for each of them.
func TestJoinsOfOtherNames(t *testing.T) {
	_, all := open(t, "joins_of_other_names", joinsSchema)
	for from, want := range map[string]string{
		"a, b WHERE other.a.id = b.id":           "an unknown column",
		"a AS one, b WHERE public.a.id = b.id":   "an unknown column",
		"a AS b, b AS a WHERE public.b.z = b.id": "an unknown column",
		"a, b WHERE public.a.b.id = b.id":        "an unknown column",
		"a, b WHERE one.id = b.id":               "an unknown column",
		"a, b WHERE id = 1":                      "a column that several tables have",
	} {
		text := "SELECT * FROM " + from
		stmt, err := parsed(t, text)
		if err != nil {
			t.Fatal(err)
		}
		sides, err := condition.Joined(stmt, text, all)
		if err != nil {
			t.Fatalf("%s: %v", from, err)
		}
		for _, side := range sides {
			if side.Form != nil || side.Why == nil || side.Why.Error() != want {
				t.Errorf("%s: %s is followed, or %v in place of %s", from, side.Name, side.Why, want)
			}
		}
	}
}

// TestBesideEmptyTables: a join with an empty table has no rows, so it has passed nothing of its other tables over.
func TestBesideEmptyTables(t *testing.T) {
	_, all := open(t, "beside_empty_tables", joinsSchema)
	for from, want := range map[string][]bool{
		"a LEFT JOIN b ON b.z = 1": {false, true}, "a, b WHERE b.z = 1": {true, true}, "a JOIN b ON true": {true, true},
	} {
		text := "SELECT * FROM " + from
		stmt, err := parsed(t, text)
		if err != nil {
			t.Fatal(err)
		}
		sides, err := condition.Joined(stmt, text, all)
		if err != nil {
			t.Fatal(err)
		}
		for i, side := range sides {
			if side.Form == nil {
				t.Fatalf("%s: %v", from, side.Why)
			}
			if _, err := side.Form.Bind(condition.Arguments{}); side.Form.Given != want[i] || (err != nil) != want[i] {
				t.Errorf("%s: %s is given others' rows: %v, %v", from, side.Name, side.Form.Given, err)
			}
		}
	}
}
