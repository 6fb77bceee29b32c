package session

import (
	"bytes"
	"flag"
	"math/rand"
	"sort"
	"strings"
	"testing"

	"github.com/jackc/pgproto3/v2"

	"zanteyard/catalog"
	"zanteyard/statements"
	"zanteyard/wire"
)

var waysWanted = flag.Int("ways", 30, "random statements that each driver's way of speaking is tried with")

// way is how a driver sends a statement. It returns all answers.
type way struct {
	name string
	does func(c *client, text string) [][]byte
}

// inOneSync sends messages, and reads up to ReadyForQuery.
func (c *client) inOneSync(all ...pgproto3.FrontendMessage) [][]byte {
	return c.do(messages('Z', append(all, &pgproto3.Sync{})...))
}

// three is the parameter of a statement that has one.
func three(text string) [][]byte {
	if strings.Contains(text, "$1") {
		return [][]byte{[]byte("3")}
	}
	return nil
}

// constant is a statement with a constant in place of its parameter.
func constant(text string) string { return strings.ReplaceAll(text, "$1", "'3'") }

// ways are those of drivers.
func ways() []way {
	parse := func(name, text string) pgproto3.FrontendMessage { return &pgproto3.Parse{Name: name, Query: text} }
	bind := func(portal, name, text string, formats ...int16) pgproto3.FrontendMessage {
		return &pgproto3.Bind{DestinationPortal: portal, PreparedStatement: name, Parameters: three(text), ResultFormatCodes: formats}
	}
	describe := func(kind byte, name string) pgproto3.FrontendMessage {
		return &pgproto3.Describe{ObjectType: kind, Name: name}
	}
	run := func(portal string, most uint32) pgproto3.FrontendMessage {
		return &pgproto3.Execute{Portal: portal, MaxRows: most}
	}
	shut := func(kind byte, name string) pgproto3.FrontendMessage {
		return &pgproto3.Close{ObjectType: kind, Name: name}
	}
	return []way{
		{"psql, psycopg2: a Query", func(c *client, text string) [][]byte { return c.query(constant(text)) }},
		{"psycopg 3, node-postgres: all messages at once", func(c *client, text string) [][]byte {
			return c.inOneSync(parse("", text), bind("", "", text), describe('P', ""), run("", 0))
		}},
		{"asyncpg: prepared and described, then binary", func(c *client, text string) [][]byte {
			all := c.inOneSync(parse("s", text), describe('S', "s"))
			all = append(all, c.inOneSync(bind("", "s", text, 1), run("", 0))...)
			return append(all, c.inOneSync(shut('S', "s"))...)
		}},
		{"pgx: prepared, each column in a format of its own", func(c *client, text string) [][]byte {
			all := c.inOneSync(parse("s", text), describe('S', "s"))
			var formats []int16
			for _, m := range all {
				if m[0] == 'T' {
					for i := wire.Int16(m[wire.Header:]); i > 0; i-- {
						formats = append(formats, int16(i%2))
					}
				}
			}
			all = append(all, c.inOneSync(bind("", "s", text, formats...), describe('P', ""), run("", 0))...)
			return append(all, c.inOneSync(shut('S', "s"))...)
		}},
		{"lib/pq: prepared without a name, then run", func(c *client, text string) [][]byte {
			all := c.inOneSync(parse("", text), describe('S', ""))
			return append(all, c.inOneSync(bind("", "", text), run("", 0))...)
		}},
		{"JDBC: a portal, some rows at a time", func(c *client, text string) [][]byte {
			all := c.inOneSync(parse("s", text), bind("c", "s", text), describe('P', "c"), run("c", 2))
			for i := 0; i < 3 && all[len(all)-2][0] == 's'; i++ {
				all = append(all, c.inOneSync(run("c", 2))...)
			}
			return append(all, c.inOneSync(shut('P', "c"), shut('S', "s"))...)
		}},
		{"SQLAlchemy over psycopg 3: a pipeline", func(c *client, text string) [][]byte {
			return c.inOneSync(parse("", text), bind("", "", text), describe('P', ""), run("", 0),
				parse("s", text), bind("", "s", text, 1), run("", 0), bind("", "s", text), describe('P', ""), run("", 0), shut('S', "s"))
		}},
		{"Npgsql: all at once, in binary", func(c *client, text string) [][]byte {
			return c.inOneSync(parse("", text), bind("", "", text, 1), describe('P', ""), run("", 0))
		}},
		{"Django: a cursor WITH HOLD", func(c *client, text string) [][]byte {
			text = constant(text)
			all := c.query(`DECLARE "_django_curs_1" NO SCROLL CURSOR WITH HOLD FOR ` + strings.TrimRight(strings.Split(text, ";")[0], " "))
			for _, more := range []string{`FETCH FORWARD 2 FROM "_django_curs_1"`, `FETCH ALL FROM "_django_curs_1"`, `CLOSE "_django_curs_1"`} {
				all = append(all, c.query(more)...)
			}
			return all
		}},
		{"psycopg 3: a named cursor, described as a portal, and then run as one", func(c *client, text string) [][]byte {
			text = constant(text)
			all := c.query(`DECLARE "named" CURSOR FOR ` + strings.TrimRight(strings.Split(text, ";")[0], " "))
			all = append(all, c.inOneSync(describe('P', "named"))...)
			all = append(all, c.query(`FETCH FORWARD 2 FROM "named"`)...)
			return append(all, c.inOneSync(run("named", 1), run("named", 0), describe('P', "named"), shut('P', "named"))...)
		}},
		{"psql -c: several in a text", func(c *client, text string) [][]byte {
			return c.query("SELECT 1; " + constant(text) + "\n; SELECT 2")
		}},
	}
}

// inAnyOrder sorts rows that follow each other.
func inAnyOrder(all [][]byte) [][]byte {
	its := append([][]byte(nil), all...)
	for i := 0; i < len(its); {
		j := i
		for j < len(its) && its[j][0] == 'D' {
			j++
		}
		if j > i {
			sort.Slice(its[i:j], func(a, b int) bool { return bytes.Compare(its[i+a], its[i+b]) < 0 })
		}
		i = j + 1
	}
	return its
}

// TestRandomWays sends random statements of all shapes in the ways of drivers, directly and through a session, before and
// after they are tried: each byte of the answers is the same. Rows without an order may come in another one if the server
// reads them otherwise, and a LIMIT may then return others.
func TestRandomWays(t *testing.T) {
	needServer(t)
	r := seeded(t)
	sql(t, "DROP DATABASE IF EXISTS ways")
	sql(t, "CREATE DATABASE ways")
	database_ = "ways"
	defer func() { database_ = "postgres" }()
	sql(t, statements.Schema)
	sql(t, "VACUUM ANALYZE")
	changes := []func(*Options){knowing(t), knowing(t, catalog.OnlyCertainLists)}
	all := ways()
	plain, p := direct(t, "postgres"), through(t, "postgres", changes[0])
	compared, ordered, altered, reads := 0, 0, uint64(0), 0
	for n := 0; n < *waysWanted; n++ {
		if n%50 == 49 { // what a connection knows is bounded
			plain.conn.Close()
			p.conn.Close()
			plain, p = direct(t, "postgres"), through(t, "postgres", changes[n/50%2])
		}
		text := statements.New(rand.New(rand.NewSource(r.Int63()))).Statement()
		level := []string{"READ COMMITTED", "REPEATABLE READ", "SERIALIZABLE"}[r.Intn(3)]
		for _, way := range all {
			run := func(c *client) [][]byte {
				c.query("BEGIN ISOLATION LEVEL " + level)
				its := way.does(c, text)
				c.query("ROLLBACK")
				c.inOneSync(&pgproto3.Close{ObjectType: 'S', Name: "s"}) // after an error it may be left
				return its
			}
			want := run(plain)
			for i := 0; i < 3; i++ {
				got := run(p.client)
				if compared++; !same(got, want) {
					mayDiffer := same(inAnyOrder(got), inAnyOrder(want)) || strings.Contains(strings.ToUpper(text), "LIMIT")
					if ordered++; !mayDiffer {
						t.Fatalf("statement %d, %s, %s: %q\ngot\n%sand not\n%s", n, way.name, level, text, show(got), show(want))
					}
				}
				p.settle()
			}
			for _, it := range p.sink.take() {
				selects, _, _ := it.Did.Sum(len(it.Reads))
				altered += selects
				reads += len(it.Reads)
			}
		}
	}
	t.Logf("%d answers were compared, %d of them had rows in another order, or others by a LIMIT; %d SELECTs, %d reads told", compared,
		ordered, altered, reads)
	if ordered*20 > compared || reads < compared/4 {
		t.Error("that is too much, or too little to find anything")
	}
}
