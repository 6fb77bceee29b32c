package session

import (
	"encoding/binary"
	"fmt"
	"strings"
	"testing"

	"github.com/jackc/pgproto3/v2"

	"zanteyard/wire"
)

// columns returns how many columns each row and description among some answers has.
func columns(all [][]byte) (its []int) {
	for _, m := range all {
		if m[0] == 'T' || m[0] == 'D' {
			its = append(its, int(binary.BigEndian.Uint16(m[wire.Header:])))
		}
	}
	return its
}

// TestFetchedUnseen: a cursor's query was rewritten, and then its rows are fetched in a way that the proxy doesn't look at.
// They have the client's columns alone, or the client gets an error.
func TestFetchedUnseen(t *testing.T) {
	needServer(t)
	sql(t, fill)
	const declare, fetch = "DECLARE c CURSOR FOR SELECT id, v FROM t ORDER BY id", "FETCH 1 FROM c"
	begin := func(p *proxied) {
		p.query("BEGIN")
		p.query(declare)
	}
	for name, does := range map[string]func(p *proxied) [][]byte{
		"in an encoding that isn't read": func(p *proxied) [][]byte {
			begin(p)
			p.query("SET client_encoding TO SJIS")
			return p.query(fetch)
		},
		"with strings that are read otherwise": func(p *proxied) [][]byte {
			begin(p)
			p.query("SET standard_conforming_strings TO off")
			return p.query(fetch)
		},
		"by a text that is too long": func(p *proxied) [][]byte {
			begin(p)
			return p.query(fetch + " -- " + strings.Repeat("x", 2<<20))
		},
		"by a prepared one that is too long": func(p *proxied) [][]byte {
			begin(p)
			p.do(named("long", fetch+" -- "+strings.Repeat("x", 2<<20)))
			return p.do(bound("long", nil))
		},
		"by a statement beyond those that are known": func(p *proxied) [][]byte {
			p.together(mostNamed, func(i int) []pgproto3.FrontendMessage {
				return []pgproto3.FrontendMessage{&pgproto3.Parse{Name: fmt.Sprint("s", i), Query: "SELECT 1"}}
			})
			begin(p)
			p.do(named("fetch", fetch))
			return p.do(bound("fetch", nil))
		},
		"by a statement beyond those that are known, prepared after the cursor": func(p *proxied) [][]byte {
			p.query("BEGIN")
			p.together(mostNamed, func(i int) []pgproto3.FrontendMessage {
				if i == mostNamed/2 {
					p.query(declare)
				}
				return []pgproto3.FrontendMessage{&pgproto3.Parse{Name: fmt.Sprint("s", i), Query: "SELECT 1"}}
			})
			all := p.do(messages('Z', &pgproto3.Parse{Name: "fetch", Query: fetch}, &pgproto3.Bind{PreparedStatement: "fetch"},
				&pgproto3.Describe{ObjectType: 'P'}, &pgproto3.Execute{}, &pgproto3.Sync{}))
			return all
		},
		"by more portals than are known": func(p *proxied) [][]byte {
			begin(p)
			p.do(named("fetch", fetch))
			var all [][]byte
			for i := 0; i < 30000; i += 1000 {
				var some []pgproto3.FrontendMessage
				for j := i; j < i+1000; j++ {
					some = append(some, &pgproto3.Bind{DestinationPortal: fmt.Sprint("p", j), PreparedStatement: "fetch"})
				}
				all = p.do(messages('Z', append(some, &pgproto3.Describe{ObjectType: 'P', Name: fmt.Sprint("p", i+999)},
					&pgproto3.Execute{Portal: fmt.Sprint("p", i+999)}, &pgproto3.Sync{})...))
				if all[len(all)-1][5] == 'E' {
					break
				}
			}
			return all
		},
	} {
		t.Run(name, func(t *testing.T) {
			p := through(t, "postgres", nil)
			p.warm("BEGIN", declare, fetch, "COMMIT")
			all := does(p)
			its, failed := columns(all), strings.Contains(show(all), "zanteyard-proxy: ")
			if len(its) == 0 && !failed {
				t.Errorf("nothing was fetched: %.1000s", show(all[len(all)-1:]))
			}
			for _, n := range its {
				if n != 2 {
					t.Fatalf("a row has %d columns", n)
				}
			}
		})
	}
}

// TestFetchedOfTheClients: rows that are fetched unseen have all columns if these are the client's own, though they are of the
// hidden ones' types.
func TestFetchedOfTheClients(t *testing.T) {
	needServer(t)
	sql(t, fill)
	const rewritten, own = "DECLARE c CURSOR FOR SELECT id, v FROM t ORDER BY id", "DECLARE d CURSOR FOR SELECT id, v, xmin, tableoid, concat(id) FROM t OFFSET 0"
	p := through(t, "postgres", nil)
	p.warm("BEGIN", rewritten, "FETCH 1 FROM c", "COMMIT")
	p.query("BEGIN")
	p.query(rewritten)
	p.query(own)
	for cursor, want := range map[string]int{"c": 2, "d": 5} {
		for _, n := range columns(p.query("FETCH 1 FROM " + cursor + " -- " + strings.Repeat("x", 2<<20))) {
			if n != want {
				t.Errorf("a row of %s has %d columns, not %d", cursor, n, want)
			}
		}
	}
}

// TestCursorsAsPortals: to the server a cursor that DECLARE made is a portal. Described or executed as one, it has the client's
// columns alone.
func TestCursorsAsPortals(t *testing.T) {
	needServer(t)
	sql(t, fill)
	const declare, fetch = "DECLARE c CURSOR FOR SELECT id, v FROM t ORDER BY id", "FETCH 1 FROM c"
	describe, execute, sync := &pgproto3.Describe{ObjectType: 'P', Name: "c"}, &pgproto3.Execute{Portal: "c", MaxRows: 1}, &pgproto3.Sync{}
	prepared := func(text string) []pgproto3.FrontendMessage {
		return []pgproto3.FrontendMessage{&pgproto3.Parse{Query: text}, &pgproto3.Bind{}, &pgproto3.Execute{}}
	}
	for name, does := range map[string]struct {
		want string // how many columns each description and row has
		does func(p *proxied) [][]byte
	}{
		"described": {"[2]", func(p *proxied) [][]byte {
			p.query(declare)
			return p.do(messages('Z', describe, sync))
		}},
		"executed": {"[2 2]", func(p *proxied) [][]byte {
			p.query(declare)
			return p.do(messages('Z', execute, execute, sync))
		}},
		"both": {"[2 2]", func(p *proxied) [][]byte {
			p.query(declare)
			return p.do(messages('Z', describe, execute, sync))
		}},
		"after a FETCH": {"[2 2]", func(p *proxied) [][]byte {
			p.query(declare)
			p.query(fetch)
			return p.do(messages('Z', describe, execute, sync))
		}},
		"before a FETCH": {"[2 2 2 2 2]", func(p *proxied) [][]byte {
			p.query(declare)
			all := p.do(messages('Z', describe, execute, sync))
			return append(append(all, p.query(fetch)...), p.do(messages('Z', execute, sync))...)
		}},
		"in one pipeline": {"[2 2]", func(p *proxied) [][]byte {
			return p.do(messages('Z', append(prepared(declare), describe, execute, sync)...))
		}},
		"executed in one pipeline": {"[2 2]", func(p *proxied) [][]byte {
			return p.do(messages('Z', append(prepared(declare), execute, execute, sync)...))
		}},
		"in place of a portal that SQL closed": {"[2 2]", func(p *proxied) [][]byte {
			p.do(messages('Z', &pgproto3.Parse{Query: "SHOW work_mem"}, &pgproto3.Bind{DestinationPortal: "c"}, sync))
			p.query("CLOSE c")
			p.query(declare)
			return p.do(messages('Z', execute, describe, sync))
		}},
		"with hold, later": {"[2 2]", func(p *proxied) [][]byte {
			p.query("DECLARE c CURSOR WITH HOLD FOR SELECT id, v FROM t ORDER BY id")
			p.query("COMMIT")
			return p.do(messages('Z', describe, execute, sync))
		}},
		"closed, and made again by a function": {"[5 5 5]", func(p *proxied) [][]byte {
			p.query(declare)
			p.do(messages('Z', &pgproto3.Close{ObjectType: 'P', Name: "c"}, sync))
			p.query("DO $$ BEGIN EXECUTE 'DECLARE c CURSOR FOR SELECT id, v, v, v, v FROM t ORDER BY id'; END $$")
			all := p.query(fetch)
			return append(all, p.do(messages('Z', execute, sync))...)
		}},
		"that isn't there": {"[]", func(p *proxied) [][]byte {
			p.query(declare)
			return p.do(messages('Z', &pgproto3.Execute{Portal: "none"}, sync))
		}},
	} {
		t.Run(name, func(t *testing.T) {
			p := through(t, "postgres", nil)
			p.warm("BEGIN", declare, fetch, "COMMIT")
			p.query("BEGIN")
			all := does.does(p)
			if got := fmt.Sprint(columns(all)); got != does.want {
				t.Errorf("%s columns, not %s: %.300s", got, does.want, show(all))
			}
			p.query("ROLLBACK")
			p.query("CLOSE ALL")
		})
	}
}

// TestWritesByNamedPortals: to SQL a portal with a name is a cursor, and one of an UPDATE without RETURNING can't be run by it, or
// once more. No columns are added to it.
func TestWritesByNamedPortals(t *testing.T) {
	needServer(t)
	sql(t, fill)
	const update = "UPDATE t SET v = v + 1 WHERE id = 2"
	run := func(c *client, name string) (all [][]byte) {
		all = append(all, c.query("BEGIN")...)
		all = append(all, c.do(messages('Z', &pgproto3.Parse{Name: name, Query: update}, &pgproto3.Bind{PreparedStatement: name, DestinationPortal: "c"},
			&pgproto3.Describe{ObjectType: 'P', Name: "c"}, &pgproto3.Execute{Portal: "c"}, &pgproto3.Sync{}))...)
		all = append(all, c.query("SAVEPOINT s")...)
		for _, text := range []string{"MOVE 1 FROM c", "FETCH ALL FROM c"} {
			all = append(append(all, c.query(text)...), c.query("ROLLBACK TO s")...)
		}
		all = append(all, c.do(messages('Z', &pgproto3.Execute{Portal: "c"}, &pgproto3.Sync{}))...)
		all = append(all, c.query("ROLLBACK")...)
		return append(all, c.do(messages('Z', &pgproto3.Close{ObjectType: 'S', Name: name}, &pgproto3.Sync{}))...)
	}
	plain, p := direct(t, "postgres"), through(t, "postgres", nil)
	p.warm(update)
	for _, name := range []string{"", "u"} {
		for i := 0; i < 2; i++ {
			if want, got := run(plain, name), run(p.client, name); !same(got, want) {
				t.Errorf("statement %q: got\n%sand not\n%s", name, show(got), show(want))
			}
			p.settle()
		}
	}
}
