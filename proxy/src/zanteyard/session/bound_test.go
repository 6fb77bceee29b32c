package session

import (
	"testing"

	"github.com/jackc/pgproto3/v2"
)

// TestFetchFromAPortal: a portal of the protocol's is a cursor to SQL's FETCH.
func TestFetchFromAPortal(t *testing.T) {
	needServer(t)
	sql(t, fill)
	bind := &pgproto3.Bind{PreparedStatement: "s", DestinationPortal: "My one"}
	some := &pgproto3.Execute{Portal: "My one", MaxRows: 1}
	fetch := func(more ...pgproto3.FrontendMessage) []pgproto3.FrontendMessage {
		return append([]pgproto3.FrontendMessage{bind, some, &pgproto3.Parse{Query: `FETCH 2 FROM "My one"`}}, more...)
	}
	for _, x := range []struct {
		name  string
		steps []step
	}{
		{"simple", []step{messages('s', bind, some, &pgproto3.Flush{}), query(`FETCH 2 FROM "My one"`)}},
		{"several", []step{messages('s', bind, some, &pgproto3.Flush{}), query(`SELECT 1; FETCH 2 FROM "My one"; FETCH FROM "My one"`)}},
		{"in a block", []step{query("BEGIN"), messages('Z', bind, some, &pgproto3.Sync{}), query(`FETCH 2 FROM "My one"`), query("COMMIT")}},
		{"extended", []step{messages('Z', fetch(&pgproto3.Bind{}, &pgproto3.Execute{}, &pgproto3.Sync{})...)}},
		{"described", []step{messages('Z', fetch(&pgproto3.Bind{}, &pgproto3.Describe{ObjectType: 'P'}, &pgproto3.Execute{}, &pgproto3.Sync{})...)}},
		{"binary", []step{messages('Z', fetch(&pgproto3.Bind{ResultFormatCodes: []int16{1, 0}}, &pgproto3.Execute{}, &pgproto3.Sync{})...)}},
	} {
		plain, p := direct(t, "postgres"), through(t, "postgres", nil)
		prepare := named("s", "SELECT id, v FROM t ORDER BY id")
		plain.do(prepare)
		p.do(prepare)
		run := messages('Z', &pgproto3.Bind{PreparedStatement: "s"}, &pgproto3.Execute{}, &pgproto3.Sync{})
		for i := 0; i < 3; i++ {
			p.do(run)
			p.settle()
		}
		p.sink.take()
		if p.do(run); len(p.sink.take()) == 0 {
			t.Fatal("the statement isn't seen")
		}
		for i, step := range x.steps {
			if got, want := show(p.do(step)), show(plain.do(step)); got != want {
				t.Errorf("%s, step %d: got\n%s\nand not\n%s", x.name, i, got, want)
			}
		}
	}
}

// TestBoundBehindTheEnd: a portal that is bound behind what ends a transaction, but is run only after the end was answered,
// returns what it would without the proxy.
func TestBoundBehindTheEnd(t *testing.T) {
	needServer(t)
	sql(t, fill)
	bind := func(statement, portal string) pgproto3.FrontendMessage {
		return &pgproto3.Bind{PreparedStatement: statement, DestinationPortal: portal, Parameters: [][]byte{[]byte("3")}}
	}
	sync, execute := &pgproto3.Sync{}, &pgproto3.Execute{}
	for _, text := range []string{"SELECT v FROM t WHERE id = $1", "UPDATE t SET v = v WHERE id = $1"} {
		for _, x := range []struct {
			name        string
			first, then []pgproto3.FrontendMessage
		}{
			{"behind a Sync", []pgproto3.FrontendMessage{sync, bind("s", "")}, []pgproto3.FrontendMessage{execute, sync}},
			{"described", []pgproto3.FrontendMessage{sync, bind("s", "")},
				[]pgproto3.FrontendMessage{&pgproto3.Describe{ObjectType: 'P'}, execute, sync}},
			{"named", []pgproto3.FrontendMessage{bind("s", "one"), &pgproto3.Execute{Portal: "one"}, sync, bind("s", "two"), bind("s", "one")},
				[]pgproto3.FrontendMessage{&pgproto3.Execute{Portal: "two"}, &pgproto3.Execute{Portal: "one"}, sync}},
			{"one that ends with it", []pgproto3.FrontendMessage{bind("s", "old"), sync, bind("s", "")},
				[]pgproto3.FrontendMessage{execute, &pgproto3.Execute{Portal: "old"}, sync}},
		} {
			prepare := named("s", text)
			plain, p := direct(t, "postgres"), through(t, "postgres", nil)
			plain.do(prepare)
			p.do(prepare)
			run := messages('Z', bind("s", ""), execute, sync)
			for i := 0; i < 3; i++ {
				p.do(run)
				p.settle()
			}
			p.sink.take()
			if p.do(run); len(p.sink.take()) == 0 {
				t.Fatalf("%s isn't seen", text)
			}
			for _, step := range []step{messages('Z', x.first...), messages('Z', x.then...)} {
				if got, want := show(p.do(step)), show(plain.do(step)); got != want {
					t.Errorf("%s, %s: got\n%s\nand not\n%s", text, x.name, got, want)
				}
			}
		}
	}
}

// TestErrorBehindNewerMessages: a part of a pipeline fails when the client has sent the beginning of the next one, which gives
// the same names another meaning. Names have the newer one.
func TestErrorBehindNewerMessages(t *testing.T) {
	needServer(t)
	sql(t, fill)
	const old, text = "SELECT id FROM t WHERE id = 3", "SELECT v FROM t WHERE id = 4"
	sync, execute, portal := &pgproto3.Sync{}, &pgproto3.Execute{}, &pgproto3.Describe{ObjectType: 'P'}
	parse := func(name, text string) pgproto3.FrontendMessage { return &pgproto3.Parse{Name: name, Query: text} }
	bind := func(name string) pgproto3.FrontendMessage { return &pgproto3.Bind{PreparedStatement: name} }
	closed := &pgproto3.Close{ObjectType: 'S', Name: "s"}
	const wrong, zero = "SELEC", "SELECT 1 / (SELECT 0)"
	for _, x := range []struct {
		name        string
		first, then []pgproto3.FrontendMessage
	}{
		{"a text that is wrong", []pgproto3.FrontendMessage{parse("", wrong), sync, parse("", text)},
			[]pgproto3.FrontendMessage{bind(""), portal, execute, sync}},
		{"the name is taken", []pgproto3.FrontendMessage{parse("s", "SELECT 7"), sync, closed, parse("s", text)},
			[]pgproto3.FrontendMessage{bind("s"), portal, execute, sync}},
		{"the name is taken, and stays", []pgproto3.FrontendMessage{parse("s", text), sync, bind("s")},
			[]pgproto3.FrontendMessage{portal, execute, sync}},
		{"a portal's", []pgproto3.FrontendMessage{parse("", zero), bind(""), execute, sync, parse("", text), bind("")},
			[]pgproto3.FrontendMessage{portal, execute, sync}},
		{"a portal's of a named statement", []pgproto3.FrontendMessage{parse("", zero), bind(""), execute, sync, bind("s")},
			[]pgproto3.FrontendMessage{portal, execute, sync}},
		{"what is closed twice", []pgproto3.FrontendMessage{parse("x", wrong), closed, sync, closed, parse("s", text)},
			[]pgproto3.FrontendMessage{bind("s"), portal, execute, sync}},
		{"a Query that is skipped", []pgproto3.FrontendMessage{parse("", zero), bind(""), execute, &pgproto3.Query{String: "SELECT 1"}, sync, parse("", text)},
			[]pgproto3.FrontendMessage{bind(""), portal, execute, sync}},
		{"prepared several times", []pgproto3.FrontendMessage{parse("", wrong), parse("", old), sync, parse("", old), parse("", text)},
			[]pgproto3.FrontendMessage{bind(""), portal, execute, sync}},
	} {
		plain, p := direct(t, "postgres"), through(t, "postgres", nil)
		p.warm(old, text)
		for _, step := range []step{named("s", old), messages('Z', bind("s"), execute, sync), messages('Z', bind("s"), execute, sync)} {
			p.do(step)
			plain.do(step)
			p.settle()
		}
		for _, step := range []step{messages('Z', x.first...), messages('Z', x.then...), messages('Z', bind("s"), portal, execute, sync)} {
			if got, want := show(p.do(step)), show(plain.do(step)); got != want {
				t.Errorf("%s: got\n%s\nand not\n%s", x.name, got, want)
			}
		}
	}
}

// TestTwinOfAPartThatFails: what the proxy prepares in a part of a pipeline that fails is skipped with it. The client's next
// parts, sent in the same write, return what they would without the proxy.
func TestTwinOfAPartThatFails(t *testing.T) {
	needServer(t)
	sql(t, fill)
	const text = "SELECT v FROM t WHERE id = 1"
	bind, execute, sync := &pgproto3.Bind{PreparedStatement: "s"}, &pgproto3.Execute{}, &pgproto3.Sync{}
	fails := []pgproto3.FrontendMessage{&pgproto3.Parse{Query: "SELECT 1 / (SELECT 0)"}, &pgproto3.Bind{}, execute, bind, execute, sync}
	for name, more := range map[string][]pgproto3.FrontendMessage{
		"nothing behind it": {bind, execute, sync},
		"more behind it":    {bind, execute, sync, bind, execute, sync},
	} {
		plain, p := direct(t, "postgres"), through(t, "postgres", nil)
		p.warm(text)
		plain.do(named("s", text))
		p.do(named("s", text))
		all := step{encoded(append(append([]pgproto3.FrontendMessage{}, fails...), more...)...), 'Z', 1 + len(more)/3}
		if got, want := show(p.do(all)), show(plain.do(all)); got != want {
			t.Errorf("%s: got\n%s\nand not\n%s", name, got, want)
		}
		if got, want := show(p.query("SELECT 5")), show(plain.query("SELECT 5")); got != want {
			t.Errorf("%s: then got\n%s\nand not\n%s", name, got, want)
		}
	}
}

// TestFetchFromACursorThatIsGone: PostgreSQL crashes if it has to describe a FETCH from a cursor that is closed by then. So the
// proxy doesn't ask for that, and the client gets what it would without the proxy.
func TestFetchFromACursorThatIsGone(t *testing.T) {
	needServer(t)
	sql(t, fill)
	sql(t, `CREATE OR REPLACE FUNCTION opens() RETURNS refcursor LANGUAGE plpgsql AS $$DECLARE c refcursor := 'opened'; BEGIN
		OPEN c FOR SELECT v FROM t WHERE id < 6 ORDER BY id; RETURN c; END$$`)
	sync := &pgproto3.Sync{}
	two := &pgproto3.Execute{Portal: "p", MaxRows: 2}
	bound := func(text string, more ...pgproto3.FrontendMessage) step {
		return messages('Z', append(append([]pgproto3.FrontendMessage{&pgproto3.Parse{Name: "f", Query: text},
			&pgproto3.Bind{PreparedStatement: "f", DestinationPortal: "p"}}, more...), sync)...)
	}
	declare, drop := query("DECLARE c CURSOR FOR SELECT v FROM t WHERE id < 6 ORDER BY id"), messages('Z', &pgproto3.Close{ObjectType: 'S', Name: "f"}, sync)
	for name, steps := range map[string][]step{
		"before it is run": {query("BEGIN"), declare, bound("FETCH 1 FROM c"), query("CLOSE c"), messages('Z', two, sync), query("ROLLBACK"), drop},
		"while it is run":  {query("BEGIN"), declare, bound("FETCH ALL FROM c", two), query("CLOSE c"), messages('Z', two, sync), query("ROLLBACK"), drop},
		"a function's":     {query("BEGIN"), query("SELECT opens()"), bound("FETCH ALL FROM opened", two), query("CLOSE opened"), messages('Z', two, sync), query("ROLLBACK"), drop},
		"in one write":     {query("BEGIN"), declare, bound("FETCH 2 FROM c", two), messages('Z', two, sync), query("ROLLBACK"), drop},
	} {
		plain, p := direct(t, "postgres"), through(t, "postgres", nil)
		p.warm("BEGIN", "DECLARE c CURSOR FOR SELECT v FROM t WHERE id < 6 ORDER BY id", "FETCH 2 FROM c", "ROLLBACK")
		p.warm("BEGIN", "DECLARE c CURSOR FOR SELECT v, w FROM t WHERE id < 4 ORDER BY id", "FETCH 2 FROM c", "ROLLBACK")
		for again := 0; again < 2; again++ {
			for i, step := range steps {
				if got, want := show(p.do(step)), show(plain.do(step)); got != want {
					t.Errorf("%s, step %d: got\n%s\nand not\n%s", name, i, got, want)
				}
			}
		}
	}
}
