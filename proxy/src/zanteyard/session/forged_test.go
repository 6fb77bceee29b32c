package session

import (
	"testing"
	"time"

	"github.com/jackc/pgproto3/v2"

	"zanteyard/record"
)

// TestDescribeBegins: the server begins a transaction at a Describe, and may take its snapshot there.
func TestDescribeBegins(t *testing.T) {
	needServer(t)
	sql(t, fill)
	p := through(t, "postgres", nil)
	p.warm("SELECT v FROM t WHERE id = 1")
	p.do(messages('Z', &pgproto3.Parse{Name: "s", Query: "SELECT v FROM t WHERE id = 1"}, &pgproto3.Sync{}))
	p.settle()
	p.sink.take()
	p.do(messages('T', &pgproto3.Describe{ObjectType: 'S', Name: "s"}, &pgproto3.Flush{}))
	at := time.Now()
	p.do(messages('Z', &pgproto3.Bind{PreparedStatement: "s"}, &pgproto3.Execute{}, &pgproto3.Sync{}))
	if its := p.sink.take(); len(its) != 1 || its[0].Began.After(at) {
		t.Errorf("told: %+v, described before %v", its, at)
	}
}

// TestForgedNames: a client that uses the names of the proxy's own statements could have anything reported, also another
// connection's transaction as its own. Nothing more of it is.
func TestForgedNames(t *testing.T) {
	needServer(t)
	lie := func(name string) pgproto3.FrontendMessage {
		return &pgproto3.Parse{Name: name, Query: "SELECT '77'::xid8, pg_current_snapshot(), 'serializable'"}
	}
	closed := func(name string) pgproto3.FrontendMessage { return &pgproto3.Close{ObjectType: 'S', Name: name} }
	for _, one := range []struct {
		name string
		does []step
	}{
		{"Close and Parse", []step{messages('Z', closed(askName), lie(askName), &pgproto3.Sync{})}},
		{"Parse of a twin", []step{messages('Z', lie(twinName(7)), &pgproto3.Sync{})}},
		{"Close of a twin", []step{messages('Z', closed(twinName(1)), &pgproto3.Sync{})}},
		{"a portal", []step{messages('Z', &pgproto3.Parse{Query: "SELECT 1"}, &pgproto3.Bind{DestinationPortal: askName}, &pgproto3.Sync{})}},
		{"DEALLOCATE and PREPARE", []step{query(`DEALLOCATE "zanteyard.ask"`),
			query(`PREPARE "zanteyard.ask" AS SELECT '77'::xid8, pg_current_snapshot(), 'serializable'`)}},
		{"PREPARE of a twin", []step{query(`PREPARE "zanteyard_1" AS SELECT '77'::xid8, 1, 1, v FROM t`)}},
		{"among several", []step{query(`SELECT 1; DEALLOCATE U&"zanteyard\002Eask"`)}},
		{"a cursor", []step{query(`BEGIN; DECLARE "zanteyard.ask" CURSOR FOR SELECT 1; COMMIT`)}},
	} {
		t.Run(one.name, func(t *testing.T) {
			sql(t, fill)
			p := through(t, "postgres", nil)
			p.warm("BEGIN", "UPDATE t SET v = v + 1 WHERE id > 3", "COMMIT", "SELECT v FROM t WHERE id = 1")
			for _, step := range one.does {
				p.do(step)
			}
			p.settle()
			p.sink.take()
			p.sink.forget()
			for _, text := range []string{"BEGIN", "UPDATE t SET v = v + 1 WHERE id > 3", "COMMIT", "SELECT v FROM t WHERE id = 1"} {
				p.query(text)
			}
			for _, it := range p.sink.take() {
				if it.Number != 0 || len(it.Reads) > 0 {
					t.Errorf("told: %+v", it)
				}
			}
			if !p.sink.left("begin with zanteyard") {
				t.Errorf("that it isn't seen isn't told: %q", p.sink.unseen)
			}
		})
	}
}

// TestFunctionForges: what a function prepares by the name of a twin isn't run in its place.
func TestFunctionForges(t *testing.T) {
	needServer(t)
	sql(t, fill)
	p := through(t, "postgres", nil)
	p.warm("SELECT v FROM t WHERE id = 1")
	p.do(messages('Z', &pgproto3.Parse{Name: "s", Query: "SELECT v FROM t WHERE id = 1"}, &pgproto3.Sync{}))
	p.settle()
	run := messages('Z', &pgproto3.Bind{PreparedStatement: "s"}, &pgproto3.Execute{}, &pgproto3.Sync{})
	seen := func() record.Transaction {
		t.Helper()
		p.sink.take()
		p.do(run)
		its := p.sink.take()
		if len(its) != 1 {
			t.Fatalf("told: %+v", its)
		}
		return its[0]
	}
	before := seen()
	if len(before.Reads) != 1 {
		t.Fatalf("not seen before: %+v", before)
	}
	p.session.state.Lock()
	twin := p.session.names.statements["s"].twin
	p.session.state.Unlock()
	p.query(`DO $$DECLARE it text; BEGIN
		SELECT statement INTO it FROM pg_prepared_statements WHERE name = '` + twin + `';
		EXECUTE 'DEALLOCATE "` + twin + `"';
		EXECUTE 'PREPARE "` + twin + `" AS ' || replace(it, 'id = 1', 'id = 2');
	END$$`)
	p.settle()
	if after := seen(); len(after.Reads) > 0 && after.Reads[0] != before.Reads[0] {
		t.Errorf("told %+v, and before %+v", after, before)
	}
}
