package session

import (
	"context"
	"encoding/binary"
	"fmt"
	"strings"
	"testing"
	"time"

	"github.com/jackc/pgproto3/v2"

	"zanteyard/definitions"
	"zanteyard/wire"
)

// replacing is what somebody has made who may have a trigger on a table that others write: it replaces what these have
// prepared and bound by themselves. What it puts there replaces the proxy's own statements, whenever it is run.
const replacing = `DROP SCHEMA IF EXISTS m CASCADE; CREATE SCHEMA m;
CREATE FUNCTION m.lies(x text) RETURNS int LANGUAGE plpgsql AS $$DECLARE it record; BEGIN
	FOR it IN SELECT name, statement FROM pg_prepared_statements WHERE name LIKE 'zanteyard%' AND statement LIKE '%zanteyard% FROM t %' LOOP
		EXECUTE 'DEALLOCATE "' || it.name || '"';
		EXECUTE 'PREPARE "' || it.name || '" AS ' || replace(regexp_replace(it.statement, '^PREPARE .* AS SELECT', 'SELECT'), 'id = 1', 'id = 2');
	END LOOP;
	RETURN 1;
END$$;
CREATE FUNCTION m.replaces() RETURNS trigger LANGUAGE plpgsql AS $$BEGIN
	IF EXISTS (SELECT FROM pg_prepared_statements WHERE name = 'mine') THEN
		EXECUTE 'DEALLOCATE mine'; EXECUTE 'PREPARE mine AS SELECT m.lies('''')';
	END IF;
	IF EXISTS (SELECT FROM pg_cursors WHERE name = 'bound') THEN
		EXECUTE 'CLOSE bound';
		EXECUTE 'DECLARE bound CURSOR FOR SELECT v, xmin AS zanteyard, tableoid AS zanteyard, concat(2) AS zanteyard FROM public.t WHERE id > 2';
	END IF;
	RETURN NEW; END$$;
CREATE TABLE m.log (id serial PRIMARY KEY, v int); CREATE TRIGGER r AFTER INSERT ON m.log FOR EACH ROW EXECUTE FUNCTION m.replaces()`

// TestOthersReplaceTheClients: what runs as a part of a client's statement may replace what the client itself has prepared
// or bound, and what the proxy knows as harmless. Nothing else is reported of its statements than what they do.
func TestOthersReplaceTheClients(t *testing.T) {
	needServer(t)
	const log = "INSERT INTO m.log (v) VALUES (1)"
	run := messages('Z', &pgproto3.Bind{PreparedStatement: "s"}, &pgproto3.Execute{}, &pgproto3.Sync{})
	mine := messages('Z', &pgproto3.Bind{PreparedStatement: "mine"}, &pgproto3.Execute{}, &pgproto3.Sync{})
	parse := messages('Z', &pgproto3.Parse{Name: "mine", Query: "SELECT 1"}, &pgproto3.Sync{})
	call := func(p *proxied, length int) step {
		var oid int
		fmt.Sscan(sql(p.t, "SELECT 'm.lies'::regproc::oid")[0][0], &oid)
		m := binary.BigEndian.AppendUint32(wire.Begin(nil, 'F'), uint32(oid))
		m = append(m, 0, 0, 0, 1)
		m = append(binary.BigEndian.AppendUint32(m, uint32(length)), strings.Repeat("x", length)...)
		return step{wire.End(append(m, 0, 0), 0), 'Z', 1}
	}
	for name, x := range map[string]struct{ first, does func(p *proxied) []step }{
		"a statement": {func(*proxied) []step { return []step{parse} }, func(*proxied) []step { return []step{query(log), run, mine} }},
		"a statement, in a block": {func(*proxied) []step { return []step{parse} },
			func(*proxied) []step { return []step{query("BEGIN"), query(log), run, mine} }},
		"a BEGIN": {func(*proxied) []step {
			return []step{messages('Z', &pgproto3.Parse{Name: "mine", Query: "BEGIN"}, &pgproto3.Sync{})}
		},
			func(*proxied) []step {
				return []step{query(log), messages('Z', &pgproto3.Bind{PreparedStatement: "mine"}, &pgproto3.Execute{},
					&pgproto3.Bind{PreparedStatement: "s"}, &pgproto3.Execute{}, &pgproto3.Sync{})}
			}},
		"one of SQL's": {func(*proxied) []step { return []step{query("PREPARE mine AS SELECT 1")} },
			func(*proxied) []step { return []step{query(log), run, query("EXECUTE mine")} }},
		"a portal": {func(*proxied) []step {
			return []step{messages('Z', &pgproto3.Parse{Name: "all", Query: "SELECT v FROM t WHERE id > 2 ORDER BY id"}, &pgproto3.Sync{})}
		}, func(*proxied) []step {
			run := &pgproto3.Execute{Portal: "bound", MaxRows: 2}
			return []step{query("BEGIN"), messages('Z', &pgproto3.Bind{PreparedStatement: "all", DestinationPortal: "bound"}, run, &pgproto3.Sync{}),
				query(log), messages('Z', run, &pgproto3.Sync{}), query("COMMIT")}
		}},
		"a call":      {nil, func(p *proxied) []step { return []step{call(p, 10)} }},
		"a long call": {nil, func(p *proxied) []step { return []step{call(p, 2<<20)} }},
		"a portal that isn't known": {nil, func(*proxied) []step {
			all := []pgproto3.FrontendMessage{&pgproto3.Parse{Name: "lies", Query: "SELECT m.lies('')"}}
			for i := 0; i <= mostPortals; i++ {
				all = append(all, &pgproto3.Bind{PreparedStatement: "lies", DestinationPortal: fmt.Sprint("p", i)})
			}
			return []step{query("BEGIN"), messages('Z', append(all, &pgproto3.Sync{})...),
				messages('Z', &pgproto3.Bind{PreparedStatement: "s"}, &pgproto3.Execute{}, &pgproto3.Sync{}),
				messages('Z', &pgproto3.Execute{Portal: fmt.Sprint("p", mostPortals)}, &pgproto3.Sync{})}
		}},
		"at planning": {func(*proxied) []step {
			return []step{messages('Z', &pgproto3.Parse{Name: "plans", Query: "SELECT v FROM t WHERE id = m.steady()"}, &pgproto3.Sync{})}
		}, func(*proxied) []step {
			return []step{messages('Z', &pgproto3.Bind{PreparedStatement: "plans", DestinationPortal: "x"}, &pgproto3.Bind{PreparedStatement: "s"},
				&pgproto3.Execute{}, &pgproto3.Execute{Portal: "x"}, &pgproto3.Sync{})}
		}},
	} {
		x := x
		t.Run(name, func(t *testing.T) {
			sql(t, fill)
			sql(t, replacing+"; CREATE FUNCTION m.steady() RETURNS int LANGUAGE plpgsql IMMUTABLE AS $$BEGIN RETURN m.lies(''); END$$")
			d, err := definitions.Open(context.Background(), config(), time.Hour, func(string) {})
			if err != nil {
				t.Fatal(err)
			}
			p := through(t, "postgres", func(o *Options) { o.Plans, o.Generation, o.Shared = d, d.Generation, nil })
			p.do(messages('Z', &pgproto3.Parse{Name: "s", Query: "SELECT v FROM t WHERE id = 1"}, &pgproto3.Sync{}))
			if x.first != nil {
				for _, one := range x.first(p) {
					p.do(one)
				}
			}
			p.warm("BEGIN", "SELECT v FROM t WHERE id > 2 ORDER BY id", "COMMIT")
			for i := 0; i < 3; i++ {
				p.do(run)
				p.settle()
			}
			p.sink.take()
			p.do(run)
			want := p.sink.take()
			if len(want) != 1 || len(want[0].Reads) != 1 || want[0].Reads[0].Key != "1" {
				t.Fatalf("not seen before: %+v", want)
			}
			for _, one := range x.does(p) {
				p.do(one)
			}
			for i := 0; i < 2; i++ {
				p.do(run)
			}
			p.query("COMMIT")
			for i := 0; i < 2; i++ { // in other transactions
				p.do(run)
				p.settle()
			}
			for _, it := range p.sink.take() {
				for _, one := range it.Reads {
					if one.Key == "2" {
						t.Errorf("told %+v, which the client never asked for", one)
					}
				}
			}
		})
	}
}

// TestTwinsStay: once something has run that others have made, a client's prepared BEGIN and COMMIT aren't taken for others'
// for ever, so the proxy's statements aren't prepared again each time.
func TestTwinsStay(t *testing.T) {
	needServer(t)
	sql(t, fill)
	p := through(t, "postgres", knowing(t))
	for name, text := range map[string]string{"begin": "BEGIN", "commit": "COMMIT", "s": "SELECT v FROM t WHERE id = 1", "u": "SELECT v FROM u WHERE a = 1"} {
		p.do(messages('Z', &pgproto3.Parse{Name: name, Query: text}, &pgproto3.Sync{}))
	}
	run := func() {
		for _, names := range [][]string{{"begin", "s"}, {"u"}, {"commit"}} {
			var all []pgproto3.FrontendMessage
			for _, name := range names {
				all = append(all, &pgproto3.Bind{PreparedStatement: name}, &pgproto3.Execute{})
			}
			p.do(messages('Z', append(all, &pgproto3.Sync{})...))
		}
		p.settle()
	}
	twins := func() int {
		p.session.state.Lock()
		defer p.session.state.Unlock()
		return p.session.names.twins
	}
	for i := 0; i < 5; i++ {
		run()
	}
	before := twins()
	p.query("SELECT bump(1)")
	for i := 0; i < 10; i++ {
		run()
	}
	if n := twins() - before; before == 0 || n > 4 {
		t.Errorf("%d statements were prepared, and %d more after a function had run", before, n)
	}
}
