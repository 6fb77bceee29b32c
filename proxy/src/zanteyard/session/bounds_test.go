package session

import (
	"fmt"
	"runtime"
	"strings"
	"testing"
	"time"

	"github.com/jackc/pgproto3/v2"
)

// held returns how many bytes are in use.
func held() uint64 {
	var its runtime.MemStats
	for i := 0; i < 2; i++ { // what has a finalizer takes two
		runtime.GC()
	}
	runtime.ReadMemStats(&its)
	return its.HeapAlloc
}

// floods writes until all is written, or nothing more is taken for a while. Answers aren't read.
func (c *client) floods(one []byte, bytes int) (written int) {
	block := []byte(strings.Repeat(string(one), 1+(1<<16)/len(one)))
	for written < bytes {
		c.conn.SetWriteDeadline(time.Now().Add(2 * time.Second))
		n, err := c.conn.Write(block)
		if written += n; err != nil {
			break
		}
	}
	c.conn.SetWriteDeadline(time.Now().Add(5 * time.Minute))
	return written
}

// together sends many messages at once, and reads the answers.
func (p *proxied) together(times int, its func(i int) []pgproto3.FrontendMessage) {
	p.t.Helper()
	const each = 100
	for i := 0; i < times; i += each {
		var all []pgproto3.FrontendMessage
		for j := i; j < i+each; j++ {
			all = append(all, its(j)...)
		}
		for _, m := range p.do(messages('Z', append(all, &pgproto3.Sync{})...)) {
			if m[0] == 'E' {
				p.t.Fatal(show([][]byte{m}))
			}
		}
	}
}

// TestBounds: whatever a client does, its session holds no more than the table in proxy/README says, and the client
// gets what the server answers. `most` is in KiB.
func TestBounds(t *testing.T) {
	needServer(t)
	sql(t, fill)
	sql(t, `DELETE FROM wide;
		INSERT INTO wide SELECT i || repeat('x', 100000), i FROM generate_series(1, 200) i`)
	long := strings.Repeat("x", 60000)
	for _, x := range []struct {
		name string
		most uint64
		does func(p *proxied)
		ends func(p *proxied)
	}{
		{"answers that are owed", 8 << 10, func(p *proxied) {
			p.send(query("SELECT pg_sleep(1000)").send)
			t.Logf("%d KiB of Syncs were taken", p.floods(encoded(&pgproto3.Sync{}), 64<<20)>>10)
		}, func(p *proxied) {
			sql(t, "SELECT pg_cancel_backend(pid) FROM pg_stat_activity WHERE query LIKE 'SELECT pg_sleep(1000)%'")
			p.until('E')
			for i := 0; i < 50000; i++ {
				p.until('Z')
			}
		}},
		{"statements in one text, and answers that aren't read", 24 << 10, func(p *proxied) {
			p.send(query("SELECT pg_sleep(1000)").send)
			p.floods(query(strings.Repeat("SELECT 1;", 7000)).send, 64<<20)
		}, nil},
		{"prepared statements", 30 << 10, func(p *proxied) {
			p.together(10000, func(i int) []pgproto3.FrontendMessage {
				return []pgproto3.FrontendMessage{&pgproto3.Parse{Name: fmt.Sprint("s", i),
					Query: fmt.Sprintf("SELECT v FROM t WHERE id = %d /* %s */", i%20, long[:4000])}}
			})
		}, func(p *proxied) {
			for _, name := range []string{"s7", "s9987"} {
				if got := show(p.do(bound(name, nil))); !strings.Contains(got, "\\x0270\"") && !strings.Contains(got, "70") {
					t.Errorf("%s: %s", name, got)
				}
			}
		}},
		{"statements made by PREPARE", 20 << 10, func(p *proxied) {
			for i := 0; i < 400; i++ {
				p.query(fmt.Sprintf("PREPARE s%d AS SELECT v FROM t WHERE id = %d /* %s */", i, i%20, long))
			}
		}, func(p *proxied) {
			if got := show(p.query("EXECUTE s387")); !strings.Contains(got, "70") {
				t.Error(got)
			}
		}},
		{"portals", 16 << 10, func(p *proxied) {
			var list []string
			for i := 2; i <= 32; i++ {
				list = append(list, fmt.Sprintf("$%d", i))
			}
			p.do(named("p", "SELECT v FROM t WHERE id = $1 AND w NOT IN ("+strings.Join(list, ",")+")"))
			p.query("BEGIN")
			text := []byte(long[:300])
			p.together(5000, func(i int) []pgproto3.FrontendMessage {
				its := &pgproto3.Bind{DestinationPortal: fmt.Sprint("p", i), PreparedStatement: "p", Parameters: [][]byte{[]byte("7")}}
				for len(its.Parameters) < 32 {
					its.Parameters = append(its.Parameters, text)
				}
				return []pgproto3.FrontendMessage{its}
			})
		}, func(p *proxied) {
			for _, name := range []string{"p7", "p4987"} {
				got := show(p.do(messages('Z', &pgproto3.Describe{ObjectType: 'P', Name: name}, &pgproto3.Execute{Portal: name}, &pgproto3.Sync{})))
				if !strings.Contains(got, "D \"\\x00\\x01\\x00\\x00\\x00\\x0270\"") {
					t.Errorf("%s: %s", name, got)
				}
			}
		}},
		{"portals that fetch from a cursor, with long names", 4 << 10, func(p *proxied) {
			p.do(named("fetch", "FETCH 1 FROM c"))
			p.query("BEGIN")
			p.query("DECLARE c CURSOR FOR SELECT v FROM t WHERE id = 7")
			p.together(20000, func(i int) []pgproto3.FrontendMessage {
				return []pgproto3.FrontendMessage{&pgproto3.Bind{DestinationPortal: fmt.Sprintf("p%d%s", i, long[:3000]), PreparedStatement: "fetch"}}
			})
		}, func(p *proxied) {
			name := "p19987" + long[:3000]
			got := show(p.do(messages('Z', &pgproto3.Describe{ObjectType: 'P', Name: name}, &pgproto3.Execute{Portal: name}, &pgproto3.Sync{})))
			if !strings.Contains(got, "D \"\\x00\\x01\\x00\\x00\\x00\\x0270\"") {
				t.Error(got)
			}
		}},
		{"cursors", 8 << 10, func(p *proxied) {
			p.query("BEGIN")
			for i := 0; i < 300; i++ {
				p.query(fmt.Sprintf("DECLARE c%d CURSOR FOR SELECT v FROM t WHERE id = %d", i, i%20))
			}
		}, func(p *proxied) {
			for _, i := range []int{7, 287} {
				if got := show(p.query(fmt.Sprint("FETCH FROM c", i))); !strings.Contains(got, "D \"\\x00\\x01\\x00\\x00\\x00\\x0270\"") {
					t.Error(got)
				}
			}
		}},
		{"search paths", 2 << 10, func(p *proxied) {
			for i := 0; i < 60; i++ {
				p.query(fmt.Sprintf("SET search_path = public, 'n%d%s'", i, long))
				p.query("SELECT v FROM t WHERE id = 1")
				p.settle()
			}
		}, nil},
		{"long keys", 12 << 10, func(p *proxied) {
			p.query("BEGIN ISOLATION LEVEL REPEATABLE READ")
			p.query("SELECT v FROM wide")
		}, func(p *proxied) {
			p.query("COMMIT")
			its := p.sink.take()
			if last := its[len(its)-1]; len(last.Reads) < 50 || len(last.Reads)+last.Beyond != 200 {
				t.Errorf("%d reads and %d beyond", len(last.Reads), last.Beyond)
			}
		}},
		{"long keys that aren't there", 12 << 10, func(p *proxied) {
			p.query("BEGIN ISOLATION LEVEL REPEATABLE READ")
			for i := 0; i < 250; i++ {
				p.query(fmt.Sprintf("SELECT v FROM wide WHERE name = 'no%d%s'", i, long))
			}
		}, nil},
		{"texts that wait for a trial", 16 << 10, func(p *proxied) {
			p.query("BEGIN")
			p.query("CREATE TABLE brief (a int) ")
			for i := 0; i < 500; i++ {
				p.query(fmt.Sprintf("SELECT v AS a%d FROM t WHERE id = 7 /* %s */", i, long))
			}
		}, func(p *proxied) { p.query("ROLLBACK") }},
		{"a transaction's statements", 4 << 10, func(p *proxied) {
			p.query("BEGIN")
			for i := 0; i < 300; i++ {
				p.query(fmt.Sprintf("SELECT v FROM t WHERE id = %d /* %s */", i%20, long))
			}
		}, nil},
		{"parameters", 6 << 10, func(p *proxied) {
			list := make([]string, 30000)
			values := make([][]byte, len(list))
			for i := range list {
				list[i], values[i] = fmt.Sprintf("($%d)", i+1), []byte(fmt.Sprint(1000+i))
			}
			p.do(named("many", "INSERT INTO t (id) VALUES "+strings.Join(list, ",")+" ON CONFLICT DO NOTHING"))
			p.query("BEGIN")
			for i := 0; i < 5; i++ {
				p.do(messages('Z', &pgproto3.Bind{PreparedStatement: "many", Parameters: values}, &pgproto3.Execute{}, &pgproto3.Sync{}))
			}
		}, func(p *proxied) { p.query("ROLLBACK") }},
		{"a long row", 2 << 10, func(p *proxied) {
			p.query("INSERT INTO big SELECT 1, repeat('x', 10000000)")
			p.query("SELECT body FROM big WHERE id = 1")
		}, func(p *proxied) { p.query("DELETE FROM big") }},
		{"rows that aren't read", 4 << 10, func(p *proxied) {
			p.send(query("SELECT repeat('x', 1000) FROM generate_series(1, 100000)").send)
			time.Sleep(time.Second)
		}, nil},
		{"a long message that is sent", 4 << 10, func(p *proxied) {
			text := encoded(&pgproto3.Query{String: "SELECT length('" + strings.Repeat("y", 32<<20) + "')"})
			if got := show(p.do(step{text, 'Z', 1})); !strings.Contains(got, "33554432") {
				t.Error(got)
			}
		}, nil},
		{"data of a COPY", 2 << 10, func(p *proxied) {
			p.do(step{query("COPY big FROM STDIN").send, 'G', 1})
			line := encoded(&pgproto3.CopyData{Data: []byte("5\t" + long + "\n")})
			p.floods(line, 50<<20)
		}, nil},
	} {
		x := x
		t.Run(x.name, func(t *testing.T) {
			p := through(t, "postgres", func(o *Options) { o.Shared = NewShared() })
			p.warm("SELECT v FROM t WHERE id = 7")
			before := held()
			x.does(p)
			now := held()
			if t.Logf("%d KiB", int64(now-before)>>10); now > before+x.most<<10 {
				t.Errorf("%d KiB are held, more than %d", (now-before)>>10, x.most)
			}
			if x.ends != nil {
				x.ends(p)
			}
			p.session.End()
			select {
			case <-p.ended: // the next one begins without what this one held
			case <-time.After(time.Minute):
				t.Error("the session doesn't end")
			}
		})
	}
}

// TestBoundsOfPlans: plans that were forgotten elsewhere aren't kept for long, neither by a connection nor by what all of
// them share.
func TestBoundsOfPlans(t *testing.T) {
	needServer(t)
	shared := NewShared()
	p := through(t, "postgres", func(o *Options) { o.Shared = shared })
	p.session.state.Lock()
	defer p.session.state.Unlock()
	its := &p.session.trust
	one, _ := definitions_.PlanIn("", "SELECT v FROM t WHERE id = 1")
	for i := 0; i < 3*mostShared; i++ {
		copied := *one
		made := &copied
		u := its.of(made)
		signature := []byte(fmt.Sprintf(`["%d", ""]`, i%300))
		shared.add(signature, 1, u)
		shared.patience.meets(made)
		if len(its.uses) > mostUses || len(shared.young) > mostShared || len(shared.old) > mostShared || len(shared.patience.young) > mostMet {
			t.Fatalf("%d statements: %d plans, %d and %d of all, %d", i, len(its.uses), len(shared.young), len(shared.old),
				len(shared.patience.young))
		}
		if _, is := shared.has(signature, 1, made); !is {
			t.Fatal("it wasn't recorded")
		}
	}
}

// TestServerEndsWhileAnswersAreOwed: a client whose server has ended is told so, though the proxy waits for answers.
func TestServerEndsWhileAnswersAreOwed(t *testing.T) {
	needServer(t)
	p := through(t, "postgres", nil)
	p.send(query("SELECT pg_sleep(1000)").send)
	p.floods(encoded(&pgproto3.Sync{}), 16<<20)
	sql(t, "SELECT pg_terminate_backend(pid) FROM pg_stat_activity WHERE query LIKE 'SELECT pg_sleep(1000)%'")
	select {
	case <-p.ended:
	case <-time.After(time.Minute):
		t.Error("the session hasn't ended")
	}
}
