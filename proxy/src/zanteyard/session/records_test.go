package session

import (
	"context"
	"reflect"
	"strconv"
	"strings"
	"sync/atomic"
	"testing"
	"time"

	"github.com/jackc/pgconn"
	"github.com/jackc/pgproto3/v2"

	"zanteyard/record"
)

// warm runs statements until they are tried, and discards what was reported.
func (p *proxied) warm(texts ...string) {
	p.t.Helper()
	for i := 0; i < 2; i++ {
		for _, text := range texts {
			p.query(text)
		}
		p.settle()
	}
	p.sink.take()
}

func keysOf(reads []record.Read) []string {
	var all []string
	for _, r := range reads {
		all = append(all, string(r.Key))
	}
	return all
}

// TestApplicationName: each transaction has the name that its connection had at its end, as far as the server had
// reported it by then: also one that was set later.
func TestApplicationName(t *testing.T) {
	sql(t, fill)
	p := through(t, "postgres", nil)
	const asks = "SELECT v FROM t WHERE id = 1"
	for _, x := range []struct {
		texts  []string
		wanted string
	}{
		{[]string{asks}, "test"},
		{[]string{"SET application_name = 'orders'", asks}, "orders"},
		{[]string{"BEGIN", "SET LOCAL application_name = 'billing'", asks, "ROLLBACK"}, "billing"},
		{[]string{asks}, "orders"},
		{[]string{"BEGIN", "SET application_name = 'stock'", asks, "COMMIT"}, "stock"},
		{[]string{"RESET application_name", asks}, "test"},
	} {
		for _, text := range x.texts {
			p.query(text)
		}
		p.settle()
		got := p.sink.take()
		if len(got) != 1 || got[0].Application != x.wanted {
			t.Errorf("%q: %+v, wanted %q", x.texts, got, x.wanted)
		}
	}
}

// TestRecords runs transactions whose statements were tried, and compares what is reported of them.
func TestRecords(t *testing.T) {
	needServer(t)
	type want struct {
		reads    []string
		wrote    bool // it has a number
		may      bool
		level    record.Level
		outcome  record.Outcome
		versions int
		absent   []string
		snapshot bool
	}
	rc, rr, ser := record.ReadCommitted, record.RepeatableRead, record.Serializable
	for _, x := range []struct {
		name  string
		texts []string
		wants []want
	}{
		{"one select", []string{"SELECT v FROM t WHERE id = 1"}, []want{{reads: []string{"1"}, level: rc}}},
		{"each read once", []string{"BEGIN", "SELECT v FROM t WHERE id = 1", "SELECT v FROM t WHERE id < 3 ORDER BY id",
			"COMMIT"},
			[]want{{reads: []string{"1", "2"}, level: rc}}},
		{"an update tells its number", []string{"UPDATE t SET v = 1 WHERE id = 1"}, []want{{wrote: true, level: rc,
			versions: 1}}},
		{"an update that is asked at COMMIT", []string{"BEGIN", "UPDATE t SET v = 1 WHERE v > 20", "COMMIT"},
			[]want{{wrote: true, level: rc}}},
		{"an update of many rows by itself", []string{"UPDATE t SET v = 1 WHERE v > 20"}, []want{{may: true}}},
		{"a function that writes", []string{"BEGIN ISOLATION LEVEL REPEATABLE READ", "SELECT bump(2)", "COMMIT"},
			[]want{{wrote: true, level: rr}}},
		{"a function that wrote nothing", []string{"BEGIN", "SELECT bump(2000)", "SELECT v FROM t WHERE id = 1", "COMMIT"},
			[]want{{reads: []string{"1"}, level: rc}}},
		{"an abort", []string{"BEGIN", "SELECT v FROM t WHERE id = 1", "UPDATE t SET v = 1 WHERE id = 1", "ROLLBACK"},
			[]want{{reads: []string{"1"}, wrote: true, level: rc, outcome: record.Aborted, versions: 1}}},
		{"an error", []string{"BEGIN", "SELECT v FROM t WHERE id = 1", "SELECT 1 / 0", "COMMIT"},
			[]want{{reads: []string{"1"}, level: rc, outcome: record.Aborted}}},
		{"savepoints", []string{"BEGIN", "UPDATE t SET v = 1 WHERE id = 1", "SAVEPOINT a",
			"UPDATE t SET v = 2 WHERE id = 1", "SELECT v FROM t WHERE id = 1", "COMMIT"},
			[]want{{reads: []string{"1"}, wrote: true, level: rc, versions: 2}}},
		{"a row that isn't there", []string{"BEGIN ISOLATION LEVEL SERIALIZABLE", "SELECT v FROM t WHERE id = 1000",
			"SELECT v FROM u WHERE a = 1 AND b = 'none'", "COMMIT"},
			[]want{{level: ser, absent: []string{"1000", "1\x00none"}, snapshot: true}}},
		{"a row that isn't there, at read committed", []string{"BEGIN", "SELECT v FROM t WHERE id = 1000", "COMMIT"},
			[]want{{level: rc}}},
		{"a row that isn't there, by a condition", []string{"SELECT v FROM t WHERE v = -1"}, []want{{level: rc}}},
		{"an aggregate", []string{"SELECT count(*) FROM t WHERE id < 4"}, []want{{reads: []string{"1", "2", "3"}, level: rc}}},
		{"an aggregate of no row", []string{"SELECT sum(v) FROM t WHERE v < 0"}, []want{{level: rc}}},
		{"a subquery", []string{"SELECT 1 WHERE EXISTS (SELECT FROM t)"}, []want{{}}},
		{"an update of no row", []string{"UPDATE t SET v = 1 WHERE id = 1000"}, []want{{level: rc}}},
		{"an error alone", []string{"SELECT 1 / (v - v) FROM t"}, []want{{level: rc, outcome: record.Aborted}}},
		{"chains", []string{"BEGIN", "UPDATE t SET v = 1 WHERE id = 1", "COMMIT AND CHAIN", "SELECT v FROM t WHERE id = 2",
			"ROLLBACK"},
			[]want{{wrote: true, level: rc, versions: 1}, {reads: []string{"2"}, level: rc, outcome: record.Aborted}}},
		{"several statements", []string{"BEGIN; SELECT v FROM t WHERE id = 1; COMMIT; UPDATE t SET v = 1 WHERE id = 1"},
			[]want{{reads: []string{"1"}, level: rc}, {wrote: true, level: rc, versions: 1}}},
		{"several statements with a cursor",
			[]string{"BEGIN; DECLARE c CURSOR FOR SELECT v, w FROM t ORDER BY id; FETCH 2 FROM c",
				"FETCH 1 FROM c; SELECT v FROM t WHERE id = 9; COMMIT"}, []want{{reads: []string{"1", "2", "3", "9"}, level: rc}}},
		{"EXECUTE", []string{"PREPARE p AS SELECT v FROM t WHERE id = 7", "SELECT v FROM t WHERE id = 1", "EXECUTE p",
			"DEALLOCATE p"}, []want{{reads: []string{"1"}, level: rc}, {reads: []string{"7"}, level: rc}}},
		{"a level that is set", []string{"BEGIN", "SET TRANSACTION ISOLATION LEVEL SERIALIZABLE",
			"SELECT v FROM t WHERE id = 2", "COMMIT"}, []want{{reads: []string{"2"}, level: ser}}},
		{"an outer join",
			[]string{"SELECT t.v, u.v FROM t LEFT JOIN u ON t.id = u.a AND u.b = 'b1' WHERE t.id < 3 ORDER BY t.id"},
			[]want{{reads: []string{"1", "1\x00b1", "2"}, level: rc}}},
		{"a cursor", []string{"BEGIN", "DECLARE c CURSOR FOR SELECT v, w FROM t ORDER BY id", "FETCH 2 FROM c",
			"MOVE 1 FROM c", "FETCH 1 FROM c", "COMMIT"},
			[]want{{reads: []string{"1", "2", "4"}, level: rc}}},
		{"a transaction to be prepared", []string{"BEGIN", "UPDATE t SET v = 1 WHERE v = 10", "PREPARE TRANSACTION 'p'",
			"ROLLBACK PREPARED 'p'"},
			[]want{{wrote: true, level: rc, outcome: record.Unclear}}},
		{"DELETE", []string{"DELETE FROM t WHERE id = 20"}, []want{{reads: []string{"20"}, wrote: true, level: rc}}},
		{"COPY", []string{"BEGIN", "COPY (SELECT 1) TO STDOUT", "COMMIT"}, []want{{level: rc}}},
		{"nothing of a table", []string{"SELECT 1", "BEGIN", "COMMIT", "SET application_name TO 'x'"}, nil},
	} {
		x := x
		t.Run(x.name, func(t *testing.T) {
			sql(t, fill)
			p := through(t, "postgres", func(o *Options) { o.Shared = nil })
			p.warm(x.texts...)
			sql(t, fill)
			p.session.state.Lock()
			place := p.session.place
			p.session.state.Unlock()
			for _, text := range x.texts {
				p.query(text)
			}
			p.settle()
			got := p.sink.take()
			if len(got) != len(x.wants) {
				t.Fatalf("%d transactions were told: %+v", len(got), got)
			}
			for i, w := range x.wants {
				g := got[i]
				is := want{keysOf(g.Reads), g.Number != 0, g.MayHaveWritten, g.Level, g.Outcome, len(g.Versions), nil,
					g.Snapshot != ""}
				for _, a := range g.Absent {
					is.absent = append(is.absent, string(a.Key))
				}
				if !reflect.DeepEqual(is, w) {
					t.Errorf("transaction %d is told as\n%+v, not as\n%+v\nleft out: %q", i, is, w, p.sink.unseen)
				}
				if g.Place != place+uint64(i) || g.Connection != p.session.number {
					t.Errorf("transaction %d is told at place %d", i, g.Place)
				}
			}
		})
	}
}

// TestVersions compares the reported versions with what the server says.
func TestVersions(t *testing.T) {
	needServer(t)
	sql(t, fill)
	p := through(t, "postgres", nil)
	texts := []string{"SELECT v FROM t WHERE id = 3", "UPDATE t SET v = v + 1 WHERE id = 3",
		"SELECT v FROM part WHERE id = 120"}
	p.warm(texts...)
	for i := 0; i < 3; i++ {
		before := sql(t,
			"SELECT xmin, 't'::regclass::oid FROM t WHERE id = 3; "+
				"SELECT xmin, 'part_high'::regclass::oid FROM part WHERE id = 120")
		for _, text := range texts {
			p.query(text)
		}
		after := sql(t, "SELECT xmin FROM t WHERE id = 3")[0][0]
		got := p.sink.take()
		if len(got) != 3 {
			t.Fatalf("%d transactions were told", len(got))
		}
		for n, at := range []int{0, 2} {
			r := got[at].Reads[0]
			if is := []string{strconv.Itoa(int(r.Version)), strconv.Itoa(int(r.Relation))}; !reflect.DeepEqual(is, before[n]) {
				t.Errorf("read %v, told as %v", before[n], is)
			}
		}
		if is := strconv.Itoa(int(got[1].Versions[0])); is != after || strconv.Itoa(int(uint32(got[1].Number))) != after {
			t.Errorf("written by %s, told as %s", after, is)
		}
	}
}

// TestReadLimit: reads beyond the limit are dropped, and that is reported.
func TestReadLimit(t *testing.T) {
	needServer(t)
	sql(t, fill)
	p := through(t, "postgres", func(o *Options) { o.ReadLimit = 18 })
	p.warm("SELECT v, w FROM t")
	p.query("SELECT v, w FROM t")
	got := p.sink.take()
	if len(got) != 1 || len(got[0].Reads) != 18 || got[0].Beyond == 0 {
		t.Errorf("told: %+v", got)
	}
}

// TestPolicy: texts and parameters are kept as the policy allows.
func TestPolicy(t *testing.T) {
	needServer(t)
	for _, x := range []struct {
		policy Policy
		text   bool
		values []string
	}{
		{Policy{true, true, false}, true, []string{"3"}},
		{Policy{true, false, false}, true, nil},
		{Policy{false, true, false}, false, nil},
	} {
		sql(t, fill)
		p := through(t, "postgres", func(o *Options) { o.Policy = x.policy })
		select_ := extended("SELECT v FROM t WHERE id = $1", nil, "3")
		p.do(select_)
		p.settle()
		p.sink.take()
		p.do(select_)
		got := p.sink.take()
		if len(got) != 1 {
			t.Fatalf("%d transactions were told", len(got))
		}
		st := got[0].Statements
		if !x.text && len(st) != 0 || x.text && (len(st) != 1 || st[0].Text != "SELECT v FROM t WHERE id = $1" ||
			!reflect.DeepEqual(st[0].Parameters, x.values)) {
			t.Errorf("%+v: told %+v", x.policy, st)
		}
	}
}

// TestUnclear: the connection is lost while COMMIT is on its way.
func TestUnclear(t *testing.T) {
	needServer(t)
	sql(t, fill)
	p := through(t, "postgres", nil)
	p.warm("BEGIN", "UPDATE t SET v = 1 WHERE id = 1", "COMMIT")
	p.query("BEGIN")
	p.query("UPDATE t SET v = 1 WHERE id = 1")
	p.session.state.Lock() // the server's answer isn't looked at yet
	p.session.queue.push(expectation{message: 'Q', on: opaque})
	p.session.state.Unlock()
	p.conn.Close()
	if err := <-p.ended; err != nil {
		t.Log(err)
	}
	got := p.sink.take()
	if len(got) != 1 || got[0].Outcome != record.Unclear || got[0].Number == 0 {
		t.Errorf("told: %+v", got)
	}
	p = through(t, "postgres", nil)
	p.warm("BEGIN", "UPDATE t SET v = 1 WHERE id = 1", "COMMIT")
	p.query("BEGIN")
	p.query("UPDATE t SET v = 1 WHERE id = 1")
	p.send(encoded(&pgproto3.Terminate{}))
	<-p.ended
	if got := p.sink.take(); len(got) != 1 || got[0].Outcome != record.Aborted {
		t.Errorf("told: %+v", got)
	}
}

// TestBegan: a transaction that is sent before the previous one is answered began long before that answer, which takes
// two seconds, and no earlier than the first of them was sent.
func TestBegan(t *testing.T) {
	needServer(t)
	sql(t, fill)
	p := through(t, "postgres", nil)
	p.warm("SELECT v FROM t WHERE id = 1", "UPDATE t SET v = 1 WHERE id = 1")
	for _, x := range []struct {
		name  string
		send  []byte
		times int
	}{
		{"three queries at once", append(append(query("SELECT v, pg_sleep(2) FROM t WHERE id = 1").send,
			query("UPDATE t SET v = 1 WHERE id = 1").send...), query("SELECT v FROM t WHERE id = 1").send...), 3},
		{"three transactions in one", query("BEGIN; UPDATE t SET v = 1 WHERE id = 1; SELECT pg_sleep(2); COMMIT; " +
			"UPDATE t SET v = 1 WHERE id = 1; BEGIN; UPDATE t SET v = 1 WHERE id = 1; COMMIT").send, 1},
	} {
		before := time.Now()
		p.send(x.send)
		p.until('Z')
		answered := time.Now()
		for i := 1; i < x.times; i++ {
			p.until('Z')
		}
		its := p.sink.take()
		if len(its) < 2 {
			t.Errorf("%s: %d transactions were told", x.name, len(its))
		}
		for i, it := range its {
			if it.Began.Before(before) || it.Began.After(answered.Add(-500*time.Millisecond)) {
				t.Errorf("%s: number %d began %v after they were sent", x.name, i, it.Began.Sub(before))
			}
		}
	}
}

// TestBorrowedSnapshot: a transaction that reads from a snapshot exported by another one may miss what its own
// connection committed before. None of its reads are reported; its writes are.
func TestBorrowedSnapshot(t *testing.T) {
	needServer(t)
	sql(t, fill)
	p := through(t, "postgres", nil)
	p.warm("SELECT v FROM t WHERE id = 3", "UPDATE t SET v = 5 WHERE id = 3", "UPDATE t SET v = 6 WHERE id = 4")
	ctx := context.Background()
	other, err := pgconn.ConnectConfig(ctx, config())
	if err != nil {
		t.Fatal(err)
	}
	defer other.Close(ctx)
	its, err := other.Exec(ctx, "BEGIN ISOLATION LEVEL REPEATABLE READ; SELECT pg_export_snapshot()").ReadAll()
	if err != nil {
		t.Fatal(err)
	}
	name := string(its[1].Rows[0][0])
	p.query("UPDATE t SET v = 5 WHERE id = 3")
	p.sink.take()
	p.query("BEGIN ISOLATION LEVEL REPEATABLE READ")
	p.query("SET TRANSACTION SNAPSHOT '" + name + "'")
	p.query("SELECT v FROM t WHERE id = 3")
	p.query("UPDATE t SET v = 6 WHERE id = 4")
	p.query("COMMIT")
	p.settle()
	got := p.sink.take()
	if len(got) != 1 || len(got[0].Reads) != 0 || got[0].Number == 0 {
		t.Errorf("told: %+v", got)
	}
	found := false
	for _, text := range p.sink.unseen {
		found = found || strings.Contains(text, borrowed)
	}
	if !found {
		t.Errorf("that it was left out isn't told: %q", p.sink.unseen)
	}
}

// TestPreparedBefore: a statement that was prepared while there was no audit is seen once there is one.
func TestPreparedBefore(t *testing.T) {
	needServer(t)
	sql(t, fill)
	var audits atomic.Bool
	p := through(t, "postgres", func(o *Options) { o.Auditing = audits.Load })
	sync := &pgproto3.Sync{}
	p.send(encoded(&pgproto3.Parse{Name: "mine", Query: "SELECT v FROM t WHERE id = $1", ParameterOIDs: []uint32{23}}, sync))
	p.until('Z')
	run := func() int {
		p.send(encoded(&pgproto3.Bind{PreparedStatement: "mine", Parameters: [][]byte{[]byte("3")}}, &pgproto3.Execute{}, sync))
		p.until('Z')
		p.settle()
		n := 0
		for _, it := range p.sink.take() {
			n += len(it.Reads)
		}
		return n
	}
	if n := run(); n != 0 {
		t.Errorf("%d reads were told while there was no audit", n)
	}
	audits.Store(true)
	run() // it is tried
	if n := run(); n != 1 {
		t.Errorf("%d reads were told", n)
	}
}
