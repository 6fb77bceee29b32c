package session

import (
	"strings"
	"testing"

	"github.com/jackc/pgproto3/v2"
)

// TestNamesInErrors: an error that names a statement has the application's own name, alone and in a block.
func TestNamesInErrors(t *testing.T) {
	needServer(t)
	sql(t, fill)
	p, one := through(t, "postgres", nil), direct(t, "postgres")
	const text = "SELECT v FROM t WHERE id = $1 AND v <> $2"
	for _, s := range []step{named("mine", text), query("PREPARE its (int, int) AS " + text)} {
		p.do(s)
		one.do(s)
	}
	for i := 0; i < 3; i++ { // so that both have a twin
		p.settle()
		p.do(bound("mine", nil, "1", "2"))
		p.query("EXECUTE its (1, 2)")
	}
	p.session.state.Lock()
	twins := p.session.names.twins
	p.session.state.Unlock()
	if twins < 2 {
		t.Fatalf("%d twins were made", twins)
	}
	for _, s := range []step{bound("mine", nil, "1"), bound("mine", nil, "1", "2", "3"), query("EXECUTE its (1)"), query("EXECUTE its (1, 2, 3)"),
		query("BEGIN"), bound("mine", nil, "1"), query("ROLLBACK"), query("BEGIN"), query("EXECUTE its (1)"), query("ROLLBACK"),
		bound("mine", nil, "x", "2"), messages('Z', &pgproto3.Bind{PreparedStatement: "none"}, &pgproto3.Sync{}), query("EXECUTE none")} {
		got, wanted := p.do(s), one.do(s)
		mask(got)
		mask(wanted)
		if !same(got, wanted) {
			t.Errorf("got\n%swanted\n%s", show(got), show(wanted))
		}
		p.settle()
	}
}

// TestNamesOfStatementsThatAreCut: to the server two names of statements are one if their first 63 bytes are.
func TestNamesOfStatementsThatAreCut(t *testing.T) {
	needServer(t)
	sql(t, fill)
	first := strings.Repeat("n", 63)
	one, other := first+"one", first+"other"
	shut := func(name string) step {
		return messages('Z', &pgproto3.Close{ObjectType: 'S', Name: name}, &pgproto3.Sync{})
	}
	steps := []step{
		named(one, "SELECT id FROM t WHERE v = 20"), bound(one, nil), bound(other, nil), bound(first, nil),
		shut(other), bound(one, nil), named(other, "SELECT v, id FROM t WHERE id = 3"), bound(one, nil), bound(other, nil), bound(one, nil),
		messages('Z', &pgproto3.Describe{ObjectType: 'S', Name: one}, &pgproto3.Sync{}), shut(first), bound(one, nil),
	}
	plain, p := direct(t, "postgres"), through(t, "postgres", nil)
	p.warm("SELECT id FROM t WHERE v = 20", "SELECT v, id FROM t WHERE id = 3")
	for round := 0; round < 2; round++ {
		for i, its := range steps {
			want, got := plain.do(its), p.do(its)
			if !same(got, want) {
				t.Errorf("round %d, step %d: got\n%sand not\n%s", round, i, show(got), show(want))
			}
			p.settle()
		}
	}
}
