package session

import "testing"

// TestOnlyRead: which transactions that are rolled back might as well have been committed.
func TestOnlyRead(t *testing.T) {
	needServer(t)
	sql(t, fill)
	p := through(t, "postgres", nil)
	const read, write = "SELECT v FROM t WHERE id = 1", "UPDATE t SET v = v WHERE id = 1"
	p.warm(read, write, "SELECT bump(1)")
	for _, x := range []struct {
		texts []string
		want  bool
	}{
		{[]string{"BEGIN", read, "ROLLBACK"}, true},
		{[]string{"BEGIN ISOLATION LEVEL REPEATABLE READ", read, "ABORT"}, true},
		{[]string{"BEGIN ISOLATION LEVEL SERIALIZABLE", read, "ROLLBACK"}, false},
		{[]string{"BEGIN", read, write, "ROLLBACK"}, false},
		{[]string{"BEGIN", read, "SELECT bump(1)", "ROLLBACK"}, false},
		{[]string{"BEGIN", read, "SELECT 1 / 0", "ROLLBACK"}, false},
		{[]string{"BEGIN", read, "SAVEPOINT a", "SELECT 1 / 0", "ROLLBACK TO a", read, "ROLLBACK"}, false},
		{[]string{"BEGIN", read, "SELECT 1 / 0", "COMMIT"}, false},
	} {
		for _, text := range x.texts {
			p.query(text)
		}
		p.settle()
		if its := p.sink.take(); len(its) != 1 || its[0].OnlyRead != x.want || len(its[0].Reads) != 1 {
			t.Errorf("%v: %+v", x.texts, its)
		}
	}
}
