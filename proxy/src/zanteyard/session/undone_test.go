package session

import "testing"

// TestAbsentAfterUndoneWrite: a row that a transaction itself has moved away, and that it found absent, isn't told as absent
// once that write is undone.
func TestAbsentAfterUndoneWrite(t *testing.T) {
	needServer(t)
	sql(t, fill)
	p := through(t, "postgres", nil)
	p.warm("BEGIN ISOLATION LEVEL REPEATABLE READ", "UPDATE t SET id = 990 WHERE id = 10", "SELECT v FROM t WHERE id = 10", "ROLLBACK")
	p.sink.take()
	for _, text := range []string{"BEGIN ISOLATION LEVEL REPEATABLE READ", "SELECT v FROM t WHERE id = 995", "SAVEPOINT a",
		"UPDATE t SET id = 990 WHERE id = 10", "SELECT v FROM t WHERE id = 10", "ROLLBACK TO a", "SELECT v FROM t WHERE id = 996", "COMMIT"} {
		p.query(text)
	}
	its := p.sink.take()
	if len(its) != 1 || len(its[0].Absent) != 3 {
		t.Fatalf("told: %+v", its)
	}
	for i, want := range []bool{false, true, false} {
		if its[0].Absent[i].Undone != want {
			t.Errorf("absent row %d: undone %v", i, !want)
		}
	}
}
