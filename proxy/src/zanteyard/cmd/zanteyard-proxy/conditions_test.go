package main

import (
	"context"
	"encoding/json"
	"fmt"
	"strings"
	"testing"
	"time"

	"github.com/jackc/pgconn"
)

// hearing takes what a program's audit offers, and its counts of conditions.
type hearing struct {
	p    *program
	g    *graph
	said coverageOfConditions
	line string
}

type coverageOfConditions struct {
	At         float64 // seconds since 1970
	Pending    int
	Conditions struct {
		Seen, Followed uint64
		PassedOver     uint64            `json:"passed_over"`
		LeftOut        map[string]uint64 `json:"left_out"`
		Dropped        uint64
	}
}

// next handles a line, and returns its event's name.
func (h *hearing) next(end <-chan time.Time) string {
	h.p.t.Helper()
	var line string
	select {
	case line = <-h.p.lines:
	case <-end:
		h.p.t.Fatal("the feed says nothing more")
	}
	h.g.take(line)
	var it struct{ Event string }
	switch json.Unmarshal([]byte(line), &it); {
	case it.Event == "coverage":
		h.said, h.line = coverageOfConditions{}, line
		if err := json.Unmarshal([]byte(line), &h.said); err != nil {
			h.p.t.Fatal(err)
		}
	case it.Event == "ended" || line == "":
		h.p.t.Fatalf("the feed ended: %s", line)
	}
	return it.Event
}

// until hears until something holds of the counts.
func (h *hearing) until(holds func() bool) {
	h.p.t.Helper()
	for end := time.After(5 * time.Minute); !holds(); {
		for h.next(end) != "coverage" {
		}
	}
}

// stop lets the audit end.
func (h *hearing) stop() {
	h.p.t.Helper()
	fmt.Fprintln(h.p.say, `{"command":"stop"}`)
	for end := time.After(5 * time.Minute); h.next(end) != "stopped"; {
	}
}

// warm has a connection ask until its question is followed.
func (h *hearing) warm(conn *pgconn.PgConn, ask string) {
	h.p.t.Helper()
	before := h.said.Conditions.Followed
	h.until(func() bool {
		sql(h.p.t, conn, ask)
		return h.said.Conditions.Followed > before
	})
	h.settle()
}

// settle hears until everything is offered that was reported. What is resolved is written a little later.
func (h *hearing) settle() {
	h.p.t.Helper()
	h.until(func() bool { return h.said.Pending == 0 })
	for end, n := time.After(5*time.Minute), 0; n < 2; {
		if h.next(end) == "coverage" {
			n++
		}
	}
}

// TestWriteSkewOverACondition: each of two doctors asks who is off duty, gets nobody, and goes off duty. No row that one
// has read was written by the other: only what their condition passed over shows that neither can have come first.
func TestWriteSkewOverACondition(t *testing.T) {
	c := start(t)
	direct, err := pgconn.Connect(context.Background(), sourceOf(c, "postgres"))
	if err != nil {
		t.Fatal(err)
	}
	defer direct.Close(context.Background())
	sql(t, direct, "CREATE TABLE doctor (id int PRIMARY KEY, on_call boolean NOT NULL)")
	const ask, leave = "SELECT id FROM doctor WHERE NOT on_call", "UPDATE doctor SET on_call = false WHERE id = "
	for _, x := range []struct {
		level              string
		followed, violated bool
	}{
		{"REPEATABLE READ", true, true}, {"READ COMMITTED", true, true}, {"SERIALIZABLE", true, false},
		{"REPEATABLE READ", false, false},
	} {
		t.Run(fmt.Sprint(x.level, " ", x.followed), func(t *testing.T) {
			sql(t, direct, "DELETE FROM doctor; INSERT INTO doctor VALUES (1, true), (2, true)")
			more := []string{"--between", "10h"} // a meeting would fold what runs across it
			if !x.followed {
				more = append(more, "--conditions=false")
			}
			p := begin(t, c, more...)
			p.until(`["open"`)
			h := &hearing{p: p, g: newGraph()}
			both := []*pgconn.PgConn{p.connect(), p.connect()}
			for _, conn := range both {
				sql(t, conn, leave+"0") // no row: it is tried afterwards
				if sql(t, conn, ask); x.followed {
					h.warm(conn, ask)
				}
				sql(t, conn, leave+"0")
			}
			if x.followed { // so that the log has what the rows are
				sql(t, both[0], "UPDATE doctor SET on_call = true")
				h.settle()
			}
			for _, conn := range both {
				sql(t, conn, "BEGIN ISOLATION LEVEL "+x.level)
			}
			for _, conn := range both {
				if got := sql(t, conn, ask); got != "" {
					t.Fatalf("%s is off duty", got)
				}
			}
			failed := 0
			for i, conn := range both {
				if _, err := conn.Exec(context.Background(), leave+fmt.Sprint(i+1)).ReadAll(); err != nil {
					failed++
				}
			}
			for _, conn := range both {
				if results, err := conn.Exec(context.Background(), "COMMIT").ReadAll(); err != nil {
					failed++
				} else if string(results[0].CommandTag) != "COMMIT" {
					failed++
				}
			}
			if (failed > 0) != (x.level == "SERIALIZABLE") {
				t.Errorf("%d statements failed", failed)
			}
			h.stop()
			cycle, wrong := h.g.violation(false)
			if (cycle != "") != x.violated || len(wrong) > 0 {
				t.Errorf("violated: %v; %v\n%s\n%s", cycle != "", wrong, cycle, h.line)
			}
			if !x.followed && !strings.Contains(h.line, `"seen":0`) {
				t.Errorf("conditions were looked at: %s", h.line)
			}
		})
	}
}

// TestSkewOverASum: each of two clients asks for a sum over an account's rows, and adds a row to it. Neither has read what
// the other wrote, and there was no row to read: each passed over the other's.
func TestSkewOverASum(t *testing.T) {
	c := start(t)
	direct, err := pgconn.Connect(context.Background(), sourceOf(c, "postgres"))
	if err != nil {
		t.Fatal(err)
	}
	defer direct.Close(context.Background())
	sql(t, direct, "CREATE TABLE spent (id int PRIMARY KEY, account int, amount int); INSERT INTO spent VALUES (1, 7, 10), (2, 8, 10)")
	const ask = "SELECT sum(amount) FROM spent WHERE account = 7"
	p := begin(t, c, "--between", "10h")
	p.until(`["open"`)
	h := &hearing{p: p, g: newGraph()}
	both := []*pgconn.PgConn{p.connect(), p.connect()}
	for i, conn := range both {
		sql(t, conn, fmt.Sprintf("INSERT INTO spent VALUES (%d, 9, 1)", 10+i))
		h.warm(conn, ask)
	}
	for _, conn := range both {
		sql(t, conn, "BEGIN ISOLATION LEVEL REPEATABLE READ")
		if got := sql(t, conn, ask); got != "10" {
			t.Fatalf("%s is spent", got)
		}
	}
	for i, conn := range both {
		sql(t, conn, fmt.Sprintf("INSERT INTO spent VALUES (%d, 7, 5)", 20+i))
	}
	for _, conn := range both {
		sql(t, conn, "COMMIT")
	}
	h.settle()
	h.stop()
	if cycle, wrong := h.g.violation(false); cycle == "" || len(wrong) > 0 {
		t.Errorf("it isn't violated: %v\n%s", wrong, h.line)
	}
}
