package audit

import (
	"io"
	"os"
	"os/exec"
	"path/filepath"
	"strconv"
	"strings"
	"syscall"
	"testing"
	"time"

	"zanteyard/join"
	"zanteyard/record"
	"zanteyard/slot"
)

// TestServerThatDoesntAnswer: an audit goes on, though its questions have no answer for long, since somebody has locked a
// catalog that they read, or the server stands still. What is done meanwhile is offered afterwards. A locked table of the
// application's keeps no question from its answer.
func TestServerThatDoesntAnswer(t *testing.T) {
	s := startServer(t)
	conn, locker := s.connect(t), s.connect(t)
	must(t, conn, "CREATE TABLE t (id int PRIMARY KEY, v int); INSERT INTO t VALUES (1, 0); CREATE TABLE other (id int PRIMARY KEY); "+
		"ALTER ROLE postgres SET statement_timeout = '50ms'; ALTER ROLE postgres SET lock_timeout = '10ms'")
	a, events, commands, _ := startWith(t, s, slot.Options{}, join.Options{Between: 10 * time.Millisecond, Answer: 200 * time.Millisecond})
	await(t, events, `["open"`)
	a.Sink().Connection(record.Connection{Number: 1})
	place := uint64(0)
	update := func() {
		its := record.Transaction{Connection: 1, Place: place, Began: time.Now()}
		must(t, conn, "BEGIN; UPDATE t SET v = v + 1")
		its.Number, _ = strconv.ParseUint(must(t, conn, "SELECT pg_current_xact_id()")[0][0], 10, 64)
		must(t, conn, "COMMIT")
		its.Ended = time.Now()
		a.Sink().Transaction(its)
		place++
	}
	warned := func(text string) {
		for !strings.Contains(toText(await(t, events, "warning")), text) {
		}
	}
	update()
	await(t, events, `["offer",`)

	must(t, locker, "BEGIN; LOCK pg_catalog.pg_enum IN ACCESS EXCLUSIVE MODE")
	update()
	warned("the server hasn't answered the audit for")
	update()
	must(t, locker, "COMMIT")
	warned("the server has answered the audit, after")
	await(t, events, `["offer",`)

	must(t, locker, "BEGIN; LOCK other IN ACCESS EXCLUSIVE MODE")
	update()
	await(t, events, `["offer",`)
	must(t, locker, "ALTER TABLE other ADD v int; COMMIT")
	update()
	await(t, events, `["offer",`)

	all := processesOf(t, s)
	signal(t, all, syscall.SIGSTOP)
	t.Cleanup(func() { signal(t, all, syscall.SIGCONT) })
	a.Sink().Transaction(record.Transaction{Connection: 1, Place: place, Began: time.Now(), Ended: time.Now(),
		Reads: []record.Read{{Relation: 1, Key: "of an unknown table"}}})
	place++
	warned("the server hasn't answered the audit for")
	signal(t, all, syscall.SIGCONT)
	warned("the server has answered the audit, after")
	update()
	await(t, events, `["offer",`)
	io.WriteString(commands, `{"command":"stop"}`+"\n")
	var last map[string]any
	for it := await(t, events, ""); it["event"] != "stopped"; it = await(t, events, "") {
		if it["event"] == "coverage" {
			last = it
		}
	}
	if n := last["offered"].(float64) - last["fences"].(float64); n != float64(place-1) { // the last but one is left out
		t.Errorf("%v of %d transactions were offered: %v", n, place-1, last)
	}
}

// processesOf returns a server's processes: the first one, and what it has started.
func processesOf(t *testing.T, s *server) []int {
	t.Helper()
	file, err := os.ReadFile(filepath.Join(s.Dir, "data", "postmaster.pid"))
	if err != nil {
		t.Fatal(err)
	}
	first, _, _ := strings.Cut(string(file), "\n")
	found, _ := exec.Command("ps", "-o", "pid=", "--ppid", first).Output()
	var its []int
	for _, text := range append(strings.Fields(string(found)), first) {
		number, err := strconv.Atoi(text)
		if err != nil {
			t.Fatal(err)
		}
		its = append(its, number)
	}
	return its
}

func signal(t *testing.T, processes []int, what syscall.Signal) {
	for _, one := range processes {
		if err := syscall.Kill(one, what); err != nil && err != syscall.ESRCH {
			t.Error(err)
		}
	}
}
