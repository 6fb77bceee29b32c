package audit

import (
	"bufio"
	"context"
	"encoding/json"
	"io"
	"strings"
	"testing"
	"time"

	"zanteyard/cluster"
	"zanteyard/join"
	"zanteyard/record"
	"zanteyard/slot"
)

// start begins an audit of nothing, and returns its events as they arrive.
func start(t *testing.T, s *server, options slot.Options) (a *Audit, events <-chan map[string]any, commands io.Writer, ended <-chan error) {
	t.Helper()
	return startWith(t, s, options, join.Options{Between: 10 * time.Millisecond})
}

func startWith(t *testing.T, s *server, options slot.Options, more join.Options) (a *Audit, events <-chan map[string]any, commands io.Writer,
	ended <-chan error) {
	t.Helper()
	options.Source, options.Canonical = s.source(), canonical
	commandsOut, commandsIn := io.Pipe()
	feedOut, feedIn := io.Pipe()
	a = New(Config{Slot: options, Meeter: nobody{}, In: commandsOut, Out: feedIn, Join: more})
	ctx, cancel := context.WithCancel(context.Background())
	t.Cleanup(cancel)
	its, done := make(chan map[string]any, 1000), make(chan error, 1)
	go func() {
		lines := bufio.NewScanner(feedOut)
		lines.Buffer(nil, 1<<20)
		for lines.Scan() {
			it := map[string]any{"event": lines.Text()}
			if lines.Text()[0] == '{' {
				json.Unmarshal(lines.Bytes(), &it)
			}
			its <- it
		}
	}()
	go func() {
		done <- a.Run(ctx)
		feedIn.Close()
	}()
	return a, its, commandsIn, done
}

func await(t *testing.T, events <-chan map[string]any, event string) map[string]any {
	t.Helper()
	for {
		select {
		case it := <-events:
			if strings.HasPrefix(it["event"].(string), event) {
				return it
			}
		case <-time.After(5 * time.Minute):
			t.Fatalf("%s doesn't come", event)
		}
	}
}

const someTables = "CREATE TABLE t (id int PRIMARY KEY); CREATE TABLE none (id int)"

// A lost slot ends the audit with its reason; the sessions' later records are dropped.
func TestLostSlot(t *testing.T) {
	s := startServer(t)
	conn := s.connect(t)
	must(t, conn, someTables)
	a, events, _, ended := start(t, s, slot.Options{})
	await(t, events, "started")
	await(t, events, `["open",8,131072,3]`)
	must(t, conn, "SELECT pg_terminate_backend(pid) FROM pg_stat_replication")
	if it := await(t, events, "ended"); !strings.Contains(it["reason"].(string), "slot") {
		t.Errorf("the audit has ended: %v", it)
	}
	if err := <-ended; err == nil {
		t.Error("the audit doesn't say that it has ended")
	}
	a.Sink().Transaction(record.Transaction{})
	a.Sink().Connection(record.Connection{Number: 1})
}

// A server that can't be audited, or doesn't exist, ends the audit with its reason, too.
func TestNoAudit(t *testing.T) {
	s := startServer(t, "wal_level=replica")
	must(t, s.connect(t), someTables)
	_, events, _, _ := start(t, s, slot.Options{})
	if it := await(t, events, "ended"); !strings.Contains(it["reason"].(string), "wal_level") {
		t.Errorf("the audit has ended: %v", it)
	}
	_, events, _, _ = start(t, &server{&cluster.Cluster{Dir: s.Dir + "/nowhere"}}, slot.Options{})
	await(t, events, "ended")
}

// TestWaitsForWhatIsOpen: a slot begins only after transactions that are open. The parent is told which ones these are.
func TestWaitsForWhatIsOpen(t *testing.T) {
	before := patience
	patience = 50 * time.Millisecond
	defer func() { patience = before }()
	s := startServer(t)
	conn := s.connect(t)
	must(t, conn, someTables)
	must(t, conn, "BEGIN; INSERT INTO t VALUES (1)")
	_, events, _, _ := start(t, s, slot.Options{})
	told := await(t, events, "warning")
	if text := told["text"].(string); !strings.Contains(text, "what is open") || !strings.Contains(text, "the session with pid ") {
		t.Errorf("the parent is told %q", text)
	}
	must(t, conn, "COMMIT")
	await(t, events, "started")
}

// Rounds, a new audit and the end, on the parent's commands; tables without a key are counted.
func TestParent(t *testing.T) {
	s := startServer(t)
	conn := s.connect(t)
	must(t, conn, someTables)
	_, events, commands, _ := start(t, s, slot.Options{Name: "kept", Permanent: true})
	if it := await(t, events, "started"); it["temporary"] != false || !strings.Contains(toText(it["warnings"]), "max_slot_wal_keep_size") {
		t.Errorf("the audit begins with %v", it)
	}
	await(t, events, `["open"`)
	must(t, conn, "INSERT INTO none VALUES (1), (2)")
	io.WriteString(commands, `{"command":"round"}`+"\n")
	await(t, events, "meeting")
	await(t, events, `["round"`)
	await(t, events, `["truncate"]`)
	io.WriteString(commands, `{"command":"describe","id":4,"transactions":[[0,0],[77,1]]}`+"\n"+`{"command":"dance"}`+"\n")
	if it := await(t, events, "transactions"); it["id"] != 4.0 {
		t.Errorf("described are %v", it)
	}
	await(t, events, "warning")
	leftOut := func() bool {
		return strings.Contains(toText(await(t, events, "coverage")["unseen"]), "changes of public.none")
	}
	for !leftOut() {
	}
	io.WriteString(commands, `{"command":"restart"}`+"\n")
	await(t, events, "restarted")
	await(t, events, `["open"`)
	if leftOut() {
		t.Error("the next audit counts what the one before it left out")
	}
	io.WriteString(commands, `{"command":"stop"}`+"\n")
	await(t, events, `["truncate"]`)
	await(t, events, "stopped")
}

func toText(it any) string {
	text, _ := json.Marshal(it)
	return string(text)
}
