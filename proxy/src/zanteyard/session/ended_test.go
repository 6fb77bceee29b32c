package session

import (
	"bytes"
	"encoding/binary"
	"sync/atomic"
	"testing"

	"zanteyard/wire"
)

// TestCursorOutlivesItsAudit: an audit ends while a cursor is open whose query was rewritten. What is fetched from it
// afterwards has the client's columns alone.
func TestCursorOutlivesItsAudit(t *testing.T) {
	needServer(t)
	sql(t, fill)
	const declare, fetch = "DECLARE c CURSOR FOR SELECT id, v FROM t ORDER BY id", "FETCH 1 FROM c"
	var audits atomic.Bool
	audits.Store(true)
	p := through(t, "postgres", func(o *Options) { o.Auditing = audits.Load })
	p.warm("BEGIN", declare, fetch, "COMMIT")
	p.query("BEGIN")
	p.query(declare)
	if all := show(p.query("SELECT statement FROM pg_cursors")); !bytes.Contains([]byte(all), []byte("xmin")) {
		t.Fatalf("the cursor isn't rewritten: %s", all)
	}
	for _, audited := range []bool{true, false} {
		audits.Store(audited)
		rows := 0
		for _, m := range p.query(fetch) {
			if m[0] != 'T' && m[0] != 'D' {
				continue
			}
			if n := binary.BigEndian.Uint16(m[wire.Header:]); n != 2 {
				t.Errorf("audited %v: %c with %d columns", audited, m[0], n)
			}
			rows++
		}
		if rows != 2 {
			t.Errorf("audited %v: %d messages", audited, rows)
		}
	}
	p.query("COMMIT")
}

// TestUndoesPart: in whatever way a ROLLBACK to a savepoint is written, it isn't taken for the end of the transaction.
func TestUndoesPart(t *testing.T) {
	for text, part := range map[string]bool{
		"ROLLBACK TO a": true, "rollback to savepoint a": true, "ROLLBACK \nTO a": true, "ROLLBACK/**/TO a": true,
		"rollback work\nto a": true, "ROLLBACK -- x\nTO a": true, "/* y */ ROLLBACK\t\tTO\ta": true,
		"ROLLBACK": false, "rollback work": false, "ROLLBACK AND CHAIN": false, "ABORT": false,
	} {
		if undoesPart.MatchString(text) != part {
			t.Errorf("%q: %v", text, !part)
		}
	}
}
