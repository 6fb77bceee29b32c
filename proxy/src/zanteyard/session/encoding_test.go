package session

import (
	"reflect"
	"testing"

	"zanteyard/plan"
	"zanteyard/record"
)

// TestOtherEncodings: a client whose encoding isn't the server's is told as having read the keys that the server stores.
// What can't be known is left out, and counted.
func TestOtherEncodings(t *testing.T) {
	needServer(t)
	sql(t, fill+"INSERT INTO u VALUES (1, 'bé', 7)")
	const other, names = "SELECT v FROM u WHERE a = 1 AND b = 'b\xe9'", "SELECT v FROM beyond"
	for _, x := range []struct {
		name  string
		texts []string
		keys  []string
		left  string
	}{
		{"the server's encoding", []string{"SELECT v FROM u WHERE a = 1 AND b = 'bé'", names}, []string{"1\x00bé", "1"}, ""},
		{"another one", []string{"SET client_encoding TO LATIN1", other}, []string{"1\x00bé"}, ""},
		{"none", []string{"SET client_encoding TO SQL_ASCII", "SELECT v FROM u WHERE a = 1 AND b = 'bé'"}, []string{"1\x00bé"}, ""},
		{"and back", []string{"SET client_encoding TO LATIN1", other, "RESET client_encoding", names}, []string{"1\x00bé", "1"}, ""},
		{"names beyond ASCII", []string{"SET client_encoding TO LATIN1", names}, nil, namesBeyond},
	} {
		t.Run(x.name, func(t *testing.T) {
			p := through(t, "postgres", func(o *Options) { o.Shared = nil })
			p.warm(x.texts...)
			for _, text := range x.texts {
				p.query(text)
				p.settle()
				p.query(text) // after a change something has to be tried again
			}
			p.settle()
			var keys []string
			for _, it := range p.sink.take() {
				for _, key := range keysOf(it.Reads) {
					if len(keys) == 0 || keys[len(keys)-1] != key {
						keys = append(keys, key)
					}
				}
			}
			if !reflect.DeepEqual(keys, x.keys) {
				t.Errorf("told: %q", keys)
			}
			if x.left != "" && !p.sink.left(x.left) {
				t.Errorf("left out: %q", p.sink.unseen)
			}
		})
	}
	// An encoding that changes after the statement was sent: only keys in ASCII are told.
	p := through(t, "postgres", nil)
	p.session.state.Lock()
	defer p.session.state.Unlock()
	p.session.charset = "LATIN1"
	for _, x := range []struct {
		path string
		kept int
	}{{"", 1}, {plan.Converting, 2}} {
		its, _ := definitions_.PlanIn(x.path, "SELECT v FROM u")
		kept := p.session.comparable(its, []record.Read{{Key: "1\x00b"}, {Key: "1\x00b\xe9"}})
		if len(kept) != x.kept || (x.kept == 1) != p.sink.left(otherEncoding) {
			t.Errorf("%q: %q is told, left out %q", x.path, keysOf(kept), p.sink.unseen)
		}
		p.sink.forget()
	}
}
