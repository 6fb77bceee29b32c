package session

import (
	"context"
	"flag"
	"math/rand"
	"strings"
	"syscall"
	"testing"
	"time"

	"github.com/jackc/pgconn"
	"github.com/jackc/pgproto3/v2"

	"zanteyard/wire"
)

var theSeed = flag.Int64("seed", 1, "of the random programs and messages; 0: by the clock")

// seeded returns random numbers, the same in each run unless the seed is the clock's.
func seeded(t *testing.T) *rand.Rand {
	seed := *theSeed
	if seed == 0 {
		seed = time.Now().UnixNano()
	}
	t.Logf("seed %d", seed)
	return rand.New(rand.NewSource(seed))
}

// TestNonsense sends messages that are well-formed except for some bytes, in any order. Both directly and through a
// session, the server may refuse them or end the connection; the session itself must not fail, and others have to be
// answered.
func TestNonsense(t *testing.T) {
	needServer(t)
	sql(t, fill)
	r := seeded(t)
	kinds := []pgproto3.FrontendMessage{
		&pgproto3.Query{String: "SELECT v FROM t WHERE id = 1"},
		&pgproto3.Query{String: "BEGIN; SELECT v FROM t WHERE id = 2; COMMIT"},
		&pgproto3.Parse{Query: "SELECT v FROM t WHERE id = $1"}, &pgproto3.Parse{Name: "a",
			Query: "UPDATE t SET v = 1 WHERE id = 3"},
		&pgproto3.Bind{Parameters: [][]byte{[]byte("1")}}, &pgproto3.Bind{DestinationPortal: "p", PreparedStatement: "a",
			ResultFormatCodes: []int16{1}},
		&pgproto3.Describe{ObjectType: 'P'}, &pgproto3.Describe{ObjectType: 'S', Name: "a"}, &pgproto3.Execute{},
		&pgproto3.Execute{Portal: "p", MaxRows: 1},
		&pgproto3.Close{ObjectType: 'S', Name: "a"}, &pgproto3.Close{ObjectType: 'P', Name: "p"}, &pgproto3.Sync{},
		&pgproto3.Flush{},
		&pgproto3.CopyData{Data: []byte("1\t2\n")}, &pgproto3.CopyDone{}, &pgproto3.CopyFail{Message: "no"},
		&pgproto3.Query{String: ""},
		&pgproto3.Query{String: "BEGIN"}, &pgproto3.Query{String: "ROLLBACK"},
		// Messages in the middle of a COPY make it fail, and then nobody can know which of them are lost.
		&pgproto3.Query{String: "COPY t FROM STDIN"}, &pgproto3.Parse{Query: "COPY t FROM STDIN"},
	}
	for round := 0; round < 60; round++ {
		round, kinds := round, kinds // what is wrong may be logged in the next round
		var change func(*Options)
		if round%2 == 0 {
			kinds = kinds[:len(kinds)-2]
			change = func(o *Options) { o.Log = func(text string) { t.Errorf("round %d: %s", round, text) } }
		}
		p := through(t, "postgres", change)
		p.warm("SELECT v FROM t WHERE id = 1", "UPDATE t SET v = 1 WHERE id = 3")
		var all []byte
		for n := 0; n < 30; n++ {
			m := kinds[r.Intn(len(kinds))].Encode(nil)
			if r.Intn(8) == 0 && len(m) > wire.Header {
				switch r.Intn(3) {
				case 0: // shorter
					m = wire.End(m[:wire.Header+r.Intn(len(m)-wire.Header)], 0)
				case 1: // another byte
					m[wire.Header+r.Intn(len(m)-wire.Header)] = byte(r.Intn(256))
				case 2: // longer
					m = wire.End(append(m, byte(r.Intn(256))), 0)
				}
			}
			all = append(all, m...)
			if r.Intn(3) == 0 {
				all = append(all, encoded(&pgproto3.Sync{})...)
			}
		}
		var cuts []int // drawn first, so they are the same whatever the server does
		for left := len(all); left > 0; left -= cuts[len(cuts)-1] {
			cuts = append(cuts, 1+r.Intn(left))
		}
		go func() { // the answers aren't looked at
			b := make([]byte, 4096)
			for {
				if _, err := p.conn.Read(b); err != nil {
					return
				}
			}
		}()
		for _, n := range cuts {
			if _, err := p.conn.Write(all[:n]); err != nil {
				break // the server has ended it
			}
			all = all[n:]
		}
		p.conn.Write(encoded(&pgproto3.CopyFail{Message: "end"}, &pgproto3.Sync{}, &pgproto3.Terminate{}))
		select {
		case err := <-p.ended:
			if err != nil && strings.Contains(err.Error(), "fault") {
				t.Fatal(err)
			}
		case <-time.After(5 * time.Minute):
			t.Fatal("the session doesn't end")
		}
		p.session.state.Lock()
		process := p.session.backend
		p.session.state.Unlock()
		recovered(t, process)
	}
}

// recovered waits until the server's process of a session is gone, and the server accepts connections. Nonsense may
// crash that process, as it crashed one of PostgreSQL 15.18. The server then ends all connections and restarts.
func recovered(t *testing.T, process int) {
	t.Helper()
	until(t, "the server's process has ended", func() bool { return syscall.Kill(process, 0) == syscall.ESRCH })
	until(t, "the server takes connections", func() bool {
		ctx := context.Background()
		conn, err := pgconn.ConnectConfig(ctx, config())
		if err == nil {
			conn.Close(ctx)
		}
		return err == nil
	})
}
