package session

import (
	"errors"
	"testing"

	"zanteyard/cluster"
)

// TestPoolerBehind: with a pooler between proxy and server, each transaction may reach another backend, where nothing
// of the proxy's is prepared. So nothing is rewritten or asked there.
func TestPoolerBehind(t *testing.T) {
	needServer(t)
	block := []string{"BEGIN", "SELECT v FROM t WHERE id = 1", "UPDATE t SET v = 1 WHERE v > 20", "COMMIT"}
	for mode, texts := range map[string][]string{"session": block, "transaction": block, "statement": block[1:3]} {
		sql(t, fill)
		port, stop, err := theCluster.Pgbouncer(theCluster.Port, mode)
		if errors.Is(err, cluster.ErrNoPooler) {
			t.Skip(err)
		}
		if err != nil {
			t.Fatal(err)
		}
		func() {
			pooler_ = port
			defer func() { pooler_ = 0; stop() }()
			clients := []*proxied{through(t, "postgres", nil), through(t, "postgres", nil)}
			for i := 0; i < 6; i++ {
				for _, p := range clients {
					for _, text := range texts {
						if got := p.query(text); got[0][0] == 'E' {
							t.Fatalf("%s: %s: %s", mode, text, show(got))
						}
					}
				}
			}
			for _, p := range clients {
				for _, it := range p.sink.take() {
					if len(it.Reads) > 0 || it.Number != 0 {
						t.Errorf("%s: told %+v", mode, it)
					}
				}
				if !p.sink.left("a pooler between") {
					t.Errorf("%s: left out %v", mode, p.sink.unseen)
				}
				p.conn.Close()
				<-p.ended
			}
		}()
	}
}
