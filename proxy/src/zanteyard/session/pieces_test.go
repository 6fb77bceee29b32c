package session

import (
	"fmt"
	"io"
	"math/rand"
	"net"
	"sync"
	"testing"
)

// pieces_ makes what clients and servers send arrive in pieces, cut anywhere; nil if it isn't cut.
var pieces_ *cuts

// cuts determines how long the next piece is.
type cuts struct {
	lock sync.Mutex
	r    *rand.Rand
}

func (c *cuts) next(most int) int {
	c.lock.Lock()
	defer c.lock.Unlock()
	n := 1 + c.r.Intn(1<<c.r.Intn(16))
	if c.r.Intn(3) == 0 {
		n = 1
	}
	if n > most {
		n = most
	}
	return n
}

// inPieces writes in pieces.
type inPieces struct {
	net.Conn
	cuts *cuts
}

func (p inPieces) Write(b []byte) (int, error) {
	done := 0
	for done < len(b) {
		n, err := p.Conn.Write(b[done : done+p.cuts.next(len(b)-done)])
		done += n
		if err != nil {
			return done, err
		}
	}
	return done, nil
}

// behindRelay connects to the server through a relay that passes on in pieces what it sends.
func behindRelay(t testing.TB, port int) net.Conn {
	t.Helper()
	listener, err := net.Listen("tcp", "127.0.0.1:0")
	if err != nil {
		t.Fatal(err)
	}
	defer listener.Close()
	near, err := net.Dial("tcp", listener.Addr().String())
	if err != nil {
		t.Fatal(err)
	}
	relay, err := listener.Accept()
	if err != nil {
		t.Fatal(err)
	}
	server, err := net.Dial("tcp", fmt.Sprintf("127.0.0.1:%d", port))
	if err != nil {
		t.Fatal(err)
	}
	pass := func(to io.Writer, from net.Conn, both ...net.Conn) {
		io.Copy(to, from)
		for _, c := range both {
			c.Close()
		}
	}
	go pass(server, relay, server)
	go pass(inPieces{relay, pieces_}, server, relay, server)
	return near
}

// TestPieces: the answers are the same however messages are cut on their way, in both directions.
func TestPieces(t *testing.T) {
	needServer(t)
	pieces_ = &cuts{r: seeded(t)}
	defer func() { pieces_ = nil }()
	for _, x := range exchanges() {
		x := x
		t.Run(x.name, func(t *testing.T) { exchangeSame(t, x, 2) })
	}
}
