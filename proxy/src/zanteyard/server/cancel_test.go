package server

import (
	"context"
	"io"
	"net"
	"sync/atomic"
	"testing"

	"github.com/jackc/pgconn"
)

// TestEachRequestReachesTheServer: a request that is passed on once more gets there, though the server has closed the
// connection of the first one.
func TestEachRequestReachesTheServer(t *testing.T) {
	listener, err := net.Listen("tcp", "127.0.0.1:0")
	if err != nil {
		t.Fatal(err)
	}
	defer listener.Close()
	var came atomic.Int32
	go func() {
		for {
			conn, err := listener.Accept()
			if err != nil {
				return
			}
			if _, err := io.ReadFull(conn, make([]byte, 16)); err == nil {
				came.Add(1)
			}
			conn.Close() // as a server does
		}
	}()
	config, err := pgconn.ParseConfig(url("postgres", listener.Addr().(*net.TCPAddr).Port, "sslmode=disable"))
	if err != nil {
		t.Fatal(err)
	}
	s := &Server{targets: targets(config)}
	for i := 0; i < 3; i++ {
		s.pass(context.Background(), packet("\x00\x00\x00\x10\x04\xd2\x16\x2ethe key!"))
	}
	if n := came.Load(); n != 3 {
		t.Errorf("%d of 3 requests reached the server", n)
	}
}
