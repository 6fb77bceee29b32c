package server

import (
	"context"
	"net"
	"sync"
	"testing"
	"time"

	"github.com/jackc/pgproto3/v2"
)

// slowStub is a server that answers a startup message when it is told to.
func slowStub(t *testing.T, answers <-chan struct{}) *net.TCPAddr {
	t.Helper()
	listener, err := net.Listen("tcp", "127.0.0.1:0")
	if err != nil {
		t.Fatal(err)
	}
	t.Cleanup(func() { listener.Close() })
	begin := (&pgproto3.ReadyForQuery{TxStatus: 'I'}).Encode((&pgproto3.AuthenticationOk{}).Encode(nil))
	go func() {
		for {
			c, err := listener.Accept()
			if err != nil {
				return
			}
			go func() {
				defer c.Close()
				if _, err := readPacket(c); err != nil {
					return
				}
				select {
				case <-answers:
					c.Write(begin)
				case <-waitEnd(c):
					return
				}
				<-waitEnd(c)
			}()
		}
	}()
	return listener.Addr().(*net.TCPAddr)
}

// waitEnd returns a channel that is closed when nothing more comes from a connection.
func waitEnd(c net.Conn) <-chan struct{} {
	ended := make(chan struct{})
	go func() {
		defer close(ended)
		for to := make([]byte, 100); ; {
			if _, err := c.Read(to); err != nil {
				return
			}
		}
	}()
	return ended
}

// TestSlowServer: a server that takes long to be reached, or to answer, lets the proxy's clients in as it would without the
// proxy: no limit of the proxy's own closes them.
func TestSlowServer(t *testing.T) {
	const patience = 50 * time.Millisecond
	for name, reached := range map[string]time.Duration{"slow to answer": 0, "slow to be reached": 10 * patience} {
		answers := make(chan struct{})
		address := slowStub(t, answers)
		d := startDrained(t, func(o *Options) {
			o.Patience = patience
			o.Server.Port = uint16(address.Port)
			var dialer net.Dialer
			o.Server.DialFunc = func(ctx context.Context, network, address string) (net.Conn, error) {
				select {
				case <-time.After(reached):
				case <-ctx.Done():
					return nil, ctx.Err()
				}
				return dialer.DialContext(ctx, network, address)
			}
		})
		time.AfterFunc(10*patience+reached, func() { close(answers) })
		if client, err := connectRaw(d.port); err != nil {
			t.Errorf("%s: the client was closed: %v", name, err)
		} else {
			client.Close()
		}
	}
}

// TestClientLeaves: a client that has left while the server says nothing doesn't keep its place.
func TestClientLeaves(t *testing.T) {
	d := startDrained(t, func(o *Options) {
		o.Patience = 20 * time.Millisecond
		o.Server.Port = uint16(slowStub(t, nil).Port)
	})
	var all sync.WaitGroup
	for i := 0; i < 3; i++ {
		all.Add(1)
		go func() {
			defer all.Done()
			c, err := net.Dial("tcp", (&net.TCPAddr{IP: net.IPv4(127, 0, 0, 1), Port: d.port}).String())
			if err != nil {
				t.Error(err)
				return
			}
			start := pgproto3.StartupMessage{ProtocolVersion: pgproto3.ProtocolVersionNumber,
				Parameters: map[string]string{"user": "postgres", "database": "postgres"}}
			c.Write(start.Encode(nil))
			until(t, "it is served", func() bool {
				d.lock.Lock()
				defer d.lock.Unlock()
				return d.served > 0
			})
			c.Close()
		}()
	}
	all.Wait()
	until(t, "their places are free", func() bool {
		d.lock.Lock()
		defer d.lock.Unlock()
		return d.served == 0 && len(d.conns) == 0
	})
}
