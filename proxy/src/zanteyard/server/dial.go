package server

import (
	"context"
	"crypto/tls"
	"encoding/binary"
	"errors"
	"fmt"
	"io"
	"net"

	"github.com/jackc/pgconn"
)

// target is one way to reach the server: libpq's sslmode yields one or two of them.
type target struct {
	network, address string
	tls              *tls.Config // nil: none
	connect          pgconn.DialFunc
	// plain: if the server doesn't offer TLS, the connection goes on without it. Another connection in its place would cost
	// the server another process.
	plain bool
}

// targets returns the ways to reach the server that a connection string describes, the preferred one first, as in
// libpq: for sslmode=prefer, which is the default, TLS without checking the certificate, then none; for allow the other
// way round. The string's own client certificate isn't used: it is for the audit's own connections.
func targets(config *pgconn.Config) []target {
	network, address := pgconn.NetworkAddress(config.Host, config.Port)
	connect := config.DialFunc
	if connect == nil {
		connect = (&net.Dialer{}).DialContext
	}
	all := []target{{network, address, forClients(config.TLSConfig), connect, false}}
	for _, f := range config.Fallbacks {
		network, address := pgconn.NetworkAddress(f.Host, f.Port)
		before := &all[len(all)-1]
		before.plain = f.TLSConfig == nil && before.tls != nil && before.network == network && before.address == address
		all = append(all, target{network, address, forClients(f.TLSConfig), connect, false})
	}
	return all
}

var errNoTLS = errors.New("the server doesn't offer TLS")

// dial connects to the server in the first way that works. The startup message isn't sent.
func (s *Server) dial(ctx context.Context) (net.Conn, error) {
	var first error
	for _, t := range s.targets {
		c, err := t.dial(ctx)
		if err == nil {
			return c, nil
		}
		if first == nil {
			first = err
		}
	}
	return nil, first
}

func (t target) dial(ctx context.Context) (net.Conn, error) {
	c, err := t.connect(ctx, t.network, t.address)
	if err != nil {
		return nil, err
	}
	if t.tls == nil || t.network == "unix" {
		return c, nil
	}
	defer closeAfter(ctx, c)()
	secure, err := t.secure(c)
	if err != nil {
		c.Close()
		return nil, fmt.Errorf("TLS with the server at %s: %w", t.address, err)
	}
	return secure, nil
}

// secure asks the server for TLS, and returns the connection as it is then. Exactly one byte is the answer: anything after it in the clear would be somebody
// else's.
func (t target) secure(c net.Conn) (net.Conn, error) {
	var request [8]byte
	binary.BigEndian.PutUint32(request[:], 8)
	binary.BigEndian.PutUint32(request[4:], sslCode)
	if _, err := c.Write(request[:]); err != nil {
		return nil, err
	}
	var answer [1]byte
	if _, err := io.ReadFull(c, answer[:]); err != nil {
		return nil, err
	}
	if answer[0] == 'N' && t.plain {
		return c, nil
	}
	if answer[0] != 'S' {
		return nil, errNoTLS
	}
	secure := tls.Client(c, t.tls)
	return secure, secure.Handshake()
}
