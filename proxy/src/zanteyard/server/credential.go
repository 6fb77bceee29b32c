package server

import (
	"context"
	"crypto/tls"
	"encoding/binary"
	"errors"
	"fmt"
	"io"
	"net"

	"github.com/jackc/pgproto3/v2"

	"zanteyard/session"
	"zanteyard/wire"
)

// A client gets in by its own credential alone. The server sees the proxy, not the client: the proxy's address, the
// system user that it runs as, and the certificate of the audit's own connections. If the server lets a connection in
// for one of these, it hasn't asked the client for anything.

// The codes of the server's requests for a credential, which pass through the proxy. The others are AuthenticationOk and
// two that ask for what a client can't send through a proxy: a socket's credentials and Kerberos 5's own exchange.
const (
	authenticated = 0
	asksPassword  = 3
	asksMD5       = 5
	asksGSS       = 7
	asksSSPI      = 9
	asksSASL      = 10
)

var (
	errTrusted = errors.New("it was refused: the server lets it in without asking for a credential; see --trust-clients")
	errForeign = errors.New("it was refused: the server asks for a credential that can't pass through a proxy")
	errNeedTLS = errors.New("it was refused: it came without TLS; see --require-tls")
	errRefused = errors.New("the server refused it")
)

// refusal is a FATAL error in PostgreSQL's own form.
func refusal(message, hint string) []byte {
	return (&pgproto3.ErrorResponse{Severity: "FATAL", SeverityUnlocalized: "FATAL", Code: "28000",
		Message: "zanteyard-proxy: " + message, Hint: hint}).Encode(nil)
}

// lets passes a startup message on, and what the server says to it, up to its request for a credential.
func (s *Server) lets(ctx context.Context, client, server net.Conn, first packet) error {
	defer closeAfter(ctx, server)()
	if _, err := server.Write(first); err != nil {
		return unanswered(err)
	}
	return s.credential(client, server)
}

// unanswered is why a client wasn't let in though nobody refused it. That is logged, even if it is the server's EOF.
func unanswered(err error) error {
	return fmt.Errorf("the server ended the connection before it asked for a credential: %v", err)
}

// credential passes on what the server says first, up to its request for a credential. If there is none, the client is
// refused, unless it is trusted.
func (s *Server) credential(client, server net.Conn) error {
	for {
		m, err := readMessage(server)
		if err != nil {
			return unanswered(err)
		}
		switch m[0] {
		case 'R':
			if m, err = s.asked(client, m); err == nil {
				_, err = client.Write(m)
			}
			return err
		case 'E':
			client.Write(m)
			io.Copy(client, server) // an error from before the protocol's version 3 has another form
			return errRefused
		}
		if _, err := client.Write(m); err != nil {
			return err
		}
	}
}

// asked judges a request for a credential, and returns what to pass on.
func (s *Server) asked(client net.Conn, m []byte) ([]byte, error) {
	if len(m) < wire.Header+4 {
		return nil, errStartup
	}
	switch wire.Int32(m[wire.Header:]) {
	case asksPassword, asksMD5, asksGSS, asksSSPI:
		return m, nil
	case asksSASL:
		return session.WithoutBinding(m), nil
	case authenticated:
		if s.options.TrustClients {
			return m, nil
		}
		client.Write(refusal("the server lets this connection in without asking for a credential of the client's, by a rule of "+
			"its pg_hba.conf with trust, peer, ident or cert: the server sees the proxy, not the client",
			"Give the role a password and that rule the method scram-sha-256, or start the proxy with --trust-clients."))
		return nil, errTrusted
	}
	client.Write(refusal("the server asks for a credential that can't pass through a proxy", ""))
	return nil, errForeign
}

// mostFirst is more than a server says before it asks for a credential.
const mostFirst = 1 << 16

// readMessage reads one message, and no byte after it.
func readMessage(from io.Reader) ([]byte, error) {
	m := make([]byte, wire.Header)
	if _, err := io.ReadFull(from, m); err != nil {
		return nil, err
	}
	n := int(binary.BigEndian.Uint32(m[1:])) - 4
	if n < 0 || n > mostFirst {
		if m[0] == 'E' {
			return m, nil
		}
		return nil, errStartup
	}
	m = append(m, make([]byte, n)...)
	_, err := io.ReadFull(from, m[wire.Header:])
	return m, err
}

// lacksTLS refuses a client without TLS, if it has to have TLS. A client by a Unix socket is on this machine.
func (s *Server) lacksTLS(raw, client net.Conn) bool {
	if !s.options.RequireTLS || client != raw || raw.LocalAddr().Network() == "unix" {
		return false
	}
	client.Write(refusal("connections without TLS aren't accepted here", "Use sslmode=require or a stricter one."))
	return true
}

// forClients is a configuration of TLS without the certificate that the audit's own connections show the server.
func forClients(config *tls.Config) *tls.Config {
	if config == nil {
		return nil
	}
	its := config.Clone()
	its.Certificates, its.GetClientCertificate = nil, nil
	return its
}
