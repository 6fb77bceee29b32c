package server

import (
	"bytes"
	"crypto/tls"
	"encoding/binary"
	"errors"
	"fmt"
	"io"
	"net"

	"zanteyard/wire"
)

// The codes that replace the protocol's version in a startup message.
const (
	cancelCode = 80877102
	sslCode    = 80877103
	gssCode    = 80877104
)

// longestStartup is PostgreSQL's own limit (MAX_STARTUP_PACKET_LENGTH).
const longestStartup = 10000

var errStartup = errors.New("server: not a PostgreSQL startup message")

var errDirect = errors.New("a client begins with TLS at once (sslnegotiation=direct), and the proxy has no certificate " +
	"for clients: give --tls-cert and --tls-key, or let the client connect with sslnegotiation=postgres")

var errNoProtocol = errors.New("a client that begins with TLS at once has to name the protocol postgresql (ALPN)")

// alert is TLS's alert for a handshake that can't succeed: a client that begins with TLS understands nothing else.
var alert = []byte{21, 3, 1, 0, 2, 2, 40}

// protocol is PostgreSQL's name for TLS that begins without a question.
const protocol = "postgresql"

// begun is a connection of which some bytes were read already.
type begun struct {
	net.Conn
	first []byte
}

func (c *begun) Read(p []byte) (int, error) {
	if len(c.first) == 0 {
		return c.Conn.Read(p)
	}
	n := copy(p, c.first)
	c.first = c.first[n:]
	return n, nil
}

// direct is the beginning of a client's TLS.
type direct struct{ head []byte }

func (d *direct) Error() string { return errDirect.Error() }

// packet is a message without a type, which a connection begins with: a startup message, or a request for something
// else.
type packet []byte

func (p packet) code() uint32 { return binary.BigEndian.Uint32(p[4:]) }

// readPacket reads one packet, and no byte after it: what follows a request for TLS has to be part of TLS.
func readPacket(from io.Reader) (packet, error) {
	head := make([]byte, 8)
	if _, err := io.ReadFull(from, head); err != nil {
		return nil, err
	}
	if head[0] == 22 && head[1] == 3 { // a handshake of TLS
		return nil, &direct{head}
	}
	n := int(binary.BigEndian.Uint32(head))
	if n < 8 || n > longestStartup {
		return nil, errStartup
	}
	p := append(head, make([]byte, n-8)...)
	if _, err := io.ReadFull(from, p[8:]); err != nil {
		return nil, err
	}
	return p, nil
}

// startup is what the proxy uses of a startup message. The message itself is passed on unchanged.
type startup struct {
	user, database, application string
	replication                 bool
}

func (p packet) startup() startup {
	var s startup
	rest := []byte(p[8:])
	for len(rest) > 0 && rest[0] != 0 {
		name, next, ok := wire.Text(rest)
		if !ok {
			break
		}
		value, next, ok := wire.Text(next)
		if !ok {
			break
		}
		switch string(name) {
		case "user":
			s.user = string(value)
		case "database":
			s.database = string(value)
		case "application_name":
			s.application = string(value)
		case "replication":
			s.replication = !no(value)
		}
		rest = next
	}
	if s.database == "" {
		s.database = s.user
	}
	return s
}

// no reports whether a setting is off.
func no(value []byte) bool {
	switch string(bytes.ToLower(value)) {
	case "false", "off", "no", "0", "f", "n":
		return true
	}
	return false
}

// greet answers what a client asks for before its startup message: TLS, which it gets if the proxy has a certificate,
// and encryption by GSSAPI, which it doesn't get. It returns the first packet that is something else.
func (s *Server) greet(client net.Conn) (net.Conn, packet, error) {
	secure := false
	for {
		p, err := readPacket(client)
		if begins, is := err.(*direct); is && !secure {
			if client, err = s.directly(client, begins); err == nil {
				secure = true
				continue
			}
		}
		if err != nil {
			return client, nil, err
		}
		switch p.code() {
		case sslCode:
			if s.options.ClientTLS == nil || secure {
				if _, err := client.Write([]byte{'N'}); err != nil {
					return client, nil, err
				}
				continue
			}
			if _, err := client.Write([]byte{'S'}); err != nil {
				return client, nil, err
			}
			tlsClient := tls.Server(client, s.options.ClientTLS)
			if err := tlsClient.Handshake(); err != nil {
				return client, nil, fmt.Errorf("TLS with a client: %w", err)
			}
			client, secure = tlsClient, true
		case gssCode:
			if _, err := client.Write([]byte{'N'}); err != nil {
				return client, nil, err
			}
		default:
			return client, p, nil
		}
	}
}

// directly ends the TLS of a client that began with it at once.
func (s *Server) directly(client net.Conn, its *direct) (net.Conn, error) {
	if s.options.ClientTLS == nil {
		client.Write(alert)
		return client, errDirect
	}
	config := s.options.ClientTLS.Clone()
	config.NextProtos = []string{protocol}
	secure := tls.Server(&begun{client, its.head}, config)
	if err := secure.Handshake(); err != nil {
		return client, fmt.Errorf("TLS with a client: %w", err)
	}
	if secure.ConnectionState().NegotiatedProtocol != protocol {
		return client, errNoProtocol
	}
	return secure, nil
}
