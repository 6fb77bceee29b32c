package server

import (
	"context"
	"crypto/tls"
	"crypto/x509"
	"fmt"
	"net"
	"strings"
	"sync"
	"testing"
	"time"

	"github.com/jackc/pgconn"
)

// TestDirectTLS: a client that begins with TLS at once is served if the proxy has a certificate and the client names the
// protocol. Else it gets TLS's own refusal, and the log has the reason.
func TestDirectTLS(t *testing.T) {
	needServer(t)
	own := &tls.Config{Certificates: []tls.Certificate{certificate}}
	roots := x509.NewCertPool()
	roots.AppendCertsFromPEM(certPEM)
	for _, x := range []struct {
		with      *tls.Config
		protocols []string
		fails     string // what the log says
	}{
		{own, []string{"postgresql"}, ""}, {own, []string{"other", "postgresql"}, ""},
		{own, nil, "has to name the protocol postgresql"}, {own, []string{"http/1.1"}, "TLS with a client"},
		{nil, []string{"postgresql"}, "the proxy has no certificate"},
	} {
		x := x // the client's library may dial once more, to cancel, after a failure
		var lock sync.Mutex
		var log []string
		port, _ := proxy(t, url("postgres", theCluster.Port, "sslmode=disable"), func(o *Options) {
			o.ClientTLS = x.with
			o.Log = func(text string) {
				lock.Lock()
				defer lock.Unlock()
				log = append(log, text)
			}
		})
		config, err := pgconn.ParseConfig(url("scram", port, "sslmode=disable"))
		if err != nil {
			t.Fatal(err)
		}
		config.DialFunc = func(ctx context.Context, network, address string) (net.Conn, error) {
			c, err := net.Dial(network, address)
			if err != nil {
				return nil, err
			}
			c.SetDeadline(time.Now().Add(5 * time.Minute))
			secure := tls.Client(c, &tls.Config{RootCAs: roots, ServerName: "localhost", InsecureSkipVerify: true, NextProtos: x.protocols})
			return secure, secure.Handshake()
		}
		conn, err := pgconn.ConnectConfig(context.Background(), config)
		if (err == nil) != (x.fails == "") {
			t.Errorf("%+v: %v", x.protocols, err)
		}
		if err == nil {
			if rows, err := conn.Exec(context.Background(), "SELECT 41 + 1").ReadAll(); err != nil || string(rows[0].Rows[0][0]) != "42" {
				t.Errorf("%+v: %v", x.protocols, err)
			}
			conn.Close(context.Background())
			continue
		}
		if x.with == nil && !strings.Contains(err.Error(), "handshake failure") {
			t.Errorf("the client gets %v", err)
		}
		for end := time.Now().Add(5 * time.Minute); ; time.Sleep(time.Millisecond) {
			lock.Lock()
			all := strings.Join(log, "\n")
			lock.Unlock()
			if strings.Contains(all, x.fails) {
				break
			}
			if time.Now().After(end) {
				t.Fatal(fmt.Sprintf("the log doesn't say %q: %s", x.fails, all))
			}
		}
	}
}
