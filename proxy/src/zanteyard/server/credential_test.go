package server

import (
	"context"
	"crypto/ecdsa"
	"crypto/elliptic"
	"crypto/rand"
	"crypto/tls"
	"crypto/x509"
	"crypto/x509/pkix"
	"encoding/pem"
	"errors"
	"fmt"
	"math/big"
	"os"
	"os/user"
	"path/filepath"
	"strings"
	"testing"
	"time"

	"github.com/jackc/pgconn"

	"zanteyard/cluster"
)

// clientCertificate writes a certificate for a role, signed by the tests' own authority, and its key.
func clientCertificate(t *testing.T, role string) (certificateFile, keyFile string) {
	t.Helper()
	key, err := ecdsa.GenerateKey(elliptic.P256(), rand.Reader)
	if err != nil {
		t.Fatal(err)
	}
	authority, err := x509.ParseCertificate(certificate.Certificate[0])
	if err != nil {
		t.Fatal(err)
	}
	template := &x509.Certificate{SerialNumber: big.NewInt(2), Subject: pkix.Name{CommonName: role},
		NotBefore: time.Now().Add(-time.Hour), NotAfter: time.Now().Add(time.Hour)}
	der, err := x509.CreateCertificate(rand.Reader, template, authority, key.Public(), certificate.PrivateKey)
	if err != nil {
		t.Fatal(err)
	}
	private, err := x509.MarshalECPrivateKey(key)
	if err != nil {
		t.Fatal(err)
	}
	certificateFile, keyFile = filepath.Join(t.TempDir(), "client.crt"), filepath.Join(t.TempDir(), "client.key")
	for name, block := range map[string]*pem.Block{certificateFile: {Type: "CERTIFICATE", Bytes: der},
		keyFile: {Type: "EC PRIVATE KEY", Bytes: private}} {
		if err := os.WriteFile(name, pem.EncodeToMemory(block), 0o600); err != nil {
			t.Fatal(err)
		}
	}
	return certificateFile, keyFile
}

// openCluster is a server whose rules let connections in for what the proxy is: by a certificate, the system's user, or
// without a reason.
func openCluster(t *testing.T) (c *cluster.Cluster, me string) {
	t.Helper()
	needServer(t)
	who, err := user.Current()
	if err != nil {
		t.Skip(err)
	}
	c, err = cluster.Start(nil, []string{"local all " + who.Username + " peer", "hostssl all certain 127.0.0.1/32 cert",
		"host all certain 127.0.0.1/32 reject", "host all scram 127.0.0.1/32 scram-sha-256"})
	if err != nil {
		t.Fatal(err)
	}
	t.Cleanup(c.Stop)
	for name, content := range map[string][]byte{"server.crt": certPEM, "server.key": keyPEM, "root.crt": certPEM} {
		if err := c.Write(name, content); err != nil {
			t.Fatal(err)
		}
	}
	make := []string{"CREATE ROLE certain LOGIN SUPERUSER", "CREATE ROLE scram LOGIN REPLICATION PASSWORD 'secret'", "ALTER SYSTEM SET ssl = on",
		"ALTER SYSTEM SET ssl_ca_file = 'root.crt'"}
	if who.Username != "postgres" {
		make = append(make, fmt.Sprintf("CREATE ROLE %q LOGIN SUPERUSER", who.Username))
	}
	conn, err := c.Connect(context.Background())
	if err != nil {
		t.Fatal(err)
	}
	defer conn.Close(context.Background())
	for _, sql := range make {
		if _, err := conn.Exec(context.Background(), sql).ReadAll(); err != nil {
			t.Fatal(err)
		}
	}
	if err := c.Restart(true); err != nil {
		t.Fatal(err)
	}
	return c, who.Username
}

// TestOwnCredential: what the server takes for the proxy's identity lets no client in. A password does, however it is
// asked for.
func TestOwnCredential(t *testing.T) {
	c, me := openCluster(t)
	file, key := clientCertificate(t, "certain")
	withCertificate := fmt.Sprintf("sslmode=require&sslcert=%s&sslkey=%s", file, key)
	if who, err := ask(url("certain", c.Port, withCertificate), "SELECT current_user"); err != nil || who != "certain" {
		t.Fatalf("the certificate doesn't work: %q, %v", who, err)
	}
	socket := fmt.Sprintf("host=%s port=%d user=%s dbname=postgres", c.Dir, c.Port, me)
	if who, err := ask(socket, "SELECT current_user"); err != nil || who != me {
		t.Fatalf("peer doesn't work: %q, %v", who, err)
	}
	plain := url("postgres", c.Port, "sslmode=disable")
	const trusted, uncertified = "without asking for a credential", "requires a valid client certificate"
	for name, x := range map[string]struct {
		server, user, more string
		trusts             bool
		refused            string
	}{
		"trust":                     {plain, "postgres", "", false, trusted},
		"trust, for replication":    {plain, "postgres", "&replication=true", false, trusted},
		"trust, another database":   {plain, "postgres", "&dbname=template1", false, trusted},
		"trust, of a trusted one":   {plain, "postgres", "", true, ""},
		"peer":                      {socket, me, "", false, trusted},
		"peer, of a trusted one":    {socket, me, "", true, ""},
		"a certificate":             {url("certain", c.Port, withCertificate), "certain", "", false, uncertified},
		"a certificate, trusted":    {url("certain", c.Port, withCertificate), "certain", "", true, uncertified},
		"a password":                {plain, "scram", "", false, ""},
		"a password, TLS":           {url("certain", c.Port, withCertificate), "scram", "", false, ""},
		"a password, replication":   {plain, "scram", "&replication=database", false, ""},
		"a role that doesn't exist": {plain, "nobody_knows", "", false, trusted},
	} {
		t.Run(name, func(t *testing.T) {
			port, told := proxy(t, x.server, func(o *Options) { o.TrustClients = x.trusts })
			who, err := ask(url(x.user, port, "sslmode=disable"+x.more), "SELECT 7")
			var failed *pgconn.PgError
			switch {
			case x.refused == "" && (err != nil || who != "7"):
				t.Errorf("%q, %v", who, err)
			case x.refused != "" && (!errors.As(err, &failed) || failed.Code != "28000" && failed.Code != "28P01" || failed.Severity != "FATAL" ||
				!strings.Contains(failed.Message, x.refused)) && name != "a role that doesn't exist":
				t.Errorf("%q, %v", who, err)
			case x.refused != "" && err == nil:
				t.Errorf("it got in: %q", who)
			}
			// What isn't audited isn't counted.
			counts := x.refused == trusted && !strings.Contains(x.more, "replication") && !strings.Contains(x.more, "template1")
			if why := told.refusal(counts); (why != "") != counts || counts && why != "the server asks for no credential" {
				t.Errorf("counted as refused: %q", why)
			}
		})
	}
}

// TestRequireTLS: clients without TLS are refused, unless they are on this machine's own socket.
func TestRequireTLS(t *testing.T) {
	needServer(t)
	with := &tls.Config{Certificates: []tls.Certificate{certificate}}
	for _, x := range []struct {
		requires bool
		mode     string
		works    bool
	}{{true, "disable", false}, {true, "require", true}, {true, "prefer", true}, {false, "disable", true}} {
		port, told := proxy(t, url("postgres", theCluster.Port, "sslmode=disable"), func(o *Options) {
			o.ClientTLS, o.RequireTLS, o.TrustClients = with, x.requires, false
		})
		v, err := ask(url("scram", port, "sslmode="+x.mode), "SELECT 7")
		if x.works != (err == nil && v == "7") || !x.works && !strings.Contains(err.Error(), "without TLS") {
			t.Errorf("%+v: %q, %v", x, v, err)
		}
		if why := told.refusal(!x.works); (why == "") != x.works {
			t.Errorf("%+v: counted as refused: %q", x, why)
		}
	}
}
