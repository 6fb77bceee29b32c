package main

import (
	"context"
	"errors"
	"fmt"
	"os"
	"testing"

	"github.com/jackc/pgconn"

	"zanteyard/cluster"
)

// TestNeedsTLS: a server whose rules accept TLS alone is known by them, if the role may read them.
func TestNeedsTLS(t *testing.T) {
	for _, x := range []struct {
		rule  string
		needs bool
	}{{"hostssl all all all scram-sha-256", true}, {"host all all all scram-sha-256", false}} {
		c, err := cluster.Start(nil, nil)
		if errors.Is(err, cluster.ErrMissing) {
			t.Skip(err)
		}
		if err != nil {
			t.Fatal(err)
		}
		t.Cleanup(c.Stop)
		conn, err := c.Connect(context.Background())
		if err != nil {
			t.Fatal(err)
		}
		defer conn.Close(context.Background())
		sql(t, conn, "CREATE ROLE little LOGIN")
		sql(t, conn, "ALTER SYSTEM SET ssl = on")
		file, key := writeCertificate(t, t.TempDir(), 1)
		for name, from := range map[string]string{"server.crt": file, "server.key": key} {
			content, err := os.ReadFile(from)
			if err != nil {
				t.Fatal(err)
			}
			if err := c.Write(name, content); err != nil {
				t.Fatal(err)
			}
		}
		if err := c.Write("pg_hba.conf", []byte("local all all trust\n"+x.rule+"\n")); err != nil {
			t.Fatal(err)
		}
		if err := c.Restart(true); err != nil {
			t.Fatal(err)
		}
		for user, may := range map[string]bool{"postgres": true, "little": false} {
			config, err := pgconn.ParseConfig(c.DSN(user, "postgres"))
			if err != nil {
				t.Fatal(err)
			}
			if its := needsTLS(context.Background(), config); its != (may && x.needs) {
				t.Errorf("%s, as %s: %v", x.rule, user, its)
			}
		}
		said := ""
		config, _ := pgconn.ParseConfig(c.DSN("postgres", "postgres"))
		warnOfTLS(context.Background(), flags{certificate: "x"}, config, func(text string) { said += text })
		warnOfTLS(context.Background(), flags{certificate: "x", secure: true}, config, func(text string) { said += fmt.Sprint("wrong: ", text) })
		if (said != "") != x.needs {
			t.Errorf("%s: %q", x.rule, said)
		}
	}
}
