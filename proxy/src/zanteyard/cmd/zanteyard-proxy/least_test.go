package main

import (
	"fmt"
	"io"
	"strings"
	"testing"
)

// TestLeastRole: a role that may log in and replicate, and call one function, audits as a superuser does.
func TestLeastRole(t *testing.T) {
	c := start(t)
	conn := connectTo(t, c)
	for _, text := range []string{"CREATE ROLE zanteyard LOGIN REPLICATION", "REVOKE ALL ON SCHEMA public FROM PUBLIC",
		"CREATE EXTENSION pg_walinspect SCHEMA pg_catalog", "GRANT EXECUTE ON FUNCTION pg_get_wal_record_info(pg_lsn) TO zanteyard"} {
		sql(t, conn, text)
	}
	p := begin(t, c, "--server", fmt.Sprintf("host=127.0.0.1 port=%d user=zanteyard dbname=postgres sslmode=disable", c.Port))
	line := p.until("started")
	if strings.Contains(line, "wal2json") && !strings.Contains(line, `"subtransactions":"pg_walinspect"`) {
		t.Errorf("it may not look up subtransactions: %s", line)
	}
	p.seen(p.connect(), 5)
	if _, err := parse([]string{"--server", "x", "--require-tls"}, io.Discard); err == nil {
		t.Error("--require-tls without a certificate is accepted")
	}
}
