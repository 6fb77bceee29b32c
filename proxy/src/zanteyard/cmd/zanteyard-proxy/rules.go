package main

import (
	"context"
	"time"

	"github.com/jackc/pgconn"

	"zanteyard/own"
)

// rulesSQL counts the server's rules that let clients in with TLS alone, and the others. A superuser may read them.
var rulesSQL = own.SQL("SELECT pg_catalog.count(*) FILTER (WHERE type = 'hostssl'), " +
	"pg_catalog.count(*) FILTER (WHERE type IN ('host', 'hostnossl', 'hostgssenc', 'hostnogssenc')) " +
	"FROM pg_catalog.pg_hba_file_rules WHERE auth_method <> 'reject' AND error IS NULL")

// needsTLS reports whether the server lets clients of other machines in with TLS alone, as far as the role may know.
func needsTLS(ctx context.Context, config *pgconn.Config) bool {
	ctx, cancel := context.WithTimeout(ctx, 30*time.Second)
	defer cancel()
	conn, err := own.Connect(ctx, config, nil)
	if err != nil {
		return false
	}
	defer conn.Close(ctx)
	rows, err := own.Ask(ctx, conn, rulesSQL)
	return err == nil && len(rows) == 1 && rows[0][0] != "0" && rows[0][1] == "0"
}

// warnOfTLS says that clients may come to the proxy in the clear where the server wouldn't let them.
func warnOfTLS(ctx context.Context, f flags, config *pgconn.Config, log func(string)) {
	if f.certificate != "" && !f.secure && !f.passing && needsTLS(ctx, config) {
		log("warning: the server's rules accept TLS alone (hostssl), but this proxy also accepts clients without it: " +
			"start it with --require-tls")
	}
}
