package slot

import (
	"context"
	"testing"
	"time"

	"zanteyard/own"
)

// TestStandstill: the server waits for the slot's reader for as long as everything may stand still, or longer if it is set
// to.
func TestStandstill(t *testing.T) {
	c := newServer(t)
	ctx, cancel := context.WithTimeout(context.Background(), 2*time.Minute)
	defer cancel()
	for _, x := range []struct{ set, waits string }{{"60s", "5min"}, {"1ms", "5min"}, {"5min", "5min"}, {"10min", "10min"}, {"0", "0"}} {
		options := Options{Source: c.DSN("postgres", "postgres"), Name: "standstill_" + x.waits + x.set, Settings: map[string]string{"wal_sender_timeout": x.set}}
		tables := newTables(nil)
		reader, err := Open(ctx, options, tables)
		if err != nil {
			t.Fatal(err)
		}
		waits, err := own.One(ctx, reader.conn, own.SQL("SELECT pg_catalog.current_setting('wal_sender_timeout')"))
		if waits != x.waits || err != nil {
			t.Errorf("set to %s the server waits for %s (%v)", x.set, waits, err)
		}
		reader.conn.Close(ctx)
	}
}
