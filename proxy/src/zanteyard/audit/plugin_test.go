package audit

import (
	"context"
	"testing"

	"zanteyard/cluster"
	"zanteyard/slot"
)

// A server whose list of allowed plugins lacks wal2json, as it does by default: the plugin that PostgreSQL ships is
// used, and a caller that asks for the other one is told why it can't be used.
func TestPluginThatMayNotBeUsed(t *testing.T) {
	s := startServer(t)
	conn := s.connect(t)
	name := cluster.Plugins
	if must(t, conn, "SELECT count(*) FROM pg_settings WHERE name = '"+name+"'")[0][0] == "0" {
		t.Skip("the server has no such list")
	}
	must(t, conn, "ALTER SYSTEM SET "+name+" = pgoutput, test_decoding")
	must(t, conn, "SELECT pg_reload_conf()")
	for must(t, s.connect(t), "SHOW "+name)[0][0] != "pgoutput, test_decoding" {
	}
	ctx, cancel := context.WithCancel(context.Background())
	defer cancel()
	options := slot.Options{Source: s.source(), Name: "plugins", Canonical: canonical}
	control, tables, err := slot.NewControl(ctx, options)
	if err != nil {
		t.Fatal(err)
	}
	defer control.Close(ctx)
	reader, err := slot.Open(ctx, options, tables)
	if err != nil {
		t.Fatal(err)
	}
	if plugin := reader.Plugin(); plugin != slot.TestDecoding {
		t.Errorf("the slot has the plugin %s", plugin)
	}
	options.Name, options.Plugin = "other", slot.Wal2json
	if _, err := slot.Open(ctx, options, tables); err == nil {
		t.Error("a plugin that may not be used is used")
	}
}
