package slot

import (
	"context"
	"testing"
	"time"

	"zanteyard/own"
)

// TestSettingsReadAgain: a place says once that the server's settings were read again, and not because the connection is new.
func TestSettingsReadAgain(t *testing.T) {
	c := newServer(t)
	ctx, cancel := context.WithTimeout(context.Background(), time.Minute)
	defer cancel()
	control, _, err := NewControl(ctx, Options{Source: c.DSN("postgres", "postgres")})
	if err != nil {
		t.Fatal(err)
	}
	defer control.Close(ctx)
	reread := func() bool {
		t.Helper()
		place, err := control.Place(ctx)
		if err != nil {
			place, err = control.Place(ctx) // the connection was ended
		}
		if err != nil {
			t.Fatal(err)
		}
		return place.Reread
	}
	if reread() || reread() {
		t.Error("nothing was read again")
	}
	for i := 0; i < 2; i++ {
		if _, err := control.one(ctx, own.SQL("SELECT pg_catalog.pg_reload_conf()")); err != nil {
			t.Fatal(err)
		}
		for !reread() { // the server tells its processes by a signal
			time.Sleep(time.Millisecond)
		}
		if reread() {
			t.Error("that was told before")
		}
	}
	if _, err := control.one(ctx, own.SQL("SELECT pg_catalog.pg_terminate_backend(pg_catalog.pg_backend_pid())")); err == nil {
		t.Error("the connection wasn't ended")
	}
	if reread() {
		t.Error("the connection is new, and nothing was read again")
	}
}
