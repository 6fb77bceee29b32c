package remote

import (
	"context"
	"errors"
	"fmt"
	"strings"
	"testing"
	"time"

	"github.com/jackc/pgconn"

	"zanteyard/cluster"
	"zanteyard/own"
)

// TestMark: a connection sees the audit's lock only if it is to the same database of the same server.
func TestMark(t *testing.T) {
	c, err := cluster.Start(nil, nil)
	if errors.Is(err, cluster.ErrMissing) {
		t.Skip(err)
	}
	if err != nil {
		t.Fatal(err)
	}
	t.Cleanup(c.Stop)
	to := func(database, user string) *server {
		config, err := pgconn.ParseConfig(fmt.Sprintf("host=127.0.0.1 port=%d user=%s dbname=%s sslmode=disable", c.Port, user, database))
		if err != nil {
			t.Fatal(err)
		}
		its := &server{config: config}
		t.Cleanup(its.close)
		return its
	}
	ctx := context.Background()
	audit, same, other := to("postgres", "postgres"), to("postgres", "little"), to("template1", "postgres")
	if _, err := audit.ask(ctx, own.SQL("CREATE ROLE little LOGIN")); err != nil {
		t.Fatal(err)
	}
	mark, err := audit.setMark(ctx)
	if err != nil {
		t.Fatal(err)
	}
	for _, one := range []struct {
		name string
		from *server
		mark int64
		sees bool
	}{{"the same", same, mark, true}, {"another lock", same, mark + 1<<33, false}, {"another database", other, mark, false}} {
		if sees, err := one.from.sees(ctx, one.mark); err != nil || sees != one.sees {
			t.Errorf("%s: %v (%v)", one.name, sees, err)
		}
	}
	if who, err := same.identity(ctx); err != nil || who.database != "postgres" {
		t.Errorf("it is %+v (%v)", who, err)
	}
	h := newTestHub(t, newHeard())
	h.options.Server, h.mark = audit.config, 0
	keeper := &server{config: audit.config}
	t.Cleanup(keeper.close)
	for name, one := range map[string]*server{"": same, "another server": other} { // the server that the audit's log comes from
		h.Begins(one.sees)
		if err := h.keep(ctx, keeper); (name == "") != (err == nil) || err != nil && !strings.Contains(err.Error(), name) {
			t.Errorf("%q: %v", name, err)
		}
		if (name == "") != (h.mark != 0) {
			t.Errorf("%q: the mark is %d", name, h.mark)
		}
		if name == "" && h.keep(ctx, keeper) != nil {
			t.Error("the mark doesn't last")
		}
	}
	audit.close()
	for end := time.Now().Add(5 * time.Minute); ; time.Sleep(10 * time.Millisecond) {
		if sees, err := same.sees(ctx, mark); err == nil && !sees {
			break
		} else if time.Now().After(end) {
			t.Fatalf("the lock outlasts its connection (%v)", err)
		}
	}
}
