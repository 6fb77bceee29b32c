package slot

import (
	"errors"
	"testing"

	"zanteyard/cluster"
)

// newServer starts a server, which ends with the test. If none is installed, the test is skipped.
func newServer(t *testing.T) *cluster.Cluster {
	t.Helper()
	c, err := cluster.Start(nil, nil)
	if errors.Is(err, cluster.ErrMissing) {
		t.Skip(err)
	}
	if err != nil {
		t.Fatal(err)
	}
	t.Cleanup(func() { c.Stop() })
	return c
}
