package guard

import (
	"errors"
	"strings"
	"testing"
)

func TestRun(t *testing.T) {
	plain := errors.New("plain")
	for _, x := range []struct {
		f     func() error
		text  string
		fault bool
	}{
		{func() error { return nil }, "", false},
		{func() error { return plain }, "plain", false},
		{func() error { panic("at the disco") }, "a fault of the proxy's, in a test: at the disco", true},
		{func() error { var m map[int]int; m[1] = 1; return nil }, "a fault of the proxy's, in a test: assignment to entry in nil map", true},
	} {
		err := Run("a test", x.f)
		text := ""
		if err != nil {
			text = err.Error()
		}
		if text != x.text || IsFault(err) != x.fault || strings.Contains(Stack(err), "guard_test.go") != x.fault {
			t.Errorf("%q, %v, %s", text, IsFault(err), Stack(err))
		}
	}
}

func TestGo(t *testing.T) {
	got := make(chan error)
	Go("a goroutine", func(err error) { got <- err }, func() { panic(1) })
	if err := <-got; err.Error() != "a fault of the proxy's, in a goroutine: 1" {
		t.Error(err)
	}
}
