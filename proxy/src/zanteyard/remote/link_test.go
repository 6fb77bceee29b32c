package remote

import (
	"context"
	"errors"
	"os/exec"
	"path/filepath"
	"strings"
	"testing"
	"time"
)

// TestLink checks a link against a real Redis.
func TestLink(t *testing.T) {
	program, err := exec.LookPath("redis-server")
	if err != nil {
		t.Skip("redis-server isn't installed")
	}
	socket := filepath.Join(t.TempDir(), "s")
	process := exec.Command(program, "--port", "0", "--unixsocket", socket, "--save", "")
	if err := process.Start(); err != nil {
		t.Fatal(err)
	}
	t.Cleanup(func() {
		process.Process.Kill()
		process.Wait()
	})
	l := &link{url: "unix://" + socket + "?db=3"}
	t.Cleanup(l.close)
	// again repeats f on a machine that is so busy that Redis doesn't answer in time.
	again := func(f func() error) {
		t.Helper()
		for end := time.Now().Add(5 * time.Minute); ; time.Sleep(10 * time.Millisecond) {
			if err := f(); err == nil {
				return
			} else if time.Now().After(end) {
				t.Fatal(err)
			}
		}
	}
	must := func(words ...any) {
		t.Helper()
		again(func() error {
			_, err := l.do(0, words[0].(string), words[1:]...)
			if err != nil && strings.Contains(err.Error(), "equal or smaller") {
				return nil // it was added before, and the answer came too late
			}
			return err
		})
	}
	var its []entry
	read := func(after string) {
		t.Helper()
		again(func() error {
			its, err = l.read("s", after)
			return err
		})
	}
	begunAnew := func(stream, after string) (anew bool) {
		t.Helper()
		again(func() error {
			anew, err = l.begunAnew(stream, after)
			return err
		})
		return anew
	}
	must("PING")
	must("DEL", "s")
	must("XADD", "s", "5-1", "m", "text\x00\xff", "s", "by whom")
	must("XADD", "s", "5-2", "other", "fields")
	read("0-0")
	if len(its) != 2 || its[0].id != "5-1" || string(its[0].text) != "text\x00\xff" || string(its[0].signature) != "by whom" ||
		its[1].text != nil {
		t.Errorf("%+v is read", its)
	}
	if read("5-2"); its != nil {
		t.Errorf("%+v is read, and there is nothing", its)
	}
	for after, want := range map[string]bool{"5-1": false, "5-2": false, "5-3": true, "6-0": true, "4-9": false} {
		if anew := begunAnew("s", after); anew != want {
			t.Errorf("it has begun anew since %s: %v", after, anew)
		}
	}
	if begunAnew("t", "5-1") {
		t.Error("a stream that isn't there has begun anew")
	}
	must("XTRIM", "s", "MINID", behind("5-1"))
	if read("0-0"); len(its) != 1 || its[0].id != "5-2" {
		t.Errorf("after it was trimmed, %+v is read", its)
	}

	first, second := newTestHub(t, newHeard()), newTestHub(t, newHeard())
	claims := func(h *Hub) (is bool) {
		again(func() error {
			h.down = ""
			if is = h.claim(context.Background(), l); h.down != "" {
				return errors.New(h.down)
			}
			return nil
		})
		return is
	}
	must("SET", first.options.owner(), first.run) // without expiry, however busy the machine is
	if claims(second) || second.owns {
		t.Error("two watches have one name")
	}
	must("DEL", first.options.owner())
	if !claims(second) {
		t.Error("a name that is free isn't had")
	}
	must("SET", first.options.owner(), second.run)
	if claims(first) || !claims(second) {
		t.Error("a watch doesn't know its own name")
	}
	l.close()
	l.url = "unix://" + socket + "2"
	if !second.claim(context.Background(), l) || second.down == "" {
		t.Error("while Redis is away a watch gives up its name")
	}
}
