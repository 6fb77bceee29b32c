package main

import (
	"bytes"
	"errors"
	"log"
	"os"
	"os/exec"
	"strings"
	"testing"
	"unicode"
)

const evil = "x\x1b[2J\r\nline 9: serial, FORGED\x0b\u0085\u2028\u202eevil\u2066\u009b31m\u200b\x7f\xff"

func TestShown(t *testing.T) {
	for _, x := range []struct{ text, wanted string }{
		{"größe 表 a", "größe 表 a"}, {"  a  b ", "  a  b "}, {"a\u00a0b", "a b"}, {"\x1b[2J", `\x1b[2J`},
		{"a\r\nb\tc", `a\x0d\x0ab\x09c`}, {"\u0085\u202e\U000e0001", `\x85\u202e\U000e0001`}, {"a\xffb\ufffd", `a\xffb` + "\ufffd"},
	} {
		if got := shown(x.text); got != x.wanted {
			t.Errorf("%q: %q, not %q", x.text, got, x.wanted)
		}
	}
	for r := rune(0); r <= unicode.MaxRune; r++ {
		if strings.IndexFunc(shown(string(r)), func(r rune) bool { return !unicode.IsPrint(r) }) >= 0 {
			t.Fatalf("%U: %q", r, shown(string(r)))
		}
	}
}

// seen fails unless text consists of lines in which everything is visible, none of them forged.
func seen(t *testing.T, text string) {
	t.Helper()
	for _, line := range strings.Split(text, "\n") {
		if strings.HasPrefix(line, "line 9") || strings.IndexFunc(line, func(r rune) bool { return !unicode.IsPrint(r) && r != '\t' }) >= 0 {
			t.Errorf("%q", line)
		}
	}
	if !strings.Contains(text, "FORGED") {
		t.Errorf("it isn't there: %q", text)
	}
}

func TestLogIsShown(t *testing.T) {
	var out bytes.Buffer
	l := log.New(shownLog{&out}, "proxy: ", 0)
	l.Print("a client: " + evil)
	l.Printf("%v", errors.New(evil))
	seen(t, out.String())
	if n := strings.Count(out.String(), "\n"); n != 2 {
		t.Errorf("%d lines: %q", n, out.String())
	}
}

// With these words in its environment, the test is the program itself.
func TestProgramShowsItsWords(t *testing.T) {
	if words := os.Getenv("ZANTEYARD_WORDS"); words != "" {
		os.Args = append([]string{"zanteyard-proxy"}, strings.Split(words, "|")...)
		main()
		return
	}
	for _, words := range []string{
		"--" + evil, "--hold|" + evil, "--server|host=a|" + evil, "--server|host=a FORGED\x1b\u202e\x7f\xff=1", "--listen|/" + evil + "/x|--server|host=a",
		"--server|host=a|--tls-cert|" + evil, "--server|host=a|--records|/" + evil + "/x|--listen|127.0.0.1:0",
	} {
		c := exec.Command(os.Args[0], "-test.run=^TestProgramShowsItsWords$")
		c.Env = append(os.Environ(), "ZANTEYARD_WORDS="+words)
		var out bytes.Buffer
		c.Stdout, c.Stderr = &out, &out
		if err := c.Run(); err == nil {
			t.Errorf("%q: no mistake", words)
		}
		seen(t, out.String())
	}
}
