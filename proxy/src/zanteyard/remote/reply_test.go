package remote

import (
	"bufio"
	"errors"
	"fmt"
	"net"
	"strings"
	"testing"
)

// TestReplies: what Redis says of a reply's size is believed only within bounds, in whatever pieces it arrives.
func TestReplies(t *testing.T) {
	nested := func(n int) string { return strings.Repeat("*1\r\n", n) + ":1\r\n" }
	for text, isRight := range map[string]bool{
		"+OK\r\n": true, "-ERR no\r\n": true, ":12\r\n": true, "$-1\r\n": true, "*-1\r\n": true, "*0\r\n": true, "$0\r\n\r\n": true,
		"$11\r\nx\r\n$9999999\r\n": true, "*2\r\n$1\r\nx\r\n*2\r\n*0\r\n$2\r\n*9\r\n+OK\r\n": true,
		nested(mostNested): true, nested(mostNested + 1): false, nested(1_000_000): false,
		"$1099511627776\r\n": false, "*1099511627776\r\n": false, "$99999999999999999999999999\r\n": false,
		"$67108864\r\n": false, "$60000000\r\n": true, "*5000000\r\n": false, "*4000000\r\n": true,
		"*2\r\n$40000000\r\n" + strings.Repeat("x", 40_000_000) + "\r\n$40000000\r\n": false,
		"$40000000\r\n" + strings.Repeat("x", 40_000_000) + "\r\n$40000000\r\n":       true, // another reply
		"+" + strings.Repeat("x", mostOfLine):                                         false, "*3\r\n*3000000\r\n" + strings.Repeat("*0\r\n", 3_000_000) + "*3000000\r\n": false,
	} {
		for _, piece := range []int{1, 7, 4096, len(text)} {
			if piece == 1 && len(text) > 1<<20 {
				continue
			}
			var r reply
			is := true
			for at := 0; at < len(text) && is; at += piece {
				end := at + piece
				if end > len(text) {
					end = len(text)
				}
				is = r.take([]byte(text[at:end]))
			}
			if is != isRight {
				t.Errorf("%.60q in pieces of %d: %v", text, piece, is)
			}
		}
	}
}

// TestRepliesThatAreTooLong: a Redis, or who is on the way to it, can't have a proxy run out of memory by what it says.
func TestRepliesThatAreTooLong(t *testing.T) {
	listener, err := net.Listen("tcp", "127.0.0.1:0")
	if err != nil {
		t.Fatal(err)
	}
	defer listener.Close()
	for _, text := range []string{"$1099511627776\r\n", "*1099511627776\r\n", strings.Repeat("*1\r\n", 1<<20)} {
		l := &link{url: fmt.Sprint("redis://", listener.Addr())}
		go func() {
			conn, err := listener.Accept()
			if err != nil {
				return
			}
			bufio.NewReader(conn).ReadString('\n')
			conn.Write([]byte(text))
		}()
		if its, err := l.read("s", "0-0"); !errors.Is(err, errReplyTooLong) || l.conn != nil {
			t.Errorf("%.20q is read as %v (%v)", text, its, err)
		}
	}
}
