// A relay that delays what passes through it: so a server on this machine is as far away as one elsewhere.
//
//	delay LISTEN SERVER DELAY    for instance: delay 127.0.0.1:7000 127.0.0.1:5432 500us
//
// What arrives is passed on DELAY later, in each direction, in order, so a round trip takes twice that.
package main

import (
	"fmt"
	"io"
	"net"
	"os"
	"syscall"
	"time"
)

// part is what arrived at once, and when it is due.
type part struct {
	due   time.Time
	bytes []byte
}

func pass(from, to net.Conn, delay time.Duration) {
	parts := make(chan part, 4096)
	go func() {
		defer close(parts)
		for {
			b := make([]byte, 16<<10)
			n, err := from.Read(b)
			if n > 0 {
				parts <- part{time.Now().Add(delay), b[:n]}
			}
			if err != nil {
				return
			}
		}
	}()
	for p := range parts {
		// The system's own sleep: Go's timers may be a millisecond late while nothing else runs.
		if wait := time.Until(p.due); wait > 0 {
			its := syscall.NsecToTimespec(int64(wait))
			syscall.Nanosleep(&its, nil)
		}
		if _, err := to.Write(p.bytes); err != nil {
			break
		}
	}
	if half, ok := to.(interface{ CloseWrite() error }); ok {
		half.CloseWrite()
	}
	io.Copy(io.Discard, from)
}

func main() {
	if len(os.Args) != 4 {
		fmt.Fprintln(os.Stderr, "usage: delay LISTEN SERVER DELAY")
		os.Exit(2)
	}
	delay, err := time.ParseDuration(os.Args[3])
	if err == nil {
		var l net.Listener
		if l, err = net.Listen("tcp", os.Args[1]); err == nil {
			for {
				client, err := l.Accept()
				if err != nil {
					break
				}
				go func() {
					defer client.Close()
					server, err := net.Dial("tcp", os.Args[2])
					if err != nil {
						return
					}
					defer server.Close()
					ended := make(chan bool, 1)
					go func() { pass(server, client, delay); ended <- true }()
					pass(client, server, delay)
					<-ended
				}()
			}
		}
	}
	fmt.Fprintln(os.Stderr, err)
	os.Exit(1)
}
