package main

import (
	"context"
	"os"
	"os/signal"
	"syscall"
)

// signals are what a person or a service manager wants of the program while it runs.
type signals struct {
	drain  func() // accept no more connections, and end when the existing ones have no transaction open
	end    func() // end at once
	reload func() // read the certificate anew
}

// follow does what arriving signals mean, until ctx ends.
func (s signals) follow(ctx context.Context, arriving <-chan os.Signal) {
	for drains := false; ; {
		select {
		case it := <-arriving:
			switch {
			case it == syscall.SIGHUP:
				s.reload()
			case drains:
				s.end()
			default:
				drains = true
				s.drain()
			}
		case <-ctx.Done():
			return
		}
	}
}

// listenForSignals makes the signals that end a program, and SIGHUP, arrive at the channel. A write to a reader that is
// gone fails, and doesn't end the program: traffic goes on after the program that started the proxy was killed.
func listenForSignals() <-chan os.Signal {
	signal.Ignore(syscall.SIGPIPE)
	arriving := make(chan os.Signal, 4)
	signal.Notify(arriving, syscall.SIGTERM, syscall.SIGHUP)
	if !signal.Ignored(syscall.SIGINT) { // as a shell's script wants it of what it starts in the background
		signal.Notify(arriving, syscall.SIGINT)
	}
	return arriving
}
