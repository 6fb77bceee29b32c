package server

import (
	"context"
	"io"
	"net"
	"sync"
	"syscall"
	"time"
	"unsafe"
)

// The server decides how long a client may take to get in (authentication_timeout), and the kernel how long it takes to
// reach the server: a limit of the proxy's own would close clients that a busy server lets in. But a client that has left
// must not keep a place, for which one that wants in may wait.

// whileThere returns a context that ends once a client has been gone for a while. The function ends it, too.
func (s *Server) whileThere(ctx context.Context, client net.Conn) (context.Context, func()) {
	ctx, cancel := context.WithCancel(ctx)
	var lock sync.Mutex
	var timer *time.Timer
	look := func() {
		if hasLeft(client) {
			cancel()
			return
		}
		lock.Lock()
		defer lock.Unlock()
		if ctx.Err() == nil {
			timer.Reset(s.options.Patience)
		}
	}
	lock.Lock()
	defer lock.Unlock()
	timer = time.AfterFunc(s.options.Patience, look)
	return ctx, func() {
		cancel()
		lock.Lock()
		defer lock.Unlock()
		timer.Stop()
	}
}

// hasLeft reports whether a client sends nothing more, or its connection is broken.
func hasLeft(client net.Conn) bool {
	its, is := client.(syscall.Conn)
	if !is {
		return false
	}
	raw, err := its.SyscallConn()
	if err != nil {
		return true
	}
	const hangsUp = 0x2000 // POLLRDHUP; POLLERR and POLLHUP needn't be asked for
	asked := struct {
		fd              int32
		events, happens int16
	}{events: hangsUp}
	err = raw.Control(func(fd uintptr) {
		asked.fd = int32(fd)
		syscall.Syscall6(syscall.SYS_PPOLL, uintptr(unsafe.Pointer(&asked)), 1, uintptr(unsafe.Pointer(&syscall.Timespec{})),
			0, 0, 0)
	})
	return err != nil || asked.happens != 0
}

// closeAfter closes something when a context ends. Once the function that it returns has returned, it doesn't.
func closeAfter(ctx context.Context, its io.Closer) func() {
	over, ended := make(chan struct{}), make(chan struct{})
	go func() {
		defer close(ended)
		select {
		case <-ctx.Done():
			its.Close()
		case <-over:
		}
	}()
	return func() {
		close(over)
		<-ended
	}
}
