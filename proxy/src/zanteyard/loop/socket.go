package loop

import (
	"errors"
	"io"
	"net"
	"os"
	"sync/atomic"
	"syscall"
	"unsafe"
)

// ErrWait means that a socket has nothing to read now, or no room for what is to be written.
var ErrWait = errors.New("loop: it would have to wait")

// socket is the descriptor of a plain connection.
type socket struct {
	fd      int
	network string

	uses  atomic.Int64 // of the descriptor, which is closed when there are none
	ended atomic.Bool
}

// plain reports whether a connection is a plain socket.
func plain(c net.Conn) bool {
	switch c.(type) {
	case *net.TCPConn, *net.UnixConn:
		return true
	}
	return false
}

// duplicate duplicates a plain connection's descriptor.
func (c *socket) duplicate(from net.Conn) bool {
	its, is := from.(syscall.Conn)
	if !is || !plain(from) {
		return false
	}
	raw, err := its.SyscallConn()
	if err != nil {
		return false
	}
	fd, errno := uintptr(0), syscall.EBADF
	if raw.Control(func(its uintptr) {
		fd, _, errno = syscall.Syscall(syscall.SYS_FCNTL, its, syscall.F_DUPFD_CLOEXEC, 0)
	}) != nil || errno != 0 {
		return false
	}
	c.fd, c.network = int(fd), from.RemoteAddr().Network()
	c.uses.Store(1)
	return true
}

// use keeps the descriptor from being closed, so that its number doesn't become another one's in the meantime.
func (c *socket) use() bool {
	for {
		n := c.uses.Load()
		if n == 0 || c.ended.Load() {
			return false
		}
		if c.uses.CompareAndSwap(n, n+1) {
			return true
		}
	}
}

func (c *socket) unuse() {
	if c.uses.Add(-1) == 0 {
		syscall.Close(c.fd)
	}
}

// TryRead reads what is there. It doesn't wait: ErrWait means that there is nothing.
func (c *socket) TryRead(p []byte) (int, error) {
	if !c.use() {
		return 0, net.ErrClosed
	}
	defer c.unuse()
	for {
		n, _, errno := syscall.RawSyscall6(syscall.SYS_RECVFROM, uintptr(c.fd), uintptr(unsafe.Pointer(&p[0])), uintptr(len(p)),
			syscall.MSG_DONTWAIT, 0, 0)
		switch {
		case errno == syscall.EINTR:
		case errno == syscall.EAGAIN:
			return 0, ErrWait
		case errno != 0:
			return 0, c.failed("read", errno)
		case n == 0:
			return 0, io.EOF
		default:
			return int(n), nil
		}
	}
}

// TryWrite writes as much as there is room for. If that isn't everything, it returns ErrWait.
func (c *socket) TryWrite(p []byte) (int, error) {
	if !c.use() {
		return 0, net.ErrClosed
	}
	defer c.unuse()
	done := 0
	for done < len(p) {
		n, _, errno := syscall.RawSyscall6(syscall.SYS_SENDTO, uintptr(c.fd), uintptr(unsafe.Pointer(&p[done])), uintptr(len(p)-done),
			syscall.MSG_DONTWAIT|syscall.MSG_NOSIGNAL, 0, 0)
		switch {
		case errno == syscall.EINTR:
		case errno == syscall.EAGAIN:
			return done, ErrWait
		case errno != 0:
			return done, c.failed("write", errno)
		default:
			done += int(n)
		}
	}
	return done, nil
}

func (c *socket) failed(what string, errno syscall.Errno) error {
	if c.ended.Load() {
		return net.ErrClosed
	}
	return &net.OpError{Op: what, Net: c.network, Err: os.NewSyscallError(what, errno)}
}
