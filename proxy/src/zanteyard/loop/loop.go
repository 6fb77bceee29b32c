// Package loop waits for many sockets with few threads, and calls a function of each socket that has something to read.
// Go's usual way, a goroutine waiting for each, takes two more system calls for each message, and often a sleeping
// thread has to be woken for it, which takes longer than passing the message on.
//
// A function that a loop calls must not wait: it reads and writes by TryRead and TryWrite. Whatever has to wait is done
// by a goroutine in the meantime, with Read and Write.
package loop

import (
	"fmt"
	"net"
	"sync"
	"sync/atomic"
	"syscall"
	"time"
	"unsafe"

	"zanteyard/guard"
)

// Loops are the threads. There is one until Share asks for more.
type Loops struct {
	last    atomic.Uint64 // number that was last given to a socket
	shares  atomic.Pointer[[]*loop]
	hastily atomic.Bool

	lock sync.Mutex // of Share
	all  []*loop
}

// New starts one loop.
func New() (*Loops, error) {
	l := &Loops{}
	return l, l.Share(1)
}

// Share makes n loops share the connections. If a loop has too many of them, it hands some on when it next has
// something to do.
func (l *Loops) Share(n int) error {
	l.lock.Lock()
	defer l.lock.Unlock()
	for len(l.all) < n {
		one, err := start(l)
		if err != nil {
			return err
		}
		l.all = append(l.all, one)
	}
	shares := l.all[:n:n]
	l.shares.Store(&shares)
	return nil
}

// Busy returns how long the loops haven't been waiting, in total. If others want the machine's processors, that is more
// than the processor time that they took.
func (l *Loops) Busy() (sum time.Duration) {
	l.lock.Lock()
	defer l.lock.Unlock()
	for _, one := range l.all {
		sum += time.Duration(one.busy.Load())
	}
	return sum
}

// of returns the loop of the connections with this number.
func of(shares []*loop, pair uint64) *loop { return shares[pair%uint64(len(shares))] }

// Take takes the sockets of a client's connection and of its server's out of Go's hands, and closes the originals. It
// leaves both as they are if one isn't a plain socket, or if there is no room for them.
func (l *Loops) Take(client, server net.Conn) (*Conn, *Conn, bool) {
	pair := l.last.Add(1)
	its := of(*l.shares.Load(), pair)
	near := newConn(client, its, 2*pair)
	if near == nil {
		return nil, nil, false
	}
	far := newConn(server, its, 2*pair+1)
	if far == nil {
		near.abandon()
		return nil, nil, false
	}
	client.Close()
	server.Close()
	return near, far, true
}

// loop is one thread that waits for its sockets.
type loop struct {
	loops  *Loops
	epoll  int
	busy   atomic.Int64
	events [atOnce]syscall.EpollEvent // the events of the last wait

	lock  sync.Mutex
	conns map[uint64]*Conn
}

// atOnce is how many sockets are handled between two waits.
const atOnce = 128

func start(l *Loops) (*loop, error) {
	epoll, err := syscall.EpollCreate1(syscall.EPOLL_CLOEXEC)
	if err != nil {
		return nil, fmt.Errorf("epoll: %w", err)
	}
	one := &loop{loops: l, epoll: epoll, conns: map[uint64]*Conn{}}
	go func() {
		for { // a panic in what it calls must not leave its other connections without a loop
			guard.Do("a loop", func(error) {}, one.run)
		}
	}()
	return one, nil
}

func (l *loop) run() {
	shares := l.loops.shares.Load()
	start := time.Now()
	for woken := time.Duration(0); ; {
		l.busy.Add(int64(time.Since(start) - woken))
		n := l.wait()
		woken = time.Since(start)
		for i := range l.events[:n] {
			if c := l.find(numberOf(&l.events[i])); c != nil {
				c.happened(l.events[i].Events)
			}
		}
		if now := l.loops.shares.Load(); now != shares {
			shares = now
			l.share(*shares)
		}
	}
}

// shortly is how many milliseconds a thread waits without Go's knowledge.
const shortly = 1

// Hastily sets whether a thread first waits without Go's knowledge. If a thread waits in a call that Go knows of, Go's
// monitor makes it give up its processor, then checks every 20 us whether there are others like it, and the thread has
// to get a processor again when it goes on: between two messages that takes longer than passing one on. A thread that
// waits without Go's knowledge keeps its processor, so there have to be more processors (GOMAXPROCS) than loops. If Go
// has to stop it, it does so by a signal, which ends the wait.
func (l *Loops) Hastily(is bool) { l.hastily.Store(is) }

// wait waits for something to happen to the sockets, and returns to how many. It returns 0 if Go has to stop the
// thread.
func (l *loop) wait() int {
	if l.loops.hastily.Load() {
		n, _, errno := syscall.RawSyscall6(syscall.SYS_EPOLL_PWAIT, uintptr(l.epoll),
			uintptr(unsafe.Pointer(&l.events[0])), atOnce, shortly, 0, 0)
		if errno != 0 {
			return 0
		}
		if n > 0 {
			return int(n)
		}
	}
	n, _, errno := syscall.Syscall6(syscall.SYS_EPOLL_PWAIT, uintptr(l.epoll),
		uintptr(unsafe.Pointer(&l.events[0])), atOnce, ^uintptr(0), 0, 0)
	if errno != 0 {
		return 0
	}
	return int(n)
}

// share hands on the sockets that other loops will wait for. Called when all events of the loop have been handled, so
// two loops never call functions of one socket at the same time.
func (l *loop) share(shares []*loop) {
	l.lock.Lock()
	var gone []*Conn
	for number, c := range l.conns {
		if of(shares, number/2) != l {
			gone = append(gone, c)
		}
	}
	l.lock.Unlock()
	for _, c := range gone {
		c.move(of(shares, c.number/2))
	}
}

// A socket's number takes the place of its descriptor: it is never used again, so an event of a closed socket isn't
// taken for another one's.
func numberOf(e *syscall.EpollEvent) uint64 { return uint64(uint32(e.Fd)) | uint64(uint32(e.Pad))<<32 }

func (l *loop) find(number uint64) *Conn {
	l.lock.Lock()
	c := l.conns[number]
	l.lock.Unlock()
	return c
}

func (l *loop) enter(c *Conn) {
	l.lock.Lock()
	defer l.lock.Unlock()
	l.conns[c.number] = c
}

func (l *loop) leave(c *Conn) {
	l.lock.Lock()
	defer l.lock.Unlock()
	delete(l.conns, c.number)
}

// control changes the events that are waited for on a socket.
func (l *loop) control(c *Conn, from, to uint32) error {
	e := syscall.EpollEvent{Events: to, Fd: int32(uint32(c.number)), Pad: int32(uint32(c.number >> 32))}
	what := syscall.EPOLL_CTL_MOD
	switch {
	case from == 0:
		what = syscall.EPOLL_CTL_ADD
	case to == 0:
		what = syscall.EPOLL_CTL_DEL // otherwise it would still report errors
	}
	return syscall.EpollCtl(l.epoll, what, c.fd, &e)
}
