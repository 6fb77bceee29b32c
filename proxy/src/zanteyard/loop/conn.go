package loop

import (
	"net"
	"sync"
	"syscall"
)

// Conn is a plain socket that a loop waits for. It is read by one goroutine at a time; its other methods are safe for
// use by several.
type Conn struct {
	socket
	number uint64

	lock    sync.Mutex // guards everything below
	loop    *loop
	freed   bool
	asked   uint32 // the events that the loop waits for
	ready   func() // called when there is something to read
	readers chan struct{}
	writers chan struct{}
}

// newConn duplicates a plain connection's socket.
func newConn(from net.Conn, its *loop, number uint64) *Conn {
	c := &Conn{loop: its, number: number}
	if !c.duplicate(from) {
		return nil
	}
	its.enter(c)
	return c
}

// abandon releases the descriptor without ending the connection.
func (c *Conn) abandon() {
	c.lock.Lock()
	defer c.lock.Unlock()
	c.ended.Store(true)
	c.free()
}

// free is called with lock held.
func (c *Conn) free() {
	if c.freed {
		return
	}
	c.freed = true
	c.ready = nil
	c.update()
	c.loop.leave(c)
	c.unuse()
}

// move hands the socket to another loop. Called by its present one.
func (c *Conn) move(to *loop) {
	c.lock.Lock()
	defer c.lock.Unlock()
	if c.freed {
		return
	}
	if c.asked != 0 {
		c.loop.control(c, c.asked, 0)
	}
	c.loop.leave(c)
	c.loop = to
	to.enter(c)
	if c.asked != 0 && to.control(c, 0, c.asked) != nil {
		c.unwatched()
	}
}

// Serve makes the loop call f whenever there is something to read, until Leave. f must not wait.
func (c *Conn) Serve(f func()) {
	c.lock.Lock()
	defer c.lock.Unlock()
	c.ready = f
	c.update()
}

// Leave ends that. Must be called by what the loop calls.
func (c *Conn) Leave() {
	c.lock.Lock()
	defer c.lock.Unlock()
	c.ready = nil
	c.update()
}

// update makes the loop wait for the events that are wanted. Called with lock held.
func (c *Conn) update() {
	var want uint32
	if c.ready != nil || c.readers != nil {
		want |= syscall.EPOLLIN
	}
	if c.writers != nil {
		want |= syscall.EPOLLOUT
	}
	if want == c.asked {
		return
	}
	err := c.loop.control(c, c.asked, want)
	if c.asked = want; err != nil {
		c.unwatched()
	}
}

// unwatched ends a connection that the kernel has no room to watch: no loop will report its events.
func (c *Conn) unwatched() {
	c.asked = 0
	c.ended.Store(true)
	wake(&c.readers)
	wake(&c.writers)
	if ready := c.ready; ready != nil {
		c.ready = nil
		go ready()
	}
}

// happened handles the events that the loop got.
func (c *Conn) happened(events uint32) {
	const either = syscall.EPOLLHUP | syscall.EPOLLERR
	c.lock.Lock()
	ready := c.ready
	if events&(syscall.EPOLLOUT|either) != 0 {
		wake(&c.writers)
	}
	if events&(syscall.EPOLLIN|either) != 0 {
		wake(&c.readers)
	} else {
		ready = nil
	}
	c.update()
	c.lock.Unlock()
	if ready != nil {
		ready()
	}
}

func wake(those *chan struct{}) {
	if *those != nil {
		close(*those)
		*those = nil
	}
}

// wait waits until the loop says that the socket can be read, or written.
func (c *Conn) wait(those *chan struct{}) error {
	c.lock.Lock()
	if c.ended.Load() {
		c.lock.Unlock()
		return net.ErrClosed
	}
	if *those == nil {
		*those = make(chan struct{})
	}
	until := *those
	c.update()
	c.lock.Unlock()
	<-until
	return nil
}

// Read waits until there is something to read.
func (c *Conn) Read(p []byte) (int, error) {
	for {
		n, err := c.TryRead(p)
		if err != ErrWait {
			return n, err
		}
		if err := c.wait(&c.readers); err != nil {
			return 0, err
		}
	}
}

// Write waits until everything is written.
func (c *Conn) Write(p []byte) (int, error) {
	for done := 0; ; {
		n, err := c.TryWrite(p[done:])
		done += n
		if err != ErrWait {
			return done, err
		}
		if err := c.wait(&c.writers); err != nil {
			return done, err
		}
	}
}

// CloseWrite tells the other side that nothing more will be written.
func (c *Conn) CloseWrite() error {
	if !c.use() {
		return net.ErrClosed
	}
	defer c.unuse()
	return syscall.Shutdown(c.fd, syscall.SHUT_WR)
}

// Close ends the connection: everything that waits for it fails, and so does anything tried later. The descriptor stays
// until Free.
func (c *Conn) Close() error {
	if !c.use() {
		return net.ErrClosed
	}
	defer c.unuse()
	if c.ended.Swap(true) {
		return net.ErrClosed
	}
	syscall.Shutdown(c.fd, syscall.SHUT_RDWR) // the loop gets an event for that
	c.lock.Lock()
	defer c.lock.Unlock()
	wake(&c.readers)
	wake(&c.writers)
	c.update()
	return nil
}

// Free ends the connection, and releases its descriptor. Must be called when the loop calls nothing of it any more.
func (c *Conn) Free() {
	c.Close()
	c.lock.Lock()
	defer c.lock.Unlock()
	c.free()
}
