package main

import (
	"bufio"
	"context"
	"encoding/json"
	"errors"
	"fmt"
	"io"
	"log"
	"net"
	"os"
	"path/filepath"
	"strings"
	"sync"
	"syscall"
	"time"

	"zanteyard/guard"
)

// control is a Unix socket by which other programs of the same user reach a running proxy. Each says in one line what it
// wants:
//
//	{"command": "attach", "log": true}   become the proxy's parent, as if by its standard input and output: an audit
//	                                     begins, and ends with the connection. With "log" it gets the log as well
//	{"command": "who"}                   get the answer to that, and nothing more
//	{"command": "hand over"}             get the listening socket; the proxy then drains
//
// So an audit that was killed leaves a proxy to which the next one attaches, with its connections; and a new version
// takes the place of an old one without refusing a client.
type control struct {
	path     string
	listener *net.UnixListener
	words    *words
	parents  chan *parent
	// handOver returns a duplicate of the listening socket, and makes the proxy drain when done is called.
	handOver func() (file *os.File, done func(), err error)
	audits   bool // this proxy audits, so it can have a parent

	lock   sync.Mutex
	parent *parent
}

// parent is an attached program.
type parent struct {
	net.Conn
	in      *bufio.Reader
	process int
	lines   chan string // of the log
}

// Read implements io.Reader: what was read together with the first line comes first.
func (p *parent) Read(to []byte) (int, error) { return p.in.Read(to) }

const (
	asking    = 5 * time.Second // for another program to say what it wants
	mostAsked = 1 << 12         // bytes of that
)

var errServes = errors.New("another proxy serves there")

// newControl makes the socket. A socket that a dead proxy has left is replaced.
func newControl(path string, its *words) (*control, error) {
	if err := safeFolder(filepath.Dir(path)); err != nil {
		return nil, fmt.Errorf("--control: %w", err)
	}
	if other, err := net.Dial("unix", path); err == nil {
		other.Close()
		return nil, fmt.Errorf("--control %s: %w", path, errServes)
	} else if errors.Is(err, syscall.ECONNREFUSED) {
		os.Remove(path)
	}
	listener, err := net.ListenUnix("unix", &net.UnixAddr{Name: path, Net: "unix"})
	if err != nil {
		return nil, fmt.Errorf("--control: %w", err)
	}
	return &control{path: path, listener: listener, words: its, parents: make(chan *parent)}, nil
}

// safeFolder reports an error unless nobody else can put a socket into a folder.
func safeFolder(path string) error {
	state, err := os.Stat(path)
	if err != nil {
		return err
	}
	its, is := state.Sys().(*syscall.Stat_t)
	if !is || !state.IsDir() || int(its.Uid) != os.Getuid() || state.Mode().Perm()&0o022 != 0 {
		return fmt.Errorf("the folder %s must belong to this user, and nobody else may write to it", path)
	}
	return nil
}

// run serves other programs until ctx ends.
func (c *control) run(ctx context.Context) {
	go func() {
		<-ctx.Done()
		c.listener.Close()
	}()
	for {
		its, err := c.listener.AcceptUnix()
		if err != nil {
			return
		}
		guard.Go("the control socket", func(err error) { log.Print(err, ": ", guard.Stack(err)) }, func() { c.serve(ctx, its) })
	}
}

func (c *control) serve(ctx context.Context, its *net.UnixConn) {
	process, err := sameUser(its)
	if err != nil {
		refuse(its, err.Error())
		return
	}
	its.SetReadDeadline(time.Now().Add(asking))
	in := bufio.NewReaderSize(its, mostAsked)
	line, err := in.ReadSlice('\n')
	var asked struct {
		Command string
		Log     bool
	}
	if err != nil || json.Unmarshal(line, &asked) != nil {
		refuse(its, "it didn't say what it wants")
		return
	}
	its.SetReadDeadline(time.Time{})
	switch asked.Command {
	case "attach":
		c.attach(ctx, &parent{Conn: its, in: in, process: process}, asked.Log)
	case "who":
		its.SetWriteDeadline(time.Now().Add(asking))
		its.Write(c.self("proxy"))
		its.Close()
	case "hand over":
		c.give(its)
	default:
		refuse(its, "an unknown command")
	}
}

// sameUser returns the process at the other end, which must be this user's or root's.
func sameUser(its *net.UnixConn) (process int, err error) {
	raw, err := its.SyscallConn()
	if err != nil {
		return 0, err
	}
	var peer *syscall.Ucred
	if wrong := raw.Control(func(fd uintptr) {
		peer, err = syscall.GetsockoptUcred(int(fd), syscall.SOL_SOCKET, syscall.SO_PEERCRED)
	}); wrong != nil {
		return 0, wrong
	}
	if err != nil {
		return 0, err
	}
	if int(peer.Uid) != os.Getuid() && peer.Uid != 0 {
		return 0, fmt.Errorf("it runs as another user (%d)", peer.Uid)
	}
	return int(peer.Pid), nil
}

// fingerprintName is the environment variable by which whoever starts the proxy recognizes it later: it stands for the
// options and the environment that the proxy was started with.
const fingerprintName = "ZANTEYARD_FINGERPRINT"

// self says who this proxy is.
func (c *control) self(event string) []byte {
	parent := 0
	c.lock.Lock()
	if c.parent != nil {
		parent = c.parent.process
	}
	c.lock.Unlock()
	text, _ := json.Marshal(struct {
		Event       string `json:"event"`
		Process     int    `json:"process"`
		Build       string `json:"build"`
		Fingerprint string `json:"fingerprint"`
		Parent      int    `json:"parent"`
	}{event, os.Getpid(), build, os.Getenv(fingerprintName), parent})
	return append(text, '\n')
}

func refuse(its net.Conn, reason string) {
	defer its.Close()
	text, _ := json.Marshal(map[string]string{"event": "refused", "reason": reason})
	its.SetWriteDeadline(time.Now().Add(asking))
	its.Write(append(text, '\n'))
}

// attach makes a program the parent, if there is none.
func (c *control) attach(ctx context.Context, p *parent, wantsLog bool) {
	if !c.audits {
		refuse(p.Conn, "this proxy runs no audit of its own")
		return
	}
	c.lock.Lock()
	if other := c.parent; other != nil {
		c.lock.Unlock()
		refuse(p.Conn, fmt.Sprintf("process %d audits through this proxy", other.process))
		return
	}
	c.parent = p
	c.lock.Unlock()
	if _, err := p.Write(c.self("attached")); err != nil {
		c.detach(p)
		return
	}
	if wantsLog {
		p.hear(c.words)
	}
	select {
	case c.parents <- p:
	case <-ctx.Done():
		c.detach(p)
	}
}

// detach must be called when an attached program has gone.
func (c *control) detach(p *parent) {
	p.Close()
	c.lock.Lock()
	defer c.lock.Unlock()
	c.parent = nil
	c.words.tell(nil)
	if p.lines != nil {
		close(p.lines)
	}
}

// hear makes the parent get the log, beginning with what nobody may have read.
func (p *parent) hear(its *words) {
	p.lines = make(chan string, mostWords)
	earlier := its.tell(func(line string) {
		select {
		case p.lines <- line:
		default: // it doesn't read
		}
	})
	go func() {
		for _, line := range earlier {
			p.logged(line)
		}
		for line := range p.lines {
			p.logged(line)
		}
	}()
}

func (p *parent) logged(line string) {
	text, _ := json.Marshal(map[string]string{"event": "logged", "text": line})
	p.Write(append(text, '\n'))
}

// give hands the listening socket over.
func (c *control) give(its *net.UnixConn) {
	if c.handOver == nil {
		refuse(its, "this proxy can't be replaced")
		return
	}
	file, done, err := c.handOver()
	if err != nil {
		refuse(its, err.Error())
		return
	}
	defer file.Close()
	c.listener.Close() // this removes the path, so that the other proxy can have it
	its.SetWriteDeadline(time.Now().Add(asking))
	_, _, err = its.WriteMsgUnix([]byte("{\"event\":\"handed over\"}\n"), syscall.UnixRights(int(file.Fd())), nil)
	its.Close()
	if err != nil {
		log.Print("the proxy that wanted to take over didn't take the listening socket: " + err.Error())
	}
	c.lock.Lock()
	if p := c.parent; p != nil {
		go p.Write([]byte("{\"event\":\"replaced\"}\n")) // it may not read
	}
	c.lock.Unlock()
	log.Print("another proxy has taken over")
	done()
}

// takeOver asks the proxy with a control socket for its listening socket. It returns nil if none is there.
func takeOver(path string) (net.Listener, error) {
	if err := safeFolder(filepath.Dir(path)); err != nil {
		return nil, fmt.Errorf("--control: %w", err)
	}
	other, err := net.DialUnix("unix", nil, &net.UnixAddr{Name: path, Net: "unix"})
	if err != nil {
		return nil, nil
	}
	defer other.Close()
	other.SetDeadline(time.Now().Add(asking))
	if _, err := io.WriteString(other, "{\"command\":\"hand over\"}\n"); err != nil {
		return nil, fmt.Errorf("--take-over: %w", err)
	}
	text, rights := make([]byte, mostAsked), make([]byte, syscall.CmsgSpace(4))
	n, m, _, _, err := other.ReadMsgUnix(text, rights)
	if err != nil {
		return nil, fmt.Errorf("--take-over: %w", err)
	}
	messages, err := syscall.ParseSocketControlMessage(rights[:m])
	if err != nil || len(messages) != 1 {
		return nil, fmt.Errorf("--take-over: the other proxy said %s", strings.TrimSpace(string(text[:n])))
	}
	those, err := syscall.ParseUnixRights(&messages[0])
	if err != nil || len(those) != 1 {
		return nil, fmt.Errorf("--take-over: %w", err)
	}
	file := os.NewFile(uintptr(those[0]), "the listening socket")
	defer file.Close()
	listener, err := net.FileListener(file)
	if err != nil {
		return nil, fmt.Errorf("--take-over: %w", err)
	}
	if its, is := listener.(*net.UnixListener); is {
		its.SetUnlinkOnClose(true)
	}
	return listener, nil
}

// file returns a duplicate of a listening socket.
func file(of net.Listener) (*os.File, error) {
	switch its := of.(type) {
	case *net.TCPListener:
		return its.File()
	case *net.UnixListener:
		its.SetUnlinkOnClose(false)
		return its.File()
	}
	return nil, errors.New("this proxy can't hand its listening socket over")
}
