// Package cluster starts a PostgreSQL server for tests and benchmarks, in a temporary folder. The server ends with the
// tests, even if they are killed.
package cluster

import (
	"context"
	"errors"
	"fmt"
	"net"
	"os"
	"os/exec"
	"os/user"
	"path/filepath"
	"runtime"
	"sort"
	"strconv"
	"strings"
	"syscall"
	"time"
)

// ErrMissing says that PostgreSQL's server isn't installed, or can't be run by this user.
var ErrMissing = errors.New("cluster: no PostgreSQL server is installed here")

// Cluster is a running server. It accepts connections on 127.0.0.1 and in its folder, from every user without a
// password.
type Cluster struct {
	Port int
	Dir  string

	bin   string
	cred  *syscall.Credential
	ended chan struct{} // closed when the server's process has ended
}

// Start creates and starts a cluster. It takes additional lines for postgresql.conf and pg_hba.conf.
func Start(settings, hba []string) (*Cluster, error) {
	bin, err := programs()
	if err != nil {
		return nil, err
	}
	c := &Cluster{bin: bin}
	if os.Getuid() == 0 {
		if c.cred, err = unprivileged(); err != nil {
			return nil, err
		}
	}
	if c.Dir, err = os.MkdirTemp("", "zanteyard-cluster"); err != nil {
		return nil, err
	}
	if err := c.start(settings, hba); err != nil {
		c.Stop()
		return nil, err
	}
	return c, nil
}

// programs is the folder of the newest installed server, or the one that ZANTEYARD_POSTGRES_BIN names.
func programs() (string, error) {
	if given := os.Getenv("ZANTEYARD_POSTGRES_BIN"); given != "" {
		return given, nil
	}
	found, _ := filepath.Glob("/usr/lib/postgresql/*/bin/initdb")
	if path, err := exec.LookPath("initdb"); err == nil && len(found) == 0 {
		found = []string{path}
	}
	if len(found) == 0 {
		return "", ErrMissing
	}
	sort.Slice(found, func(i, j int) bool { return release(found[i]) < release(found[j]) })
	return filepath.Dir(found[len(found)-1]), nil
}

// Program is the path of one of the server's programs.
func (c *Cluster) Program(name string) string { return filepath.Join(c.bin, name) }

func release(path string) int {
	n, _ := strconv.Atoi(filepath.Base(filepath.Dir(filepath.Dir(path))))
	return n
}

// unprivileged is a user as whom the server can run: it refuses root.
func unprivileged() (*syscall.Credential, error) {
	for _, name := range []string{"postgres", "nobody"} {
		u, err := user.Lookup(name)
		if err != nil {
			continue
		}
		uid, err1 := strconv.Atoi(u.Uid)
		gid, err2 := strconv.Atoi(u.Gid)
		if err1 == nil && err2 == nil {
			return &syscall.Credential{Uid: uint32(uid), Gid: uint32(gid)}, nil
		}
	}
	return nil, ErrMissing
}

func (c *Cluster) start(settings, hba []string) error {
	if c.cred != nil {
		if err := os.Chown(c.Dir, int(c.cred.Uid), int(c.cred.Gid)); err != nil {
			return err
		}
	}
	if err := c.run("initdb", "-D", c.data(), "-A", "trust", "-U", "postgres", "-E", "UTF8", "--locale=C.UTF-8",
		"--no-sync"); err != nil {
		return err
	}
	listener, err := net.Listen("tcp", "127.0.0.1:0")
	if err != nil {
		return err
	}
	c.Port = listener.Addr().(*net.TCPAddr).Port
	listener.Close()
	lines := append([]string{"listen_addresses='127.0.0.1'", "unix_socket_directories='" + c.Dir + "'",
		"port=" + strconv.Itoa(c.Port), "wal_level=logical", "fsync=off", "max_connections=100",
		"max_prepared_transactions=10", "shared_buffers=64MB", "max_wal_senders=10", "max_replication_slots=10"},
		c.plugins()...)
	lines = append(lines, settings...)
	if err := c.append("postgresql.conf", lines); err != nil {
		return err
	}
	if len(hba) > 0 {
		old, err := os.ReadFile(filepath.Join(c.data(), "pg_hba.conf"))
		if err != nil {
			return err
		}
		all := strings.Join(hba, "\n") + "\n" + string(old)
		if err := c.Write("pg_hba.conf", []byte(all)); err != nil {
			return err
		}
	}
	return c.launch()
}

// Standby starts a server that follows this one, with a copy of what it has.
func (c *Cluster) Standby() (*Cluster, error) {
	s := &Cluster{bin: c.bin, cred: c.cred}
	var err error
	if s.Dir, err = os.MkdirTemp("", "zanteyard-standby"); err != nil {
		return nil, err
	}
	if err := s.follow(c); err != nil {
		s.Stop()
		return nil, err
	}
	return s, nil
}

func (c *Cluster) follow(other *Cluster) error {
	if c.cred != nil {
		if err := os.Chown(c.Dir, int(c.cred.Uid), int(c.cred.Gid)); err != nil {
			return err
		}
	}
	if err := c.run("pg_basebackup", "-D", c.data(), "-d", other.DSN("postgres", "postgres"), "-R", "-X", "stream",
		"-c", "fast", "--no-sync"); err != nil {
		return err
	}
	listener, err := net.Listen("tcp", "127.0.0.1:0")
	if err != nil {
		return err
	}
	c.Port = listener.Addr().(*net.TCPAddr).Port
	listener.Close()
	lines := []string{"port=" + strconv.Itoa(c.Port), "unix_socket_directories='" + c.Dir + "'"}
	if err := c.append("postgresql.conf", lines); err != nil {
		return err
	}
	return c.launch()
}

// plugins is the setting that allows wal2json, if the server has that setting: 15.19 and later, and equally late
// versions of other releases.
func (c *Cluster) plugins() []string {
	known, err := exec.Command(c.Program("postgres"), "--describe-config").Output()
	if err != nil || !strings.Contains(string(known), "\n"+Plugins+"\t") {
		return nil
	}
	return []string{Plugins + "='pgoutput, test_decoding, wal2json'"}
}

// Plugins is the name of that setting.
const Plugins = "output_plugin_libraries"

// launch starts the server, and waits until it accepts connections. The thread that starts it stays as long as the
// server, which is told to end when its parent thread does.
func (c *Cluster) launch() error {
	output, err := os.OpenFile(filepath.Join(c.Dir, "log"), os.O_APPEND|os.O_CREATE|os.O_WRONLY, 0o644)
	if err != nil {
		return err
	}
	defer output.Close()
	server := c.command("postgres", "-D", c.data())
	server.Stdout, server.Stderr = output, output
	started, ended := make(chan error), make(chan struct{})
	go func() {
		runtime.LockOSThread()
		defer runtime.UnlockOSThread()
		err := server.Start()
		started <- err
		if err == nil {
			server.Wait()
		}
		close(ended)
	}()
	if err := <-started; err != nil {
		return err
	}
	c.ended = ended
	return c.wait()
}

// wait waits until the server accepts connections.
func (c *Cluster) wait() error {
	ctx, cancel := context.WithTimeout(context.Background(), 2*time.Minute)
	defer cancel()
	for {
		conn, err := c.Connect(ctx)
		if err == nil {
			return conn.Close(ctx)
		}
		select {
		case <-c.ended:
			return fmt.Errorf("the server has ended: %s", c.Log())
		case <-ctx.Done():
			return fmt.Errorf("the server takes no connections: %w: %s", err, c.Log())
		case <-time.After(20 * time.Millisecond):
		}
	}
}

func (c *Cluster) data() string { return filepath.Join(c.Dir, "data") }

func (c *Cluster) append(name string, lines []string) error {
	f, err := os.OpenFile(filepath.Join(c.data(), name), os.O_APPEND|os.O_WRONLY, 0)
	if err != nil {
		return err
	}
	defer f.Close()
	_, err = f.WriteString(strings.Join(lines, "\n") + "\n")
	return err
}

// Write writes a file into the server's data folder, with the owner and mode that the server requires.
func (c *Cluster) Write(name string, content []byte) error {
	path := filepath.Join(c.data(), name)
	if err := os.WriteFile(path, content, 0o600); err != nil {
		return err
	}
	if c.cred != nil {
		return os.Chown(path, int(c.cred.Uid), int(c.cred.Gid))
	}
	return nil
}

// run runs one of PostgreSQL's programs as the server's user.
func (c *Cluster) run(name string, args ...string) error {
	if out, err := c.command(name, args...).CombinedOutput(); err != nil {
		return fmt.Errorf("%s: %w: %s", name, err, out)
	}
	return nil
}

func (c *Cluster) command(name string, args ...string) *exec.Cmd {
	cmd := exec.Command(c.Program(name), args...)
	cmd.Dir = c.Dir
	cmd.Env = append(os.Environ(), "LC_ALL=C.UTF-8", "TZ=UTC")
	cmd.SysProcAttr = &syscall.SysProcAttr{Credential: c.cred, Pdeathsig: syscall.SIGQUIT}
	return cmd
}

// Restart stops and starts the server; fast ends all connections, otherwise it is like a crash.
func (c *Cluster) Restart(fast bool) error {
	mode := "immediate"
	if fast {
		mode = "fast"
	}
	if err := c.run("pg_ctl", "-D", c.data(), "-m", mode, "-w", "stop"); err != nil {
		return err
	}
	<-c.ended
	return c.launch()
}

// Log is the server's log.
func (c *Cluster) Log() string {
	b, _ := os.ReadFile(filepath.Join(c.Dir, "log"))
	return string(b)
}

// Stop stops the server and removes its folder.
func (c *Cluster) Stop() {
	if c.ended != nil {
		c.run("pg_ctl", "-D", c.data(), "-m", "immediate", "-w", "stop") // fails if it has ended
		<-c.ended
	}
	os.RemoveAll(c.Dir)
}
