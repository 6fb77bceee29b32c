package cluster

import (
	"context"
	"errors"
	"fmt"
	"net"
	"os"
	"os/exec"
	"path/filepath"
	"runtime"
	"strings"
	"syscall"
	"time"

	"github.com/jackc/pgconn"
)

// ErrNoPooler says that pgbouncer isn't installed.
var ErrNoPooler = errors.New("cluster: pgbouncer isn't installed here")

// Pgbouncer starts a pgbouncer in front of a port of 127.0.0.1, with two connections to it. The mode is session,
// transaction or statement. It accepts every user, without a password, and returns its own port.
func (c *Cluster) Pgbouncer(target int, mode string) (port int, stop func(), err error) {
	program, err := exec.LookPath("pgbouncer")
	if err != nil {
		return 0, nil, ErrNoPooler
	}
	listener, err := net.Listen("tcp", "127.0.0.1:0")
	if err != nil {
		return 0, nil, err
	}
	port = listener.Addr().(*net.TCPAddr).Port
	listener.Close()
	path := filepath.Join(c.Dir, fmt.Sprintf("pgbouncer%d.ini", port))
	users := filepath.Join(c.Dir, "users.txt")
	lines := []string{"[databases]", fmt.Sprintf("postgres = host=127.0.0.1 port=%d dbname=postgres", target), "[pgbouncer]",
		"listen_addr = 127.0.0.1", fmt.Sprint("listen_port = ", port), "unix_socket_dir =", "auth_type = trust",
		"auth_file = " + users, "pool_mode = " + mode, "default_pool_size = 2", "server_tls_sslmode = disable",
		"ignore_startup_parameters = extra_float_digits"}
	for at, text := range map[string]string{path: strings.Join(lines, "\n") + "\n", users: "\"postgres\" \"\"\n"} {
		if err := os.WriteFile(at, []byte(text), 0o644); err != nil {
			return 0, nil, err
		}
	}
	pooler := exec.Command(program, path)
	pooler.SysProcAttr = &syscall.SysProcAttr{Credential: c.cred, Pdeathsig: syscall.SIGKILL}
	started, ended := make(chan error), make(chan struct{})
	go func() {
		runtime.LockOSThread()
		defer runtime.UnlockOSThread()
		err := pooler.Start()
		started <- err
		if err == nil {
			pooler.Wait()
		}
		close(ended)
	}()
	if err := <-started; err != nil {
		return 0, nil, err
	}
	stop = func() { pooler.Process.Kill(); <-ended }
	for begun := time.Now(); ; time.Sleep(20 * time.Millisecond) {
		conn, err := pgconn.Connect(context.Background(), fmt.Sprintf("host=127.0.0.1 port=%d user=postgres dbname=postgres sslmode=disable", port))
		if err == nil {
			return port, stop, conn.Close(context.Background())
		}
		if time.Since(begun) > time.Minute {
			stop()
			return 0, nil, err
		}
	}
}
