package main

import (
	"bufio"
	"context"
	"crypto/ecdsa"
	"crypto/elliptic"
	"crypto/rand"
	"crypto/tls"
	"crypto/x509"
	"crypto/x509/pkix"
	"encoding/json"
	"encoding/pem"
	"errors"
	"fmt"
	"io"
	"log"
	"math/big"
	"net"
	"os"
	"os/exec"
	"path/filepath"
	"strings"
	"sync/atomic"
	"syscall"
	"testing"
	"time"

	"github.com/jackc/pgconn"

	"zanteyard/cluster"
)

// served is a proxy in this process, without a parent at its standard input.
type served struct {
	program
	signals chan os.Signal
	words   *words
}

func serveAt(t *testing.T, c *cluster.Cluster, port int, more ...string) *served {
	t.Helper()
	f, err := parse(append([]string{"--listen", fmt.Sprintf("127.0.0.1:%d", port), "--look", "20ms",
		"--trust-clients", "--server", fmt.Sprintf("host=127.0.0.1 port=%d user=postgres dbname=postgres sslmode=disable", c.Port)}, more...), io.Discard)
	if err != nil {
		t.Fatal(err)
	}
	s := &served{program{t: t, port: port, ended: make(chan error, 1)}, make(chan os.Signal), newWords(io.Discard)}
	ctx, cancel := context.WithCancel(context.Background())
	go func() {
		s.ended <- serve(ctx, f, outside{in: strings.NewReader(""), out: io.Discard, signals: s.signals, words: s.words})
		close(s.ended)
	}()
	t.Cleanup(func() {
		cancel()
		if err := <-s.ended; err != nil {
			t.Error(err)
		}
	})
	return s
}

// attached is a program that has attached itself to a proxy.
type attached struct {
	program
	net.Conn
}

func attach(t *testing.T, path, how string) *attached {
	t.Helper()
	var last error
	for end := time.Now().Add(5 * time.Minute); time.Now().Before(end); time.Sleep(5 * time.Millisecond) {
		conn, err := net.Dial("unix", path)
		if last = err; err != nil {
			continue
		}
		a := &attached{program{t: t, lines: make(chan string, 100000), say: conn}, conn}
		fmt.Fprintf(conn, "{\"command\":\"%s\",\"log\":true}\n", how)
		go func() {
			defer close(a.lines)
			for s := bufio.NewScanner(conn); s.Scan(); {
				a.lines <- s.Text()
			}
		}()
		t.Cleanup(func() { conn.Close() })
		return a
	}
	t.Fatal(last)
	return nil
}

func folder(t *testing.T) string {
	t.Helper()
	path := t.TempDir()
	if err := os.Chmod(path, 0o700); err != nil {
		t.Fatal(err)
	}
	return path
}

// TestAttach: a program that is killed leaves the proxy and its clients as they are; the next one audits the open
// connections from then on. There is one at a time.
func TestAttach(t *testing.T) {
	c := start(t)
	path := filepath.Join(folder(t), "control")
	t.Setenv(fingerprintName, "the options")
	s := serveAt(t, c, freePort(t), "--control", path)
	first := attach(t, path, "attach")
	if line := first.until("attached"); !strings.Contains(line, fmt.Sprintf(`"process":%d,`, os.Getpid())) {
		t.Error(line)
	}
	first.until(`["open"`)
	conn := s.connect()
	sql(t, conn, "SELECT balance FROM account WHERE id = 1")
	second := attach(t, path, "attach")
	if line := second.until("refused"); !strings.Contains(line, fmt.Sprintf("process %d audits through this proxy", os.Getpid())) {
		t.Error(line)
	}
	first.Close()
	io.WriteString(s.words, "nobody reads this now\n")
	if got := sql(t, conn, "SELECT balance FROM account WHERE id = 1"); got != "100" {
		t.Errorf("the client got %s", got)
	}
	var third *attached
	for third == nil {
		next := attach(t, path, "attach")
		var event struct{ Event string }
		if json.Unmarshal([]byte(<-next.lines), &event) == nil && event.Event == "attached" {
			third = next
		}
	}
	if line := third.until("logged"); !strings.Contains(line, "nobody reads this now") {
		t.Error(line)
	}
	third.until(`["open"`)
	for i := 0; i < 5; i++ { // so that the statement is tried
		sql(t, conn, "UPDATE account SET balance = 100 WHERE id = 1")
	}
	fmt.Fprintln(third.say, `{"command":"stop"}`)
	third.until(`["offer"`)
	third.until("stopped")
	if line := attach(t, path, "who").until("proxy"); !strings.Contains(line, fmt.Sprintf(`"fingerprint":"the options","parent":%d}`, os.Getpid())) {
		t.Error(line)
	}
	if line := attach(t, path, "dance").until("refused"); !strings.Contains(line, "unknown command") {
		t.Error(line)
	}
}

// TestUnauditedIsCounted: whoever begins to audit is told how many transactions ended while nobody did.
func TestUnauditedIsCounted(t *testing.T) {
	c := start(t)
	path := filepath.Join(folder(t), "control")
	s := serveAt(t, c, freePort(t), "--control", path)
	log.SetOutput(s.words)
	defer log.SetOutput(os.Stderr)
	conn := s.connect()
	for _, text := range []string{"SELECT balance FROM account WHERE id = 1", "UPDATE account SET balance = 100 WHERE id = 1",
		"BEGIN", "UPDATE account SET balance = 1 WHERE id = 1", "ROLLBACK", "BEGIN", "SELECT 1", "COMMIT"} {
		sql(t, conn, text)
	}
	hears := func(its *attached, want string) {
		for !strings.Contains(its.until("logged"), want) {
		}
	}
	first := attach(t, path, "attach")
	hears(first, "3 transactions ended while nothing was audited") // one was on no table
	first.until(`["open"`)
	sql(t, conn, "SELECT balance FROM account WHERE id = 1")
	first.Close()
	for end := time.Now().Add(5 * time.Minute); !strings.Contains(attach(t, path, "who").until("proxy"), `"parent":0}`); {
		if time.Now().After(end) {
			t.Fatal("the audit of a parent that is gone goes on")
		}
	}
	for i := 0; i < 7; i++ {
		sql(t, conn, "UPDATE account SET balance = 100 WHERE id = 1")
	}
	hears(attach(t, path, "attach"), "7 transactions ended while nothing was audited")
}

// TestTakeOver: a proxy takes the place of another one. No client is refused, and those that are idle are told to connect
// again.
func TestTakeOver(t *testing.T) {
	c := start(t)
	path := filepath.Join(folder(t), "control")
	port := freePort(t)
	old := serveAt(t, c, port, "--control", path)
	idle, busy := old.connect(), old.connect()
	sql(t, busy, "BEGIN")
	parent := attach(t, path, "attach")
	parent.until("started")
	stop, ended := make(chan struct{}), make(chan struct{})
	var connected, refused atomic.Int64
	go func() {
		defer close(ended)
		for {
			select {
			case <-stop:
				return
			default:
			}
			conn, err := net.Dial("tcp", fmt.Sprintf("127.0.0.1:%d", port))
			if err != nil {
				refused.Add(1)
				continue
			}
			conn.Close()
			connected.Add(1)
		}
	}()
	s := serveAt(t, c, port, "--control", path, "--take-over")
	parent.until("replaced")
	parent.Conn.Close()
	for end, served := time.Now().Add(5*time.Minute), true; served; {
		_, err := idle.Exec(context.Background(), "SELECT 1").ReadAll()
		if served = err == nil; served && time.Now().After(end) {
			t.Fatal("an idle client of the old proxy is still served by it")
		}
	}
	sql(t, busy, "SELECT 1")
	next := attach(t, path, "attach")
	next.until("attached")
	if got := sql(t, s.connect(), "SELECT balance FROM account WHERE id = 1"); got != "100" {
		t.Errorf("the new proxy's client got %s", got)
	}
	select {
	case err := <-old.ended:
		t.Errorf("the old proxy has ended beside an open transaction: %v", err)
	default:
	}
	sql(t, busy, "COMMIT")
	if err := <-old.ended; err != nil {
		t.Error(err)
	}
	for before := connected.Load(); connected.Load() < before+10; {
		time.Sleep(time.Millisecond)
	}
	close(stop)
	<-ended
	if n := refused.Load(); n > 0 {
		t.Errorf("%d clients were refused, %d not", n, connected.Load())
	}
}

// TestControlIsSafe: others can't put their socket in place of the proxy's, and two proxies can't have one.
func TestControlIsSafe(t *testing.T) {
	open := t.TempDir()
	if err := os.Chmod(open, 0o777); err != nil {
		t.Fatal(err)
	}
	if _, err := newControl(filepath.Join(open, "control"), nil); err == nil || !strings.Contains(err.Error(), "nobody else may write") {
		t.Errorf("a folder that others may write to: %v", err)
	}
	if _, err := takeOver(filepath.Join(open, "control")); err == nil || !strings.Contains(err.Error(), "nobody else may write") {
		t.Errorf("taking over from a folder that others may write to: %v", err)
	}
	path := filepath.Join(folder(t), "control")
	first, err := newControl(path, nil)
	if err != nil {
		t.Fatal(err)
	}
	if _, err := newControl(path, nil); !errors.Is(err, errServes) {
		t.Errorf("a second proxy: %v", err)
	}
	first.listener.SetUnlinkOnClose(false) // as if it had been killed
	first.listener.Close()
	if again, err := newControl(path, nil); err != nil {
		t.Errorf("after the first was killed: %v", err)
	} else {
		again.listener.Close()
	}
	if its, err := takeOver(path); its != nil || err != nil {
		t.Errorf("taking over from nobody: %v, %v", its, err)
	}
}

// writeCertificate makes a certificate with this number, and its key.
func writeCertificate(t *testing.T, in string, number int64) (file, key string) {
	t.Helper()
	private, err := ecdsa.GenerateKey(elliptic.P256(), rand.Reader)
	if err != nil {
		t.Fatal(err)
	}
	its := &x509.Certificate{SerialNumber: big.NewInt(number), Subject: pkix.Name{CommonName: "localhost"},
		NotBefore: time.Now().Add(-time.Hour), NotAfter: time.Now().Add(time.Hour), DNSNames: []string{"localhost"}}
	der, err := x509.CreateCertificate(rand.Reader, its, its, private.Public(), private)
	if err != nil {
		t.Fatal(err)
	}
	keyDER, err := x509.MarshalECPrivateKey(private)
	if err != nil {
		t.Fatal(err)
	}
	file, key = filepath.Join(in, "crt"), filepath.Join(in, "key")
	for path, block := range map[string]*pem.Block{file: {Type: "CERTIFICATE", Bytes: der}, key: {Type: "EC PRIVATE KEY", Bytes: keyDER}} {
		if err := os.WriteFile(path, pem.EncodeToMemory(block), 0o600); err != nil {
			t.Fatal(err)
		}
	}
	return file, key
}

// TestSignals: SIGHUP reads a renewed certificate, and keeps the old one if that can't be read; the first SIGTERM lets
// transactions end, the second doesn't.
func TestSignals(t *testing.T) {
	c := start(t)
	in := t.TempDir()
	crt, key := writeCertificate(t, in, 1)
	port := freePort(t)
	s := serveAt(t, c, port, "--tls-cert", crt, "--tls-key", key, "--pass")
	number := func() int64 {
		t.Helper()
		var got int64
		config, err := pgconn.ParseConfig(fmt.Sprintf("host=127.0.0.1 port=%d user=postgres dbname=postgres sslmode=require", port))
		if err != nil {
			t.Fatal(err)
		}
		config.TLSConfig.VerifyConnection = func(its tls.ConnectionState) error {
			got = its.PeerCertificates[0].SerialNumber.Int64()
			return nil
		}
		conn, err := pgconn.ConnectConfig(context.Background(), config)
		if err != nil {
			t.Fatal(err)
		}
		conn.Close(context.Background())
		return got
	}
	busy := s.connect()
	sql(t, busy, "BEGIN")
	if got := number(); got != 1 {
		t.Errorf("the certificate is %d", got)
	}
	writeCertificate(t, in, 2)
	if got := number(); got != 1 {
		t.Errorf("before SIGHUP the certificate is %d", got)
	}
	s.signals <- syscall.SIGHUP
	s.signals <- syscall.SIGHUP // so the first one has been handled
	if got := number(); got != 2 {
		t.Errorf("after SIGHUP the certificate is %d", got)
	}
	if err := os.WriteFile(crt, []byte("no certificate"), 0o600); err != nil {
		t.Fatal(err)
	}
	s.signals <- syscall.SIGHUP
	s.signals <- syscall.SIGHUP
	if got := number(); got != 2 {
		t.Errorf("after a bad file the certificate is %d", got)
	}
	s.signals <- syscall.SIGTERM
	sql(t, busy, "SELECT 1")
	s.signals <- syscall.SIGTERM
	if err := <-s.ended; err != nil {
		t.Error(err)
	}
}

// TestParentIsKilled: with the program that started it go the readers of everything that the proxy writes. Its clients
// don't notice, whatever it has to say.
func TestParentIsKilled(t *testing.T) {
	c := start(t)
	port := freePort(t)
	words := fmt.Sprintf("--trust-clients|--listen|127.0.0.1:%d|--server|host=127.0.0.1 port=%d user=postgres dbname=postgres sslmode=disable", port, c.Port)
	its := exec.Command(os.Args[0], "-test.run=^TestProgramShowsItsWords$")
	its.Env = append(os.Environ(), "ZANTEYARD_WORDS="+words)
	in, err := its.StdinPipe()
	if err != nil {
		t.Fatal(err)
	}
	out, err := its.StdoutPipe()
	if err != nil {
		t.Fatal(err)
	}
	log, err := its.StderrPipe()
	if err != nil {
		t.Fatal(err)
	}
	if err := its.Start(); err != nil {
		t.Fatal(err)
	}
	ended := make(chan error, 1)
	defer its.Process.Kill()
	for line, from := "", bufio.NewReader(out); !strings.Contains(line, "started"); {
		if line, err = from.ReadString('\n'); err != nil {
			t.Fatal(err)
		}
	}
	p := &program{t: t, port: port}
	conn := p.connect()
	for _, one := range []io.Closer{in, out, log} {
		one.Close()
	}
	go func() { ended <- its.Wait() }()
	slots := func() string {
		direct := &program{t: t, port: c.Port}
		conn := direct.connect()
		defer conn.Close(context.Background())
		return sql(t, conn, "SELECT count(*) FROM pg_replication_slots")
	}
	for end := time.Now().Add(5 * time.Minute); slots() != "0"; time.Sleep(10 * time.Millisecond) {
		if time.Now().After(end) {
			t.Fatal("the audit goes on for nobody")
		}
	}
	for i := 0; i < 100; i++ {
		if other, err := net.Dial("tcp", fmt.Sprintf("127.0.0.1:%d", port)); err != nil {
			t.Fatal(err)
		} else {
			other.Write([]byte("no startup message at all")) // this is logged
			io.Copy(io.Discard, other)
			other.Close()
		}
		if got := sql(t, conn, "SELECT balance FROM account WHERE id = 1"); got != "100" {
			t.Fatalf("the client got %s", got)
		}
	}
	its.Process.Signal(syscall.SIGTERM)
	if err := <-ended; err != nil {
		t.Error(err)
	}
}
