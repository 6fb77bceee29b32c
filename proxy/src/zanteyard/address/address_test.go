package address

import (
	"context"
	"crypto/tls"
	"net"
	"os"
	"path/filepath"
	"strings"
	"syscall"
	"testing"
	"time"
)

// clean hides all of libpq's variables.
func clean(t *testing.T) string {
	t.Helper()
	for _, its := range keywords {
		if its.environment != "" {
			t.Setenv(its.environment, "")
		}
	}
	home := t.TempDir()
	t.Setenv("HOME", home)
	t.Setenv("PGSERVICEFILE", "")
	t.Setenv("PGSYSCONFDIR", filepath.Join(home, "system"))
	t.Setenv("PGREQUIRESSL", "")
	return home
}

// TestKeywords: each keyword of libpq 15 is followed, or refused by its name.
func TestKeywords(t *testing.T) {
	clean(t)
	used := map[string]bool{}
	for _, x := range []struct{ word, refused string }{
		{"service=none", "service=none"}, {"user=u", ""}, {"password=p", ""}, {"passfile=/dev/null", ""}, {"channel_binding=prefer", ""},
		{"channel_binding=require", "channel_binding=require: only disable, prefer"}, {"connect_timeout=5", ""}, {"connect_timeout=x", "connect_timeout=x"},
		{"dbname=d", ""}, {"host=h", ""}, {"hostaddr=127.0.0.1", ""}, {"port=5433", ""}, {"client_encoding=UTF8", ""}, {"options=-cwork_mem=1MB", ""},
		{"application_name=x", ""}, {"fallback_application_name=x", ""}, {"keepalives=1", ""}, {"keepalives_idle=30", ""},
		{"keepalives_interval=30", ""}, {"keepalives_count=3", ""}, {"tcp_user_timeout=1000", ""}, {"sslmode=require", ""},
		{"sslmode=often", "sslmode=often"}, {"sslcompression=1", ""}, {"sslcert=", ""}, {"sslkey=", ""}, {"sslpassword=secret", "sslpassword=..: use a key"},
		{"sslrootcert=", ""}, {"sslcrl=x", "sslcrl=x"}, {"sslcrldir=x", "sslcrldir=x"}, {"sslsni=0", ""}, {"requirepeer=postgres", "requirepeer=postgres"},
		{"ssl_min_protocol_version=TLSv1.3", ""}, {"ssl_max_protocol_version=SSLv3", "ssl_max_protocol_version=SSLv3"}, {"gssencmode=disable", ""},
		{"gssencmode=require", "gssencmode=require"}, {"krbsrvname=postgres", ""}, {"gsslib=gssapi", ""}, {"replication=database", "replication=database"},
		{"replication=off", ""}, {"target_session_attrs=read-write", ""}, {"target_session_attrs=standby", "target_session_attrs=standby"},
		{"load_balance_hosts=disable", `"load_balance_hosts" isn't a keyword`}, {"min_read_buffer_size=1", "isn't a keyword"}, {"work_mem=1", "isn't a keyword"},
	} {
		name, _, _ := strings.Cut(x.word, "=")
		used[name] = true
		for _, text := range []string{x.word, "postgresql:///?" + x.word, "postgres://?" + x.word} {
			config, err := Parse(text)
			switch {
			case x.refused == "" && err != nil:
				t.Errorf("%s: %v", text, err)
			case x.refused != "" && (err == nil || !strings.Contains(err.Error(), x.refused)):
				t.Errorf("%s: %v", text, err)
			case err == nil && config.ValidateConnect != nil:
				t.Errorf("%s: connections are looked at, which one for replication can't be", text)
			}
			if err == nil {
				for name := range config.RuntimeParams {
					if name != "options" {
						t.Errorf("%s: the server gets %s", text, name)
					}
				}
			}
		}
	}
	for name, its := range keywords {
		if !used[name] {
			t.Errorf("%s isn't tried", name)
		}
		if its.environment == "" || its.refused == nil {
			continue
		}
		t.Setenv(its.environment, "something else")
		if _, err := Parse("host=h"); err == nil || !strings.Contains(err.Error(), name) {
			t.Errorf("%s: %v", its.environment, err)
		}
		t.Setenv(its.environment, "")
	}
}

// TestStrings: what the forms of connection strings say.
func TestStrings(t *testing.T) {
	home := clean(t)
	for name, text := range map[string]string{
		filepath.Join(home, ".pg_service.conf"): "# services\n[other]\nhost=o\n\n[shop]\nhost=s\nport=6000\ndbname=sd\nuser=su\n[last]\nhost=l\n",
		filepath.Join(home, "pg_service.conf"):  "[system]\nhost=y\n",
	} {
		if err := os.WriteFile(name, []byte(text), 0o600); err != nil {
			t.Fatal(err)
		}
	}
	for _, x := range []struct{ text, host, user, password, database string }{
		{"host=h user=u password=p dbname=d", "h", "u", "p", "d"},
		{`  host = h user='a b' password='it\'s \\'  dbname= d `, "h", "a b", `it's \`, "d"},
		{`host=h user=a\ b password='' dbname=d`, "h", "a b", "", "d"},
		{"postgresql://u:p@h/d", "h", "u", "p", "d"},
		{"postgres://u%40x:p%3A%2F@h:5433/d%20e?connect_timeout=3", "h", "u@x", "p:/", "d e"},
		{"postgresql://%2Fvar%2Frun/d?user=u", "/var/run", "u", "", "d"},
		{"postgresql:///d?host=/var/run&user=u&password=p%26q", "/var/run", "u", "p&q", "d"},
		{"postgresql://u@[::1]:5433/d", "::1", "u", "", "d"},
		{"postgresql://u@h/d?hostaddr=10.0.0.7", "10.0.0.7", "u", "", "d"},
		{"service=shop", "s", "su", "", "sd"},
		{"service=shop user=u", "s", "u", "", "sd"},
		{"postgresql://u@h/?service=shop", "h", "u", "", "sd"},
	} {
		config, err := Parse(x.text)
		if err != nil {
			t.Errorf("%s: %v", x.text, err)
		} else if config.Host != x.host || config.User != x.user || config.Password != x.password || config.Database != x.database {
			t.Errorf("%s: %q %q %q %q", x.text, config.Host, config.User, config.Password, config.Database)
		}
	}
	t.Setenv("PGSYSCONFDIR", home)
	t.Setenv("PGSERVICE", "system")
	t.Setenv("PGUSER", "env")
	t.Setenv("PGTARGETSESSIONATTRS", "primary")
	if config, err := Parse(""); err != nil || config.Host != "y" || config.User != "env" || config.ValidateConnect != nil {
		t.Errorf("%+v %v", config, err)
	}
	for _, text := range []string{"h", "host", "host='h", "=h", "postgresql://h/?x", "postgresql://h%zz/d", "service=lost", "port=x", "sslrootcert=/none/such sslmode=verify-ca host=h password=secret"} {
		if _, err := Parse(text); err == nil || strings.Contains(err.Error(), "secret") {
			t.Errorf("%s: %v", text, err)
		}
	}
}

// TestNames: the server's name is sent in TLS's greeting, unless it is an address, or that isn't wanted.
func TestNames(t *testing.T) {
	clean(t)
	for _, x := range []struct{ text, name string }{
		{"host=db.example sslmode=prefer", "db.example"}, {"host=db.example sslmode=allow", "db.example"},
		{"host=db.example sslmode=require", "db.example"}, {"host=db.example sslmode=verify-full", "db.example"},
		{"host=db.example hostaddr=127.0.0.1 sslmode=require", "db.example"}, {"host=127.0.0.1 sslmode=require", ""},
		{"host=db.example sslmode=require sslsni=0", ""},
	} {
		config, err := Parse(x.text + " ssl_min_protocol_version=TLSv1.2 ssl_max_protocol_version=TLSv1.2")
		if err != nil {
			t.Fatal(err)
		}
		with := 0
		for _, one := range configs(config) {
			if its := *one.tls; its != nil {
				with++
				if its.ServerName != x.name || its.MinVersion != tls.VersionTLS12 || its.MaxVersion != tls.VersionTLS12 {
					t.Errorf("%s: %q %x %x", x.text, its.ServerName, its.MinVersion, its.MaxVersion)
				}
			}
		}
		if with != 1 {
			t.Errorf("%s: %d ways with TLS", x.text, with)
		}
	}
}

// TestDialer: connections have the settings of TCP that were asked for.
func TestDialer(t *testing.T) {
	clean(t)
	listener, err := net.Listen("tcp", "127.0.0.1:0")
	if err != nil {
		t.Fatal(err)
	}
	defer listener.Close()
	for text, wanted := range map[string][5]int{
		"keepalives_idle=31 keepalives_interval=7 keepalives_count=4 tcp_user_timeout=1500 connect_timeout=9": {1, 31, 7, 4, 1500},
		"keepalives=0": {0, -1, -1, -1, 0},
	} {
		config, err := Parse("host=127.0.0.1 " + text)
		if err != nil {
			t.Fatal(err)
		}
		conn, err := config.DialFunc(context.Background(), "tcp", listener.Addr().String())
		if err != nil {
			t.Fatal(err)
		}
		raw, err := conn.(*net.TCPConn).SyscallConn()
		if err != nil {
			t.Fatal(err)
		}
		raw.Control(func(fd uintptr) {
			for i, at := range [][2]int{{syscall.SOL_SOCKET, syscall.SO_KEEPALIVE}, {syscall.IPPROTO_TCP, tcpKeepIdle},
				{syscall.IPPROTO_TCP, tcpKeepInterval}, {syscall.IPPROTO_TCP, tcpKeepCount}, {syscall.IPPROTO_TCP, tcpUserTimeout}} {
				if got, err := syscall.GetsockoptInt(int(fd), at[0], at[1]); err != nil || wanted[i] >= 0 && got != wanted[i] {
					t.Errorf("%s: option %v is %d, %v", text, at, got, err)
				}
			}
		})
		conn.Close()
		if strings.Contains(text, "connect_timeout") && config.ConnectTimeout != 9*time.Second {
			t.Errorf("the timeout is %v", config.ConnectTimeout)
		}
	}
}
