package address

import (
	"net"
	"strconv"
	"strings"
	"syscall"
)

// Options of TCP, as Linux has them.
const (
	tcpKeepIdle     = 4
	tcpKeepInterval = 5
	tcpKeepCount    = 6
	tcpUserTimeout  = 18
)

// dialer makes connections with the keywords' settings of TCP.
func dialer(all map[string]string) (*net.Dialer, error) {
	settings := map[int]int{}
	for name, option := range map[string]int{"keepalives_idle": tcpKeepIdle, "keepalives_interval": tcpKeepInterval,
		"keepalives_count": tcpKeepCount, "tcp_user_timeout": tcpUserTimeout} {
		if n, err := strconv.Atoi(strings.TrimSpace(all[name])); err == nil && n > 0 {
			settings[option] = n
		}
	}
	keeps := 1
	if strings.TrimSpace(all["keepalives"]) == "0" {
		keeps = 0
	}
	// Go's own settings are left out (KeepAlive): they would replace these.
	return &net.Dialer{KeepAlive: -1, Control: func(network, _ string, c syscall.RawConn) error {
		if !strings.HasPrefix(network, "tcp") {
			return nil
		}
		var failed error
		err := c.Control(func(fd uintptr) {
			failed = syscall.SetsockoptInt(int(fd), syscall.SOL_SOCKET, syscall.SO_KEEPALIVE, keeps)
			for option, n := range settings {
				if err := syscall.SetsockoptInt(int(fd), syscall.IPPROTO_TCP, option, n); err != nil {
					failed = err
				}
			}
		})
		if err == nil {
			err = failed
		}
		return err
	}}, nil
}
