// Package address reads what a connection string, a service and the environment say about a server, as libpq 15 reads
// them. Every keyword of libpq's is either followed, or refused by its name before anything starts: none is passed on
// to the server for want of understanding.
package address

import (
	"crypto/tls"
	"errors"
	"fmt"
	"net"
	"os"
	"strconv"
	"strings"
	"time"

	"github.com/jackc/pgconn"
)

// keyword is one of libpq's.
type keyword struct {
	environment string
	// refused returns why a value can't be followed, "" if it can. nil: all can, or the keyword doesn't matter here.
	refused func(value string) string
}

// keywords are all of libpq 15's. Those without effect here: client_encoding and the names of applications, since the
// audit's own connections have their own; GSSAPI's, which isn't used; compression, which libpq ignores too.
var keywords = map[string]keyword{
	"service":                   {"PGSERVICE", nil},
	"user":                      {"PGUSER", nil},
	"password":                  {"PGPASSWORD", nil},
	"passfile":                  {"PGPASSFILE", nil},
	"channel_binding":           {"PGCHANNELBINDING", among("disable", "prefer")},
	"connect_timeout":           {"PGCONNECT_TIMEOUT", number},
	"dbname":                    {"PGDATABASE", nil},
	"host":                      {"PGHOST", nil},
	"hostaddr":                  {"PGHOSTADDR", nil},
	"port":                      {"PGPORT", nil},
	"client_encoding":           {"PGCLIENTENCODING", nil},
	"options":                   {"PGOPTIONS", nil},
	"application_name":          {"PGAPPNAME", nil},
	"fallback_application_name": {"", nil},
	"keepalives":                {"", number},
	"keepalives_idle":           {"", number},
	"keepalives_interval":       {"", number},
	"keepalives_count":          {"", number},
	"tcp_user_timeout":          {"", number},
	"sslmode":                   {"PGSSLMODE", among("disable", "allow", "prefer", "require", "verify-ca", "verify-full")},
	"sslcompression":            {"PGSSLCOMPRESSION", nil},
	"sslcert":                   {"PGSSLCERT", nil},
	"sslkey":                    {"PGSSLKEY", nil},
	"sslpassword":               {"", none("use a key without a password, which only its owner may read")},
	"sslrootcert":               {"PGSSLROOTCERT", nil},
	"sslcrl":                    {"PGSSLCRL", none("lists of revoked certificates aren't read")},
	"sslcrldir":                 {"PGSSLCRLDIR", none("lists of revoked certificates aren't read")},
	"sslsni":                    {"PGSSLSNI", among("0", "1")},
	"requirepeer":               {"PGREQUIREPEER", none("the server's user isn't looked at: use a socket's folder that only it may write to")},
	"ssl_min_protocol_version":  {"PGSSLMINPROTOCOLVERSION", amongKeys(protocols)},
	"ssl_max_protocol_version":  {"PGSSLMAXPROTOCOLVERSION", amongKeys(protocols)},
	"gssencmode":                {"PGGSSENCMODE", among("disable", "prefer")},
	"krbsrvname":                {"PGKRBSRVNAME", nil},
	"gsslib":                    {"PGGSSLIB", nil},
	"replication":               {"", among("0", "false", "no", "off")},
	"target_session_attrs":      {"PGTARGETSESSIONATTRS", among("any", "read-write", "primary", "prefer-standby")},
}

var protocols = map[string]uint16{
	"TLSv1": tls.VersionTLS10, "TLSv1.1": tls.VersionTLS11, "TLSv1.2": tls.VersionTLS12, "TLSv1.3": tls.VersionTLS13,
}

func among(values ...string) func(string) string {
	return func(value string) string {
		for _, one := range values {
			if value == one {
				return ""
			}
		}
		return "only " + strings.Join(values, ", ") + " can be used here"
	}
}

func amongKeys(values map[string]uint16) func(string) string {
	return func(value string) string {
		if _, ok := values[value]; ok {
			return ""
		}
		return "only TLSv1 to TLSv1.3 can be used here"
	}
}

func none(reason string) func(string) string { return func(string) string { return reason } }

func number(value string) string {
	if _, err := strconv.Atoi(strings.TrimSpace(value)); err != nil {
		return "it has to be a whole number"
	}
	return ""
}

// Parse reads a connection string, a URL or keywords and values, with the environment and the services that it names.
func Parse(text string) (*pgconn.Config, error) {
	given, err := words(text)
	if err != nil {
		return nil, err
	}
	all, err := complete(given)
	if err != nil {
		return nil, err
	}
	for name, value := range all {
		its, known := keywords[name]
		if !known {
			return nil, fmt.Errorf("%q isn't a keyword of libpq 15's connection strings", name)
		}
		if its.refused == nil || value == "" {
			continue
		}
		if reason := its.refused(value); reason != "" {
			return nil, fmt.Errorf("%s=%s: %s", name, shown(name, value), reason)
		}
	}
	return configOf(all)
}

func shown(name, value string) string {
	if name == "password" || name == "sslpassword" {
		return ".."
	}
	return value
}

// complete adds what a service and the environment say, in libpq's order.
func complete(given map[string]string) (map[string]string, error) {
	all := map[string]string{}
	for name, value := range given {
		all[name] = value
	}
	service := given["service"]
	if service == "" {
		service = os.Getenv("PGSERVICE")
	}
	if service != "" {
		its, err := readService(service)
		if err != nil {
			return nil, err
		}
		for name, value := range its {
			if _, is := all[name]; !is {
				all[name] = value
			}
		}
	}
	for name, its := range keywords {
		if _, is := all[name]; !is && its.environment != "" && os.Getenv(its.environment) != "" {
			all[name] = os.Getenv(its.environment)
		}
	}
	if all["sslmode"] == "" && os.Getenv("PGREQUIRESSL") == "1" {
		all["sslmode"] = "require"
	}
	delete(all, "service")
	return all, nil
}

// followed are the keywords that pgconn follows as libpq does.
var followed = []string{"user", "passfile", "dbname", "host", "port", "options", "connect_timeout", "sslmode", "sslcert",
	"sslkey", "sslrootcert"}

// configOf makes the configuration of all keywords.
func configOf(all map[string]string) (*pgconn.Config, error) {
	host, at := all["host"], all["hostaddr"]
	if host == "" {
		host = at
	}
	if strings.Contains(at, ",") {
		host = at // several servers, as everywhere
	}
	var text strings.Builder
	for _, name := range followed {
		value, is := all[name]
		if name == "host" && host != "" {
			value, is = host, true
		}
		if is && value != "" {
			value = strings.ReplaceAll(strings.ReplaceAll(value, `\`, `\\`), "'", `\'`)
			fmt.Fprintf(&text, "%s='%s' ", name, value)
		}
	}
	// What the environment says is in the text already, and what isn't followed mustn't be read there.
	defer without("PGSERVICE", "PGSERVICEFILE", "PGTARGETSESSIONATTRS", "PGAPPNAME")()
	config, err := pgconn.ParseConfig(strings.TrimSpace(text.String()))
	if err != nil {
		return nil, withoutText(err)
	}
	if all["password"] != "" {
		config.Password = all["password"]
	}
	for _, one := range configs(config) {
		if *one.tls == nil {
			continue
		}
		its := *one.tls
		if all["sslsni"] != "0" && its.ServerName == "" && net.ParseIP(*one.host) == nil {
			its.ServerName = *one.host
		}
		its.MinVersion, its.MaxVersion = protocols[all["ssl_min_protocol_version"]], protocols[all["ssl_max_protocol_version"]]
	}
	if at != "" {
		for _, one := range configs(config) {
			*one.host = at
		}
	}
	dial, err := dialer(all)
	if err != nil {
		return nil, err
	}
	config.DialFunc = dial.DialContext
	if seconds, _ := strconv.Atoi(strings.TrimSpace(all["connect_timeout"])); seconds > 0 {
		config.ConnectTimeout = time.Duration(seconds) * time.Second
	}
	return config, nil
}

// withoutText leaves the connection string out of an error: it may have a password.
func withoutText(err error) error {
	if inner := errors.Unwrap(err); inner != nil {
		return inner
	}
	text := err.Error()
	if at := strings.LastIndex(text, "`: "); at >= 0 {
		text = text[at+len("`: "):]
	}
	return errors.New(text)
}

// without hides variables of the environment until the function that it returns is called.
func without(names ...string) func() {
	before := map[string]string{}
	for _, name := range names {
		if value, is := os.LookupEnv(name); is {
			before[name] = value
			os.Unsetenv(name)
		}
	}
	return func() {
		for name, value := range before {
			os.Setenv(name, value)
		}
	}
}

type way struct {
	host *string
	tls  **tls.Config
}

// configs are the ways to reach the server, in order.
func configs(config *pgconn.Config) []way {
	all := []way{{&config.Host, &config.TLSConfig}}
	for _, f := range config.Fallbacks {
		all = append(all, way{&f.Host, &f.TLSConfig})
	}
	return all
}
