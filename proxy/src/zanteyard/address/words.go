package address

import (
	"bufio"
	"errors"
	"fmt"
	"net/url"
	"os"
	"path/filepath"
	"strings"
)

// words returns the keywords that a connection string gives.
func words(text string) (map[string]string, error) {
	for _, scheme := range []string{"postgresql://", "postgres://"} {
		if strings.HasPrefix(text, scheme) {
			return urlWords(text[len(scheme):])
		}
	}
	return pairs(text)
}

// urlWords reads a URL behind its scheme: [user[:password]@][host[:port],..][/dbname][?keyword=value&..]
func urlWords(rest string) (map[string]string, error) {
	all := map[string]string{}
	rest, query, _ := strings.Cut(rest, "?")
	place, name, _ := strings.Cut(rest, "/")
	if at := strings.LastIndex(place, "@"); at >= 0 {
		user, password, has := strings.Cut(place[:at], ":")
		if err := put(all, "user", user); err != nil {
			return nil, err
		}
		if has {
			if err := put(all, "password", password); err != nil {
				return nil, err
			}
		}
		place = place[at+1:]
	}
	var hosts, ports []string
	for _, one := range strings.Split(place, ",") {
		host, port := one, ""
		if at := strings.LastIndex(one, ":"); at > strings.LastIndex(one, "]") {
			host, port = one[:at], one[at+1:]
		}
		hosts, ports = append(hosts, strings.Trim(host, "[]")), append(ports, port)
	}
	if err := put(all, "host", strings.Join(hosts, ",")); err != nil {
		return nil, err
	}
	if joined := strings.Join(ports, ","); strings.Trim(joined, ",") != "" {
		all["port"] = joined
	}
	if err := put(all, "dbname", name); err != nil {
		return nil, err
	}
	for _, one := range strings.Split(query, "&") {
		if one == "" {
			continue
		}
		name, value, ok := strings.Cut(one, "=")
		if !ok {
			return nil, fmt.Errorf("the URL's parameter %q has no value", name)
		}
		if name == "ssl" && value == "true" { // as JDBC has it
			name, value = "sslmode", "require"
		}
		all[name] = "" // it counts also if it is empty
		if err := put(all, name, value); err != nil {
			return nil, err
		}
	}
	return all, nil
}

// put takes over a part of a URL.
func put(all map[string]string, name, value string) error {
	decoded, err := url.PathUnescape(value)
	if err != nil {
		return fmt.Errorf("the URL's %s: %w", name, errors.Unwrap(err))
	}
	if decoded != "" {
		all[name] = decoded
	}
	return nil
}

const blanks = " \t\n\r\v\f"

// pairs reads keywords and values: a = b c = 'd e'.
func pairs(text string) (map[string]string, error) {
	all := map[string]string{}
	for text = strings.Trim(text, blanks); text != ""; text = strings.TrimLeft(text, blanks) {
		name, rest, ok := strings.Cut(text, "=")
		if name = strings.Trim(name, blanks); !ok || name == "" || strings.ContainsAny(name, blanks) {
			return nil, errors.New("it is neither a URL that begins with postgresql:// nor a list of keyword=value")
		}
		value, after, err := valueOf(strings.TrimLeft(rest, blanks))
		if err != nil {
			return nil, fmt.Errorf("the value of %s: %w", name, err)
		}
		all[name], text = value, after
	}
	return all, nil
}

// valueOf reads one value, in quotes or up to a blank, with backslashes.
func valueOf(text string) (value, rest string, err error) {
	quoted := strings.HasPrefix(text, "'")
	if quoted {
		text = text[1:]
	}
	var b strings.Builder
	for i := 0; i < len(text); i++ {
		switch c := text[i]; {
		case c == '\\' && i+1 < len(text):
			i++
			b.WriteByte(text[i])
		case quoted && c == '\'', !quoted && strings.IndexByte(blanks, c) >= 0:
			return b.String(), text[i+1:], nil
		default:
			b.WriteByte(c)
		}
	}
	if quoted {
		return "", "", errors.New("its quote isn't closed")
	}
	return b.String(), "", nil
}

// readService looks a service up in the user's file, then in the system's.
func readService(service string) (map[string]string, error) {
	own := os.Getenv("PGSERVICEFILE")
	if own == "" {
		if home, err := os.UserHomeDir(); err == nil {
			own = filepath.Join(home, ".pg_service.conf")
		}
	}
	system := os.Getenv("PGSYSCONFDIR")
	if system == "" {
		system = "/etc/postgresql-common"
	}
	for _, file := range []string{own, filepath.Join(system, "pg_service.conf")} {
		its, err := inFile(file, service)
		if its != nil || err != nil {
			return its, err
		}
	}
	return nil, fmt.Errorf("service=%s: no file of services has it", service)
}

// inFile returns a service's keywords, nil if the file doesn't have it.
func inFile(file, service string) (map[string]string, error) {
	f, err := os.Open(file)
	if err != nil {
		return nil, nil
	}
	defer f.Close()
	var its map[string]string
	for lines := bufio.NewScanner(f); lines.Scan(); {
		line := strings.Trim(lines.Text(), blanks)
		switch {
		case line == "" || line[0] == '#':
		case line[0] == '[':
			if its != nil {
				return its, nil
			}
			if line == "["+service+"]" {
				its = map[string]string{}
			}
		case its != nil:
			name, value, ok := strings.Cut(line, "=")
			if !ok || name == "service" {
				return nil, fmt.Errorf("service=%s: %s has a line that isn't keyword=value", service, file)
			}
			if _, is := its[name]; !is {
				its[name] = value
			}
		}
	}
	return its, nil
}
