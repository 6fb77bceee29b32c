package main

import (
	"context"
	"fmt"
	"testing"

	"github.com/jackc/pgconn"
)

// TestEncodings: a key's text is one key, whatever the encodings of the database and of the clients that read and write
// it, and two texts are two keys.
func TestEncodings(t *testing.T) {
	c := start(t)
	for i, x := range []struct {
		database string
		client   string // who reads; the writer's encoding is the database's
		read     string // the reader's bytes
		write    string // the writer's
		same     bool   // they are the same text
	}{
		{"LATIN1", "UTF8", "é", "\xe9", true},
		{"LATIN1", "LATIN1", "\xe9", "\xe9", true},
		{"WIN1252", "UTF8", "€", "\x80", true},
		{"UTF8", "LATIN1", "\xe9", "é", true},
		{"UTF8", "WIN1252", "\x80", "€", true},
		{"UTF8", "EUC_JP", "\xc6\xfc", "日", true},
		{"EUC_JP", "UTF8", "日", "\xc6\xfc", true},
		{"SQL_ASCII", "UTF8", "é", "é", true},
		{"SQL_ASCII", "LATIN1", "\xe9", "\xe9", true},
		{"UTF8", "SQL_ASCII", "é", "é", true},
		{"UTF8", "LATIN1", "Ã©", "é", false}, // the reader's bytes are those of two letters
		{"UTF8", "LATIN1", "\xc3\xa9", "é", false},
		{"LATIN1", "UTF8", "Ã©", "\xe9", false},
	} {
		i, x := i, x
		t.Run(fmt.Sprintf("%s, %s, %x", x.database, x.client, x.read), func(t *testing.T) {
			t.Parallel()
			name := fmt.Sprint("d", i)
			sql(t, directly(t, c), fmt.Sprintf("CREATE DATABASE %s ENCODING '%s' TEMPLATE template0 LOCALE 'C'", name, x.database))
			connect := func(port int, encoding string) *pgconn.PgConn {
				conn, err := pgconn.Connect(context.Background(), fmt.Sprintf(
					"host=127.0.0.1 port=%d user=postgres dbname=%s sslmode=disable client_encoding=%s", port, name, encoding))
				if err != nil {
					t.Fatal(err)
				}
				t.Cleanup(func() { conn.Close(context.Background()) })
				return conn
			}
			setup := connect(c.Port, x.database)
			sql(t, setup, schema)
			sql(t, setup, fmt.Sprintf("CREATE TABLE p (name text PRIMARY KEY, n int); INSERT INTO p VALUES ('%s', 0), ('z', 0)", x.write))
			if !x.same {
				sql(t, connect(c.Port, x.client), fmt.Sprintf("INSERT INTO p VALUES ('%s', 0)", x.read))
			}
			sql(t, setup, fmt.Sprintf("CREATE TYPE mood AS ENUM ('%s', 'z'); CREATE TABLE q (\"%s\" mood PRIMARY KEY)", x.write, x.write))
			p := begin(t, c, "--server", fmt.Sprintf("host=127.0.0.1 port=%d user=postgres dbname=%s sslmode=disable", c.Port, name))
			p.until(`["open"`)
			w := &watched{program: p}
			reader, writer := connect(p.port, x.client), connect(p.port, x.database)
			warm(t, reader, "SELECT n FROM p WHERE name = 'z'", "UPDATE account SET balance = balance WHERE id = 2")
			warm(t, writer, "UPDATE p SET n = n + 1 WHERE name = 'z'")
			offered := false
			for try := 1; try <= mostTries && !offered; try++ {
				one, two := fmt.Sprint("reads ", try), fmt.Sprint("writes ", try)
				sql(t, reader, "BEGIN /*tag='"+one+"'*/")
				sql(t, reader, fmt.Sprintf("SELECT n FROM p WHERE name = '%s'", x.read))
				sql(t, writer, "BEGIN /*tag='"+two+"'*/")
				sql(t, writer, fmt.Sprintf("UPDATE p SET n = n + 1 WHERE name = '%s'", x.write))
				sql(t, writer, "COMMIT")
				sql(t, reader, "COMMIT")
				its := w.tagged(reader, writer)
				a, there := its[one]
				b, written := its[two]
				if offered = there && written && len(a.Reads) == 1 && len(b.Writes) == 1; !offered {
					continue
				}
				if same := int(a.Reads[0][0].(float64)) == b.Writes[0]; same != x.same {
					t.Errorf("%x and %x count as the same key: %v", x.read, x.write, same)
				}
			}
			if !offered {
				t.Error("nothing was offered")
			}
			fmt.Fprintln(p.say, `{"command":"stop"}`)
			p.until("stopped")
		})
	}
}
