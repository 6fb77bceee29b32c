package main

import (
	"bytes"
	"context"
	"encoding/json"
	"fmt"
	"log"
	"os"
	"strings"
	"sync"
	"testing"
	"time"

	"github.com/gomodule/redigo/redis"
	"github.com/jackc/pgconn"
)

// marker is put where a statement, an error or a parameter may have something that nobody is to see. It is a word, and
// in places for numbers it is markerNumber.
const (
	marker       = "mArKeR9"
	markerNumber = "770011882299"
)

// places are statements with the marker in each place that isn't an identifier. Some fail: the server's error is the
// client's. The tests of what Python shows of them read the same file.
func places(t *testing.T) (texts []string) {
	t.Helper()
	text, err := os.ReadFile("testdata/places.json")
	if err == nil {
		err = json.Unmarshal(text, &texts)
	}
	if err != nil || len(texts) < 40 {
		t.Fatal(len(texts), err)
	}
	return texts
}

// saying keeps what a log says.
type saying struct {
	lock sync.Mutex
	its  bytes.Buffer
}

func (s *saying) Write(text []byte) (int, error) {
	s.lock.Lock()
	defer s.lock.Unlock()
	return s.its.Write(text)
}

func (s *saying) String() string {
	s.lock.Lock()
	defer s.lock.Unlock()
	return s.its.String()
}

// TestRedact: under --redact nothing of a constant, a comment, a parameter or a key is in the feed or in the log.
func TestRedact(t *testing.T) {
	said := &saying{}
	log.SetOutput(said)
	defer log.SetOutput(os.Stderr)
	c := start(t)
	conn := connectTo(t, c)
	sql(t, conn, "CREATE TABLE words (w text PRIMARY KEY, v numeric); INSERT INTO words VALUES ('mArKeR9', 1), ('x', 2)")
	p := begin(t, c, "--redact", "--parameters")
	var feed []string
	p.until(`["open"`)
	client := p.connect()
	again := p.connect()
	ctx := context.Background()
	for round := 0; round < 3; round++ {
		for i, text := range places(t) {
			block := i%2 == 0
			if block {
				client.Exec(ctx, "BEGIN").ReadAll()
			}
			client.Exec(ctx, text).ReadAll() // some fail
			if block {
				client.Exec(ctx, "COMMIT").ReadAll()
			}
			client.Exec(ctx, "ROLLBACK; DEALLOCATE ALL").ReadAll()
		}
		for _, one := range []string{"SELECT v FROM words WHERE w = $1", "UPDATE words SET v = v + 1 WHERE w = $1", "SELECT $1::int"} {
			for _, format := range []int16{0, 1} {
				again.ExecParams(ctx, one, [][]byte{[]byte(marker)}, nil, []int16{format}, nil).Read()
			}
		}
	}
	// gather takes the feed's lines up to an event.
	gather := func(event string) string {
		for end := time.After(time.Minute); ; {
			select {
			case line, ok := <-p.lines:
				if !ok {
					t.Fatal("the feed has ended: ", said.String())
				}
				feed = append(feed, line)
				var it struct{ Event string }
				if json.Unmarshal([]byte(line), &it) == nil && it.Event == event {
					return line
				}
			case <-end:
				t.Fatalf("no %s came: %s", event, said.String())
			}
		}
	}
	described := ""
	for n := 0; n < 60 && !strings.Contains(described, "SELECT v FROM words WHERE w = "); n++ {
		again.ExecParams(ctx, "SELECT v FROM words WHERE w = $1", [][]byte{[]byte(marker)}, nil, nil, nil).Read()
		gather("coverage")
		ids := offersOf(feed)
		if len(ids) > 200 {
			ids = ids[len(ids)-200:]
		}
		asked, _ := json.Marshal(ids)
		fmt.Fprintf(p.say, "{\"command\":\"describe\",\"id\":1,\"transactions\":%s}\n", asked)
		described = gather("transactions")
	}
	if !strings.Contains(described, `"public.words"`) || !strings.Contains(described, "SELECT v FROM words WHERE w = ") {
		t.Fatalf("no statement was described: %s", described)
	}
	for _, line := range append(feed, said.String()) {
		for _, its := range []string{marker, strings.ToLower(marker), markerNumber, "6d41724b655239"} {
			if at := strings.Index(line, its); at >= 0 {
				from, to := at-200, at+100
				if from < 0 {
					from = 0
				}
				if to > len(line) {
					to = len(line)
				}
				t.Errorf("%s is told: ..%s..", its, line[from:to])
				break
			}
		}
	}
}

// offersOf returns the names of the transactions that lines offer.
func offersOf(feed []string) (ids [][2]int64) {
	for _, line := range feed {
		var it []json.RawMessage
		if json.Unmarshal([]byte(line), &it) != nil || len(it) < 4 || string(it[0]) != `"offer"` {
			continue
		}
		var session, first int64
		var those []json.RawMessage
		if json.Unmarshal(it[1], &session) != nil || json.Unmarshal(it[2], &first) != nil || json.Unmarshal(it[3], &those) != nil {
			continue
		}
		for i := range those {
			ids = append(ids, [2]int64{session, first + int64(i)})
		}
	}
	return ids
}

// TestRedactElsewhere: what goes through Redis under --redact has no key either, and keys are still the same rows' for
// both proxies and the server's log.
func TestRedactElsewhere(t *testing.T) {
	c := start(t)
	r := startRedis(t)
	heard, err := redis.DialURL(r.url())
	if err != nil {
		t.Fatal(err)
	}
	defer heard.Close()
	if _, err := heard.Do("MONITOR"); err != nil {
		t.Fatal(err)
	}
	conn := connectTo(t, c)
	sql(t, conn, "CREATE TABLE words (w text PRIMARY KEY, v int); INSERT INTO words VALUES ('mArKeR9', 1)")
	shared := []string{"--redis", r.url(), "--audit", "shop", "--key", keyFile(t, someKey), "--redact", "--parameters"}
	p := begin(t, c, shared...)
	p.until("started")
	other, _ := elsewhere(t, sourceOf(c, "postgres"), shared...)
	a, b := p.connect(), other.connect()
	p.covered("the other proxy feeds", feeds(1))
	var before coverageEvent
	for n := 0; n < 300; n++ {
		for _, conn := range []*pgconn.PgConn{a, b} {
			sql(t, conn, "SELECT v FROM words WHERE w = 'mArKeR9' -- mArKeR9")
			sql(t, conn, "UPDATE words SET v = v + 1 WHERE w = 'mArKeR9'")
		}
		fmt.Fprintln(p.say, `{"command":"round"}`)
		if before = p.covered("any", whatever); before.Reads.Offered > 20 && before.Remote.Proxies[0].Transactions > 20 {
			break
		}
	}
	if before.Reads.Offered <= 20 {
		t.Errorf("only %d reads were offered", before.Reads.Offered)
	}
	messages := 0
	for messages < 100 {
		text, err := redis.String(redis.ReceiveWithTimeout(heard, 10*time.Second))
		if err != nil {
			break
		}
		messages++
		if strings.Contains(text, marker) || strings.Contains(text, strings.ToLower(marker)) {
			t.Fatalf("Redis is told: %s", text)
		}
	}
	if messages < 20 {
		t.Errorf("only %d messages were heard", messages)
	}
}
