package remote

import (
	"context"
	"crypto/tls"
	"errors"
	"fmt"
	"net"
	"net/url"
	"strconv"
	"strings"
	"time"

	"github.com/gomodule/redigo/redis"
)

// link is a connection to Redis, made again if it is lost. For one goroutine.
type link struct {
	url  string
	conn redis.Conn
	most int // how many messages are asked for at once; 0 for atOnce
}

// atOnce is how many messages are asked for at once.
const atOnce = 64

// do runs a command for which Redis may wait for some time.
func (l *link) do(waits time.Duration, command string, arguments ...any) (any, error) {
	if l.conn == nil {
		conn, err := dial(l.url)
		if err != nil {
			return nil, fmt.Errorf("connect to Redis: %w", err)
		}
		l.conn = conn
	}
	reply, err := redis.DoWithTimeout(l.conn, waits+patience, command, arguments...)
	if l.conn.Err() != nil {
		l.close()
	}
	return reply, err
}

// dial connects to a Redis by a URL as redis-py uses: redis://, rediss:// (TLS) or unix:///socket?db=0.
func dial(text string) (redis.Conn, error) {
	its, err := url.Parse(text)
	if err != nil {
		return nil, errors.New("can't read the URL of Redis") // the error would show a password
	}
	isTLS := its.Scheme == "rediss"
	options := []redis.DialOption{redis.DialReadTimeout(patience), redis.DialWriteTimeout(patience),
		redis.DialContextFunc(func(ctx context.Context, network, address string) (net.Conn, error) {
			return connect(ctx, network, address, isTLS)
		})}
	if isTLS { // what is inside is looked at
		its.Scheme = "redis"
	}
	if its.Scheme != "unix" {
		return redis.DialURL(its.String(), options...)
	}
	if number := its.Query().Get("db"); number != "" {
		database, err := strconv.Atoi(number)
		if err != nil {
			return nil, fmt.Errorf("the database %q of Redis: %w", number, err)
		}
		options = append(options, redis.DialDatabase(database))
	}
	if password, is := its.User.Password(); is {
		options = append(options, redis.DialUsername(its.User.Username()), redis.DialPassword(password))
	}
	return redis.Dial("unix", its.Path, options...)
}

// connect connects, and looks at what arrives.
func connect(ctx context.Context, network, address string, isTLS bool) (net.Conn, error) {
	ctx, cancel := context.WithTimeout(ctx, patience)
	defer cancel()
	dial := (&net.Dialer{}).DialContext
	if isTLS {
		dial = (&tls.Dialer{}).DialContext
	}
	conn, err := dial(ctx, network, address)
	if err != nil {
		return nil, err
	}
	return &guarded{Conn: conn}, nil
}

// CheckURL returns what is wrong with the URL of a Redis, as far as that can be checked without connecting.
func CheckURL(text string) error {
	its, err := url.Parse(text)
	switch {
	case err != nil:
		return errors.New("can't read the URL of Redis") // the error would show a password
	case its.Scheme != "redis" && its.Scheme != "rediss" && its.Scheme != "unix":
		return errors.New("the URL of Redis must begin with redis://, rediss:// or unix://")
	}
	return nil
}

func (l *link) close() {
	if l.conn != nil {
		l.conn.Close()
		l.conn = nil
	}
}

// add appends a message to a stream, whose length is limited.
func (l *link) add(stream string, text, signature []byte) error {
	_, err := l.do(0, "XADD", stream, "MAXLEN", "~", waiting(len(text)), "*", "m", text, "s", signature)
	return err
}

// waiting returns how many messages may wait in a stream, once one of this size is added: fewer if they are long, so that
// Redis keeps some backlogBytes for a watch that doesn't read.
func waiting(size int) int {
	if size == 0 || backlogBytes/size >= backlog {
		return backlog
	}
	return backlogBytes / size
}

// entry is one message of a stream.
type entry struct {
	id              string
	text, signature []byte
}

var errReply = errors.New("remote: unexpected form of an answer from Redis")

// read waits for a moment for the messages of a stream after an id.
func (l *link) read(stream, after string) ([]entry, error) {
	const wait = 200 * time.Millisecond
	if l.most == 0 {
		l.most = atOnce
	}
	reply, err := l.do(wait, "XREAD", "COUNT", l.most, "BLOCK", wait.Milliseconds(), "STREAMS", stream, after)
	if err != nil || reply == nil {
		return nil, err
	}
	streams, err := redis.Values(reply, nil)
	if err != nil || len(streams) != 1 {
		return nil, errReply
	}
	its, err := redis.Values(streams[0], nil)
	if err != nil || len(its) != 2 {
		return nil, errReply
	}
	list, err := redis.Values(its[1], nil)
	if err != nil {
		return nil, errReply
	}
	entries := make([]entry, 0, len(list))
	for _, one := range list {
		parts, err := redis.Values(one, nil)
		if err != nil || len(parts) != 2 {
			return nil, errReply
		}
		id, err := redis.String(parts[0], nil)
		if err != nil {
			return nil, errReply
		}
		fields, _ := redis.ByteSlices(parts[1], nil) // a message in another form isn't signed
		e := entry{id: id}
		for i := 0; i+1 < len(fields); i += 2 {
			switch string(fields[i]) {
			case "m":
				e.text = fields[i+1]
			case "s":
				e.signature = fields[i+1]
			}
		}
		entries = append(entries, e)
	}
	return entries, nil
}

// begunAnew reports whether a stream's messages begin before an id: Redis has lost what it had, and its ids come from
// another clock.
func (l *link) begunAnew(stream, after string) (bool, error) {
	reply, err := l.do(0, "XREVRANGE", stream, "+", "-", "COUNT", 1)
	if err != nil {
		return false, err
	}
	list, _ := redis.Values(reply, nil)
	if len(list) != 1 {
		return false, nil
	}
	parts, _ := redis.Values(list[0], nil)
	if len(parts) != 2 {
		return false, errReply
	}
	latest, err := redis.String(parts[0], nil)
	if err != nil {
		return false, errReply
	}
	a, b := idOf(latest), idOf(after)
	return a[0] < b[0] || a[0] == b[0] && a[1] < b[1], nil
}

// idOf returns an id's two numbers.
func idOf(text string) (its [2]uint64) {
	head, tail, _ := strings.Cut(text, "-")
	its[0], _ = strconv.ParseUint(head, 10, 64)
	its[1], _ = strconv.ParseUint(tail, 10, 64)
	return its
}

// stream reads a stream from now on, until ctx ends. take gets what arrived at once. Redis may have lost what it had,
// and its ids may start again: that is checked if nothing has arrived for a while. lost gets each error, and nil when
// things work again.
func stream(ctx context.Context, o *Options, name string, take func(*link, []entry), lost func(error)) {
	l := &link{url: o.Redis}
	defer l.close()
	after, heard, failing := "$", time.Now(), false
	for ctx.Err() == nil {
		var anew bool
		var err error
		if after != "$" && time.Since(heard) > time.Second {
			heard = time.Now()
			if anew, err = l.begunAnew(name, after); anew {
				after = "0-0"
			}
		}
		var entries []entry
		if err == nil {
			entries, err = l.read(name, after)
		}
		if errors.Is(err, errReplyTooLong) {
			if l.most == 1 { // nobody who has the key has sent that: it is passed over, and what is lost by it is counted
				after = "$"
			}
			l.most /= 2
		} else if err == nil {
			if l.most *= 2; l.most > atOnce {
				l.most = atOnce
			}
		}
		if err != nil {
			lost(err)
			failing = true
			pause(ctx, 200*time.Millisecond)
			continue
		}
		if failing {
			failing = false
			lost(nil)
		}
		if len(entries) > 0 {
			after, heard = entries[len(entries)-1].id, time.Now()
			take(l, entries)
		}
	}
}

func pause(ctx context.Context, d time.Duration) {
	select {
	case <-ctx.Done():
	case <-time.After(d):
	}
}

// complaints are logged at most once a minute each.
type complaints struct {
	log  func(string)
	told map[string]time.Time
}

func (c *complaints) say(text string) {
	if c.told == nil || len(c.told) > 100 {
		c.told = map[string]time.Time{}
	}
	if at, is := c.told[text]; is && time.Since(at) < time.Minute {
		return
	}
	c.told[text] = time.Now()
	c.log(text)
}

// behind returns the id after one.
func behind(id string) string {
	its := idOf(id)
	return strconv.FormatUint(its[0], 10) + "-" + strconv.FormatUint(its[1]+1, 10)
}
