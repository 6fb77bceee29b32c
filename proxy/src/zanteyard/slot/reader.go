package slot

import (
	"bufio"
	"context"
	"encoding/binary"
	"errors"
	"fmt"
	"io"
	"strings"
	"sync"
	"sync/atomic"
	"time"

	"github.com/jackc/pgconn"

	"zanteyard/address"
	"zanteyard/guard"
	"zanteyard/loop"
	"zanteyard/own"
	"zanteyard/record"
)

// Reader reads a slot over its own replication connection.
type Reader struct {
	options Options
	plugin  Plugin
	tables  *Tables
	conn    *pgconn.PgConn
	from    string    // where the slot begins
	asked   time.Time // when it was made, zero if it was there before
	mark    int64
	loud    bool // warnings of the connection are written to the server's log

	raw      io.ReadWriteCloser
	writing  sync.Mutex
	received uint64 // atomic: everything up to this place is received
	pings    chan struct{}
}

// pause is the time between two looks at what the server has sent. Nothing uses it sooner: the joiner works in steps,
// and asks for the log's place first.
const pause = 5 * time.Millisecond

// decoder makes commits from a plugin's messages.
type decoder interface {
	decode(text []byte, end uint64) (record.Commit, bool, error)
}

// Open connects and makes the slot. Like the server, it waits for open transactions; if ctx ends first, the error is
// ErrBlocked. The contents of Tables are read again by Control.Load.
func Open(ctx context.Context, options Options, tables *Tables) (*Reader, error) {
	conn, err := connect(ctx, options, true)
	if err != nil {
		return nil, fmt.Errorf("connect for the replication slot: %w", err)
	}
	r := &Reader{options: options, tables: tables, conn: conn, pings: make(chan struct{}, 1)}
	if err := r.begin(ctx); err != nil {
		end, cancel := context.WithTimeout(context.Background(), time.Second)
		defer cancel()
		conn.Close(end)
		return nil, err
	}
	return r, nil
}

// begin marks the server, then makes the slot.
func (r *Reader) begin(ctx context.Context) (err error) {
	if r.mark, err = own.SetMark(ctx, r.conn); err != nil {
		return err
	}
	if r.options.Marked != nil {
		r.options.Marked(r.mark)
	}
	if err := r.patient(ctx); err != nil {
		return err
	}
	quiet, err := r.quiet(ctx)
	if err != nil {
		return err
	}
	r.loud = !quiet
	return r.create(ctx)
}

// Asked is when the slot was asked for: nothing that had ended by then is in it. It is zero if the slot was there before.
func (r *Reader) Asked() time.Time { return r.asked }

// Mark is the lock that the slot's connection holds: whoever sees it is connected to the server whose log is read.
func (r *Reader) Mark() int64 { return r.mark }

func connect(ctx context.Context, options Options, replication bool) (*pgconn.PgConn, error) {
	config, err := address.Parse(options.Source)
	if err != nil {
		return nil, err
	}
	settings := map[string]string{}
	for name, value := range options.Settings {
		settings[name] = value
	}
	if replication {
		settings["replication"] = "database"
		settings["client_min_messages"] = "warning"
	} else {
		settings["synchronous_commit"] = "off"
		settings["default_transaction_isolation"] = "read committed"
		settings["default_transaction_read_only"] = "off"
	}
	return own.Connect(ctx, config, settings)
}

// create makes the slot with the first plugin that is installed and that the server lets us use: since 15.19 the server
// has a list of those (output_plugin_libraries), which doesn't contain wal2json by default.
func (r *Reader) create(ctx context.Context) error {
	kind := "TEMPORARY "
	if r.options.Permanent {
		kind = ""
	}
	plugins := []Plugin{Wal2json, TestDecoding}
	if r.options.Plugin != "" {
		plugins = []Plugin{r.options.Plugin}
	}
	refused := ErrNoPlugin
	for _, plugin := range plugins {
		r.asked = time.Now()
		rows, err := own.Ask(ctx, r.conn, own.Command("CREATE_REPLICATION_SLOT %s %sLOGICAL %s NOEXPORT_SNAPSHOT",
			own.Name{r.options.Name}, own.Word(kind), own.Word(plugin)))
		switch {
		case err == nil && len(rows) == 1 && len(rows[0]) >= 2:
			r.plugin, r.from = plugin, rows[0][1]
			return nil
		case err == nil:
			return errForm
		case ctx.Err() != nil:
			return fmt.Errorf("%w (%v)", ErrBlocked, err)
		case r.options.Permanent && hasCode(err, "42710"): // it is there from an earlier run, so what it reports first is old
			r.plugin, r.from, r.asked = plugin, "0/0", time.Time{}
			return r.known(ctx)
		case hasCode(err, "42501"): // or the role may not make slots at all: then the next one is refused too
			refused = fmt.Errorf("make the replication slot: %w", err)
		case !isMissing(err):
			return fmt.Errorf("make the replication slot: %w", err)
		}
	}
	return refused
}

// known finds the plugin of an existing slot, and whether it can be read.
func (r *Reader) known(ctx context.Context) error {
	rows, err := own.Ask(ctx, r.conn, own.SQL("SELECT plugin, database = pg_catalog.current_database(), active "+
		"FROM pg_catalog.pg_replication_slots WHERE slot_name = %s", own.Literal(r.options.Name)))
	switch {
	case err != nil:
		return fmt.Errorf("look at the replication slot: %w", err)
	case len(rows) != 1 || rows[0][1] != "t":
		return fmt.Errorf("the replication slot %s belongs to another database", r.options.Name)
	case rows[0][2] == "t":
		return fmt.Errorf("the replication slot %s is in use", r.options.Name)
	}
	r.plugin = Plugin(rows[0][0])
	if r.plugin != Wal2json && r.plugin != TestDecoding {
		return fmt.Errorf("the replication slot %s has the plugin %s", r.options.Name, r.plugin)
	}
	return nil
}

// isMissing reports whether an error means that a plugin's file is missing.
func isMissing(err error) bool { return hasCode(err, "58P01") || hasCode(err, "42704") }

func hasCode(err error, code string) bool {
	var told *pgconn.PgError
	return errors.As(err, &told) && told.Code == code
}

// Plugin returns the slot's plugin.
func (r *Reader) Plugin() Plugin { return r.plugin }

// Read gives the receiver what the slot reports, until ctx ends, the receiver or the server ends it, or the connection
// is lost.
func (r *Reader) Read(ctx context.Context, to Receiver) error {
	var its decoder
	var command string
	if r.plugin == Wal2json {
		its = &wal2json{tables: r.tables, canonical: r.options.Canonical, wanted: r.options.Values}
		command = r.begins().String()
	} else {
		its = &testDecoding{tables: r.tables, canonical: r.options.Canonical}
		command = own.Command("START_REPLICATION SLOT %s LOGICAL %s ("+testDecodingOptions+")", own.Name{r.options.Name},
			own.Word(r.from)).String()
	}
	hijacked, err := r.conn.Hijack()
	if err != nil {
		return err
	}
	r.raw = hijacked.Conn
	if its, ok := loop.NewSeldom(hijacked.Conn, pause); ok {
		r.raw = its
	}
	ctx, cancel := context.WithCancel(ctx)
	defer cancel()
	go func() { // ends a read that waits
		<-ctx.Done()
		r.raw.Close()
	}()
	message := append([]byte{'Q'}, binary.BigEndian.AppendUint32(nil, uint32(len(command)+5))...)
	message = append(append(message, command...), 0)
	if _, err := r.raw.Write(message); err != nil {
		return fmt.Errorf("begin the replication: %w", err)
	}
	failed := make(chan error, 1)
	guard.Go("the slot's reports", func(err error) {
		failed <- err
		cancel()
	}, func() { r.report(ctx) })
	err = r.receive(its, to)
	select {
	case wrong := <-failed:
		return wrong
	default:
	}
	if ctx.Err() != nil {
		return ctx.Err()
	}
	return err
}

// receive handles one message after another.
func (r *Reader) receive(its decoder, to Receiver) error {
	frames := bufio.NewReaderSize(r.raw, 1<<16)
	var header [5]byte
	var body []byte
	for {
		if _, err := io.ReadFull(frames, header[:]); err != nil {
			return fmt.Errorf("the replication slot's connection was lost: %w", err)
		}
		n := int(binary.BigEndian.Uint32(header[1:])) - 4
		if n < 0 {
			return errForm
		}
		if cap(body) < n || cap(body) > large && n < large {
			body = make([]byte, n+n/4)
		}
		body = body[:n]
		if _, err := io.ReadFull(frames, body); err != nil {
			return fmt.Errorf("the replication slot's connection was lost: %w", err)
		}
		guard.At("a message of the slot")
		switch header[0] {
		case 'd':
			if err := r.data(body, its, to); err != nil {
				return err
			}
		case 'N':
			if is, ok := its.(*wal2json); ok {
				is.warned(body)
			}
		case 'E':
			return fmt.Errorf("%w: %s", ErrEnded, textOf(body))
		case 'c', 'C', 'Z': // the server is shutting down
			return ErrEnded
		}
	}
}

// large is the size of the largest buffer that is kept for later messages.
const large = 1 << 20

// data handles the inside of a CopyData: what the plugin wrote, or how far the server is.
func (r *Reader) data(body []byte, its decoder, to Receiver) error {
	if err := r.tables.hides(); err != nil {
		return err
	}
	switch {
	case len(body) >= 25 && body[0] == 'w':
		end := binary.BigEndian.Uint64(body[1:])
		commit, is, err := its.decode(body[25:], end)
		if err != nil || !is {
			return err
		}
		commit.At = timeOf(binary.BigEndian.Uint64(body[17:]))
		r.note(commit.LSN)
		return to.Commit(commit)
	case len(body) >= 18 && body[0] == 'k':
		place := binary.BigEndian.Uint64(body[1:])
		r.note(place)
		if body[17] == 1 {
			r.Ping()
		}
		return to.Advance(place)
	}
	return errForm
}

func (r *Reader) note(place uint64) {
	if place > atomic.LoadUint64(&r.received) {
		atomic.StoreUint64(&r.received, place)
	}
}

// report reports to the server what is received, so that it keeps no log for it: once a second, and when asked.
func (r *Reader) report(ctx context.Context) {
	ticker := time.NewTicker(time.Second)
	defer ticker.Stop()
	for {
		select {
		case <-ctx.Done():
			return
		case <-ticker.C:
		case <-r.pings:
		}
		guard.At("a report to the slot")
		message := make([]byte, 0, 39)
		message = append(message, 'd', 0, 0, 0, 38, 'r')
		place := atomic.LoadUint64(&r.received)
		for i := 0; i < 3; i++ { // written, flushed, applied
			message = binary.BigEndian.AppendUint64(message, place)
		}
		message = binary.BigEndian.AppendUint64(message, uint64(time.Since(epoch).Microseconds()))
		message = append(message, 1) // and the server answers with how far it is
		r.writing.Lock()
		_, err := r.raw.Write(message)
		r.writing.Unlock()
		if err != nil {
			return // the reading side reports that
		}
	}
}

// Ping makes the server say how far it is.
func (r *Reader) Ping() {
	select {
	case r.pings <- struct{}{}:
	default:
	}
}

// epoch is where PostgreSQL's timestamps begin.
var epoch = time.Date(2000, 1, 1, 0, 0, 0, 0, time.UTC)

func timeOf(microseconds uint64) time.Time {
	return epoch.Add(time.Duration(microseconds) * time.Microsecond)
}

// textOf returns the message of an ErrorResponse or a NoticeResponse.
func textOf(body []byte) string {
	for len(body) > 1 {
		field, rest, _ := strings.Cut(string(body[1:]), "\x00")
		if body[0] == 'M' {
			return field
		}
		body = []byte(rest)
	}
	return "no reason was given"
}
