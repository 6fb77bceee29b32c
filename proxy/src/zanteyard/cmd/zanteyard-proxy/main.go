// Zanteyard-proxy stands between an application and its PostgreSQL server, and audits what its transactions read and
// write. The application uses the proxy's address instead of the server's; nothing else of it changes.
package main

import (
	"context"
	"crypto/tls"
	"errors"
	"flag"
	"fmt"
	"io"
	"log"
	"net"
	"os"
	"runtime"
	"runtime/debug"
	"strings"
	"sync"
	"sync/atomic"
	"time"

	"github.com/jackc/pgconn"

	"zanteyard/address"
	"zanteyard/audit"
	"zanteyard/catalog"
	"zanteyard/definitions"
	"zanteyard/guard"
	"zanteyard/histories"
	"zanteyard/join"
	"zanteyard/keys"
	"zanteyard/loop"
	"zanteyard/meeting"
	"zanteyard/remote"
	"zanteyard/server"
	"zanteyard/session"
	"zanteyard/slot"
)

// build is set by the linker: a commit and a date.
var build = "unknown"

type flags struct {
	listen, server    string
	certificate, key  string
	secure, trusts    bool
	bound, look       time.Duration
	reads             int
	texts, parameters bool
	slot              string
	permanent         bool
	kept, held        int64
	join              join.Options
	tables            catalog.Filter
	redis, audit      string
	shared, name      string
	remote, redact    bool
	conditions        bool
	aggregates        bool
	records           string
	passing           bool
	drain             time.Duration
	most              int
	control           string
	takesOver         bool
	version           bool
}

func parse(args []string, errors io.Writer) (flags, error) {
	var f flags
	set := flag.NewFlagSet("zanteyard-proxy", flag.ContinueOnError)
	var told strings.Builder // its errors are in the returned error as well
	set.SetOutput(&told)
	set.StringVar(&f.listen, "listen", "127.0.0.1:6432", "`address` for clients to connect to; with a / it is a Unix socket's path")
	set.StringVar(&f.server, "server", "", "the server and database, as libpq's `URL` or keywords; "+
		"its user and password are for the audit's own connections. Better given by the environment's "+serverURL)
	set.StringVar(&f.certificate, "tls-cert", "", "`file` with the certificate for clients' TLS")
	set.StringVar(&f.key, "tls-key", "", "`file` with its key")
	set.BoolVar(&f.secure, "require-tls", false, "refuse clients without TLS, except those by a Unix socket")
	set.BoolVar(&f.trusts, "trust-clients", false, "let clients in whom the server asks for no credential (pg_hba.conf's trust, "+
		"peer, ident): whoever reaches the proxy is such a client")
	set.DurationVar(&f.bound, "hold", 3*time.Millisecond,
		"the longest `time` for which a meeting holds what clients begin; with --remote seven times as long")
	set.DurationVar(&f.look, "look", time.Second, "`time` between two checks for changed definitions")
	set.IntVar(&f.reads, "reads", 10000, "the largest `number` of reads kept of one transaction")
	set.BoolVar(&f.texts, "statements", true, "keep statements' texts for explanations")
	set.BoolVar(&f.parameters, "parameters", false, "keep their parameters as well")
	set.StringVar(&f.slot, "slot", "", "`name` of the replication slot (default: a name of its own)")
	set.BoolVar(&f.permanent, "permanent-slot", false, "keep the slot after the proxy ends: it must be dropped by hand")
	set.Int64Var(&f.kept, "kept", 4<<30, "`bytes` of WAL that the server may keep for the slot before the audit ends")
	set.Int64Var(&f.held, "held", 64<<20, "`bytes` of records that may wait for the audit")
	set.IntVar(&f.join.Sessions, "sessions", 256, "the largest `number` of the auditor's sessions")
	set.IntVar(&f.join.First, "first-sessions", 8, "how many `sessions` an audit begins with")
	set.IntVar(&f.join.Limit, "limit", 131072, "`number` of transactions that may remain at a time")
	set.Func("promise", "serializable, or snapshot: audit for snapshot isolation", func(text string) error {
		f.join.Snapshot = text == "snapshot"
		if text != "snapshot" && text != "serializable" {
			return fmt.Errorf("give serializable or snapshot")
		}
		return nil
	})
	set.BoolVar(&f.join.Rollbacks, "rollbacks", false, "below serializable, audit transactions that only read and were rolled back "+
		"without a failed statement as if they had been committed")
	set.BoolVar(&f.aggregates, "aggregates", false, "see all aggregates, groups, and what an index may answer alone, also where an "+
		"answer may then have its rows in another order")
	set.BoolVar(&f.conditions, "conditions", true, "audit what conditions passed over, too, except with --remote and --records")
	set.Float64Var(&f.join.Sample, "sample", 1, "the `part` of the connections that is audited")
	set.DurationVar(&f.join.Between, "between", time.Second, "the `time` between two meetings")
	set.Func("tables", "audit only these tables, given as `patterns` such as public.*, shop.orders", func(text string) (err error) {
		f.tables, err = catalog.ParseFilter(text)
		return err
	})
	set.StringVar(&f.redis, "redis", "", "let several proxies feed one audit through the Redis with this `URL`; better "+
		"given by the environment's "+redisURL)
	set.StringVar(&f.audit, "audit", "", "the audit's `name` in that Redis")
	set.StringVar(&f.shared, "key", "", "`file` with the key that proxies and audit share")
	set.BoolVar(&f.remote, "remote", false, "audit nothing here: send the records to the audit of that name")
	set.BoolVar(&f.redact, "redact", false, "tell nobody a constant, parameter or comment of a statement, or a row's key")
	set.StringVar(&f.name, "name", "", "this proxy's name in the audit (default: the machine's name)")
	set.StringVar(&f.records, "records", "", "write the records to this `file`, as JSON, and audit nothing")
	set.BoolVar(&f.passing, "pass", false, "pass traffic on unchanged, and audit nothing")
	set.DurationVar(&f.drain, "drain", 30*time.Second,
		"the longest `time` for which open transactions may go on after SIGTERM or SIGINT; a second signal ends them at once")
	set.IntVar(&f.most, "most-connections", 0, "the largest `number` of clients at a time (0: as many as the server takes)")
	set.StringVar(&f.control, "control", "", "a Unix socket's `path`, by which programs of the same user audit through this proxy, "+
		"in place of its standard input and output")
	set.BoolVar(&f.takesOver, "take-over", false, "take the listening socket of the proxy that has the --control socket, if one is "+
		"there, and let that one drain")
	set.BoolVar(&f.version, "version", false, "print the version and end")
	if err := set.Parse(args); err != nil {
		fmt.Fprint(errors, strings.TrimPrefix(told.String(), err.Error()+"\n"))
		return f, err
	}
	fromEnvironment(&f.server, serverURL)
	fromEnvironment(&f.redis, redisURL)
	if set.NArg() > 0 {
		return f, fmt.Errorf("unexpected argument %q", set.Arg(0))
	}
	switch {
	case f.version:
		return f, nil
	case f.server == "":
		return f, fmt.Errorf("--server is missing")
	case f.audit == "" && (f.remote || f.shared != ""):
		return f, fmt.Errorf("--audit is missing")
	case f.audit != "" && (f.redis == "" || f.shared == ""):
		return f, fmt.Errorf("--audit needs --redis and --key")
	case f.secure && f.certificate == "":
		return f, fmt.Errorf("--require-tls needs --tls-cert and --tls-key")
	case f.takesOver && f.control == "":
		return f, fmt.Errorf("--take-over needs --control")
	case f.most < 0 || f.drain < 0:
		return f, fmt.Errorf("--most-connections and --drain can't be negative")
	}
	return f, nil
}

// fromEnvironment fills in what wasn't given as an option. It is no default of the option: --help shows those.
func fromEnvironment(option *string, name string) {
	if *option == "" {
		*option = os.Getenv(name)
	}
}

// longest is how long a client may be held for a meeting.
func (f flags) longest() time.Duration {
	if f.remote {
		return remote.Longest(f.bound)
	}
	return f.bound
}

// The environment variables for --server and --redis: a list of processes doesn't show them.
const (
	serverURL = "ZANTEYARD_URL"
	redisURL  = "ZANTEYARD_REDIS"
)

func main() {
	if len(os.Args) > 1 && os.Args[1] == "import" {
		os.Exit(histories.Run(os.Args[2:], os.Stdin, os.Stdout, os.Stderr))
	}
	f, err := parse(os.Args[1:], os.Stderr)
	switch {
	case errors.Is(err, flag.ErrHelp):
		return
	case err != nil:
		fmt.Fprintln(shownLog{os.Stderr}, "zanteyard-proxy:", err)
		os.Exit(2)
	case f.version:
		fmt.Println("zanteyard-proxy", build)
		return
	}
	log.SetFlags(log.LstdFlags | log.Lmsgprefix)
	log.SetPrefix("zanteyard-proxy: ")
	its := newWords(os.Stderr)
	log.SetOutput(its)
	err = serve(context.Background(), f, outside{in: os.Stdin, out: os.Stdout, signals: listenForSignals(), words: its})
	if err != nil {
		log.Print(err)
	}
	its.close()
	if status := statusOf(err); status != 0 {
		os.Exit(status)
	}
}

// cantBegin is why the program ends before it accepts connections.
type cantBegin struct{ error }

func (c cantBegin) Unwrap() error { return c.error }

// statusOf returns the exit status, as all commands of zanteyard have it: 2 if it cannot begin, 4 after a fault.
func statusOf(err error) int {
	var mistake cantBegin
	switch {
	case err == nil:
		return 0
	case errors.As(err, &mistake):
		return 2
	default:
		return 4
	}
}

// outside is what the program has outside, other than connections.
type outside struct {
	in      io.Reader // the parent's commands
	out     io.Writer // the feed
	signals <-chan os.Signal
	words   *words // the log
}

// hosts returns how many servers a connection string names. The ways to reach one server, with TLS and without, count
// once.
func hosts(config *pgconn.Config) int {
	type place struct {
		host string
		port uint16
	}
	its := map[place]bool{{config.Host, config.Port}: true}
	for _, f := range config.Fallbacks {
		its[place{f.Host, f.Port}] = true
	}
	return len(its)
}

// serve is the program: it passes traffic on until ctx ends or a signal ends it, and talks with its parent.
func serve(ctx context.Context, f flags, its outside) error {
	ctx, cancel := context.WithCancel(ctx)
	defer cancel()
	config, err := address.Parse(f.server)
	if err != nil {
		return cantBegin{fmt.Errorf("--server: %w", err)}
	}
	if !f.passing && hosts(config) > 1 {
		return cantBegin{errors.New("--server: an audit has exactly one server, but several are given: a connection could use " +
			"one of them while the log of another is read")}
	}
	var clientTLS *tls.Config
	reload := func() { log.Print("SIGHUP: there is no certificate to read (--tls-cert)") }
	if f.certificate != "" || f.key != "" {
		own, err := readCertificate(f.certificate, f.key)
		if err != nil {
			return cantBegin{err}
		}
		clientTLS = own.config()
		reload = own.reload
	}
	listener, control, err := f.sockets(its.words)
	if err != nil {
		return cantBegin{err}
	}
	defer listener.Close()
	options := &session.Options{
		Policy:    session.Policy{Statements: f.texts, Parameters: f.parameters, Redacts: f.redact},
		ReadLimit: f.reads,
		Bound:     f.longest(),
		Shared:    session.NewShared(),
		Log:       func(text string) { log.Print(text) },
	}
	// Go collects garbage when there is as much of it as memory in use. That is more than necessary if 250,000 rows are
	// known, and too little if few are: half as much is enough, plus some that counts as in use but takes no memory, since
	// nothing is ever written to it. It allows 32 MiB of garbage before any is collected.
	ballast := make([]byte, 64<<20)
	defer runtime.KeepAlive(ballast)
	if os.Getenv("GOGC") == "" {
		debug.SetGCPercent(50)
	}
	loops, err := loop.New()
	if err != nil {
		return err
	}
	go fewProcessors(ctx, loops)
	room := meeting.NewRoom(f.bound)
	finish, end, err := look(ctx, f, config, options, room, its, control)
	if err != nil {
		return err
	}
	defer end()
	defer cancel()
	go warnOfTLS(ctx, f, config, options.Log)
	s := server.New(server.Options{
		Loops:     loops,
		Server:    config,
		ClientTLS: clientTLS,

		RequireTLS:   f.secure,
		TrustClients: f.trusts,
		Database:     config.Database,
		Session:      options,
		Room:         room,
		Log:          options.Log,
		Draining:     f.drain,
		Most:         f.most,
	})
	go signals{drain: func() {
		log.Printf("ending: no more connections are accepted, and open transactions have %v", f.drain)
		s.Drain()
	}, end: cancel, reload: reload}.follow(ctx, its.signals)
	if control != nil {
		control.handOver = func() (*os.File, func(), error) {
			its, err := file(listener)
			return its, s.Drain, err
		}
		go control.run(ctx)
	}
	log.Printf("listening on %s", listener.Addr())
	err = s.Serve(ctx, listener)
	finish(ctx)
	return err
}

// sockets returns the socket for clients, and the one for programs of this machine, if there is one.
func (f flags) sockets(its *words) (listener net.Listener, controls *control, err error) {
	if f.takesOver {
		if listener, err = takeOver(f.control); err != nil {
			return nil, nil, err
		}
	}
	if listener == nil {
		if listener, err = listen(f.listen); err != nil {
			return nil, nil, err
		}
	}
	if f.control != "" {
		if controls, err = newControl(f.control, its); err != nil {
			listener.Close()
			return nil, nil, err
		}
	}
	return listener, controls, nil
}

// look fills in how sessions look at statements, and to whom they report what they saw. If something in it fails, that
// ends the audit, not the proxy. Before ctx ends, finish lets the audit make its last round; after it end waits.
func look(ctx context.Context, f flags, config *pgconn.Config, options *session.Options, room *meeting.Room,
	outer outside, controls *control) (finish func(context.Context), end func(), err error) {
	finish = func(context.Context) {}
	var loaded atomic.Bool
	var first sync.Once
	ready := make(chan struct{}) // closed when the catalog was read for the first time
	options.Auditing = loaded.Load
	options.Generation, options.Defined = func() uint64 { return 0 }, func() {}
	if options.Sink, end, err = newRecords(f.records); err != nil || f.passing {
		return finish, end, err
	}
	d := definitions.New(config, f.look, options.Log)
	d.Only(f.tables)
	f.conditions = f.conditions && !f.remote && f.records == ""
	if f.conditions {
		d.WithConditions()
	}
	if !f.aggregates {
		d.OnlyCertainLists()
	}
	options.Plans, options.Generation, options.Defined = d, d.Generation, d.Changed
	failed := func(err error) { options.Log(err.Error() + "; traffic goes on: " + guard.Stack(err)) }
	options.Plans = newPlanner(d, options.Log)
	defer func() {
		go forever(ctx, "the definitions", func(err error) {
			loaded.Store(false)
			failed(err)
		}, func() error {
			d.Run(ctx, func() {
				loaded.Store(true)
				first.Do(func() { close(ready) })
			})
			return nil
		})
	}()
	if f.records != "" {
		return finish, end, nil
	}
	var shared remote.Options
	if f.audit != "" {
		if shared, err = sharing(f, config, options.Log); err != nil {
			return nil, nil, err
		}
	}
	if f.remote {
		end, err = post(ctx, f, shared, options, room, &loaded, ready)
		d.Follow(options.Mark)
		return finish, end, err
	}
	none := audit.None()
	sink := newSwitched(none.Sink())
	all := &audits{last: none, isNew: true, sink: sink, log: options.Log, ready: ready, config: audit.Config{Slot: slotOptions(f), Join: f.join, Meeter: room,
		Held: int(f.held), Kept: uint64(f.kept), Out: outer.out}}
	options.Sink = sink
	sink.fail, failed = all.fail, all.fail
	options.Auditing = func() bool { return loaded.Load() && all.running.Load() }
	options.Mark = all.mark.Load
	d.Follow(options.Mark)
	all.config.Slot.Marked = all.mark.Store
	all.config.Slot.Remade, options.Made = d.Remade, d.Made
	if f.conditions {
		all.config.Slot.Values, all.config.Join.Shapes = d.FollowsTable, f.redact
	}
	hide(f, &shared, options, &all.config)
	var running sync.WaitGroup
	if f.audit != "" {
		hub, err := remote.NewHub(shared, sink, all.running.Load)
		if err != nil {
			return nil, nil, err
		}
		all.config.Begins = hub.Begins
		all.config.Meeter = remote.NewMeeter(room, hub)
		beside(&running, func() {
			forever(ctx, "what proxies elsewhere report", all.fail, func() error { return hub.Run(ctx) })
		})
	}
	if controls != nil {
		controls.audits = true
		beside(&running, func() { all.attend(ctx, controls) })
	} else {
		beside(&running, func() { all.run(ctx, outer.in) })
	}
	return all.finish, running.Wait, nil
}

func beside(all *sync.WaitGroup, f func()) {
	all.Add(1)
	go func() {
		defer all.Done()
		f()
	}()
}

// sharing returns what several proxies of one audit need to know.
func sharing(f flags, config *pgconn.Config, log func(string)) (remote.Options, error) {
	if err := remote.CheckURL(f.redis); err != nil {
		return remote.Options{}, err
	}
	key, err := remote.ReadKey(f.shared)
	return remote.Options{Redis: f.redis, Audit: f.audit, Key: key, Server: config, Bound: f.bound, Log: log,
		Redacts: f.redact}, err
}

// post makes sessions send what they saw to an audit elsewhere.
func post(ctx context.Context, f flags, shared remote.Options, options *session.Options, room *meeting.Room,
	loaded *atomic.Bool, ready <-chan struct{}) (end func(), err error) {
	name := f.name
	if name == "" {
		if name, err = os.Hostname(); err != nil {
			return nil, err
		}
	}
	its, err := remote.NewPost(shared, name, int(f.held), room)
	if err != nil {
		return nil, err
	}
	options.Sink = its
	options.Auditing = func() bool { return loaded.Load() && its.Auditing() }
	options.Mark = its.Mark
	var running sync.WaitGroup
	beside(&running, func() {
		awaitCatalog(ctx, ready)
		forever(ctx, "what this proxy reports", func(err error) { options.Log(err.Error() + "; traffic goes on: " + guard.Stack(err)) },
			func() error { return its.Run(ctx) })
	})
	return running.Wait, nil
}

func slotOptions(f flags) slot.Options {
	return slot.Options{Source: f.server, Settings: keys.SlotSettings(), Name: f.slot, Permanent: f.permanent,
		Asked: f.tables, Canonical: keys.FromSlot, Show: keys.Show}
}

func listen(address string) (net.Listener, error) {
	network := "tcp"
	if strings.Contains(address, "/") {
		network = "unix"
	}
	listener, err := net.Listen(network, address)
	if err != nil {
		return nil, fmt.Errorf("--listen: %w", err)
	}
	return listener, nil
}
