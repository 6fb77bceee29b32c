// Package definitions keeps the catalog for planning statements up to date. A connection of the proxy's own loads it,
// and loads it again when a session or the slot reports a change, or a regular check finds one.
package definitions

import (
	"context"
	"fmt"
	"sync"
	"sync/atomic"
	"time"

	"github.com/jackc/pgconn"

	"zanteyard/catalog"
	"zanteyard/own"
	"zanteyard/plan"
	"zanteyard/record"
)

// A change is detected by the rows of the tables that contain definitions and rights: how many there are, and which
// transactions wrote them. Temporary tables don't count: each connection has its own, and shows which (package session).
var markText = own.SQL("SELECT pg_catalog.concat_ws('|'" +
	newest + "pg_catalog.pg_class WHERE relpersistence <> 't')" + newest + "pg_catalog.pg_proc)" +
	newest + "pg_catalog.pg_attribute WHERE (attnum > 0 OR attacl IS NOT NULL) AND attrelid >= 16384 AND attrelid NOT IN" + temporary +
	newest + "pg_catalog.pg_namespace WHERE nspname NOT LIKE 'pg\\_%temp\\_%')" +
	newest + "pg_catalog.pg_auth_members)" + newest + "pg_catalog.pg_enum)" +
	(newest + "pg_catalog.pg_index WHERE indrelid NOT IN" + temporary + newestMade + newestCalls) +
	// Settings that begin to count change what transactions begin at.
	", pg_catalog.pg_conf_load_time()" +
	// A view, without an xmin: reading pg_authid needs a right.
	", (SELECT pg_catalog.sum(pg_catalog.hashtext(r::pg_catalog.text)) FROM pg_catalog.pg_roles r))")

const (
	newest = ", (SELECT pg_catalog.concat_ws(',', pg_catalog.count(*), " +
		"pg_catalog.sum(xmin::pg_catalog.text::pg_catalog.int8)) FROM "
	temporary = " (SELECT oid FROM pg_catalog.pg_class WHERE relpersistence = 't'))"
	// newestMade is about what gives the server's own names another meaning.
	newestMade = newest + "pg_catalog.pg_operator WHERE oid >= 16384)" + newest + "pg_catalog.pg_cast WHERE oid >= 16384)"
	// newestCalls is about what tables call when they are written to.
	newestCalls = newest + "pg_catalog.pg_trigger WHERE tgrelid NOT IN" + temporary +
		newest + "pg_catalog.pg_attrdef WHERE adrelid NOT IN" + temporary +
		newest + "pg_catalog.pg_statistic_ext)" +
		newest + "pg_catalog.pg_constraint WHERE contype IN ('c', 'f') AND conrelid NOT IN" + temporary
)

// How often to look, and to load.
const (
	leastPause = time.Second // between two loads, however many changes are reported; less if the regular time is less
	glances    = 20          // a look at once takes one in so many of a processor's time
	part       = 125         // the regular looks take one in so many of a processor's time
	compared   = 8           // the shortest of so many looks is what one takes: others have waited
)

// settings: names come as the server stores them.
var settings = map[string]string{"client_encoding": "SQL_ASCII"}

// Definitions is safe for use by several goroutines.
type Definitions struct {
	config *pgconn.Config
	log    func(string)
	only   catalog.Filter
	reads  []catalog.Option
	cache  atomic.Pointer[plan.Cache]

	lock   sync.Mutex
	loaded *catalog.Catalog // without a search path
	path   string           // the application's search path; "" before the first connection has reported one
	wake   chan struct{}    // something may change soon
	hurry  chan struct{}    // something has changed
	every  time.Duration

	marked func() int64 // the audited server's mark (package own), 0 while there is none; nil: any server
	shown  int64        // the mark that the connection was last seen to be at; for Run alone
	mark   string       // used by Open, then only by Run
	failed string       // the last error that was logged

	took   []time.Duration // by the last looks for a change; for Run alone, as the next two
	whole  time.Duration   // by the last look, and loading the catalog if it did
	looked time.Time       // when it ended
	read   time.Time       // when the catalog was loaded last
	hasty  bool            // the next look is soon after the last one: if anything has changed, another one loads it
	loads  atomic.Uint64   // counts how often the catalog was loaded
	made   atomic.Uint64   // counts the calls of Remade
	seen   atomic.Uint64   // what made was before the last look that has succeeded
}

// New makes definitions that aren't loaded yet: Run loads them.
func New(config *pgconn.Config, every time.Duration, log func(string)) *Definitions {
	return &Definitions{config: config, log: log, wake: make(chan struct{}, 1), hurry: make(chan struct{}, 1), every: every}
}

// Only hides all tables that the filter excludes. Call it before Run.
func (d *Definitions) Only(filter catalog.Filter) { d.only = filter }

// WithConditions makes plans follow the conditions that SELECTs ask by. Call it before Run.
func (d *Definitions) WithConditions() { d.reads = append(d.reads, catalog.WithColumns) }

// OnlyCertainLists makes plans leave aggregates, and what an index may answer alone, as they are if their answers may
// depend on the server's plan. Call it before Run.
func (d *Definitions) OnlyCertainLists() { d.reads = append(d.reads, catalog.OnlyCertainLists) }

// FollowsTable reports whether a plan was made that follows a condition on this table's rows.
func (d *Definitions) FollowsTable(relation record.Relation) bool {
	cache := d.cache.Load()
	return cache != nil && cache.FollowsTable(relation)
}

// Follow makes the catalog be read from the server that has this mark. Call it before Run.
func (d *Definitions) Follow(marked func() int64) { d.marked = marked }

// here returns an error if the connection isn't to the audited server.
func (d *Definitions) here(ctx context.Context, conn *pgconn.PgConn) error {
	if d.marked == nil {
		return nil
	}
	mark := d.marked()
	if mark == 0 || mark == d.shown {
		return nil
	}
	is, err := own.SeesMark(ctx, conn, mark)
	if err == nil && !is {
		err = own.ErrElsewhere
	}
	if err == nil {
		d.shown = mark
	}
	return err
}

// Open loads the catalog of the database that the configuration names.
func Open(ctx context.Context, config *pgconn.Config, every time.Duration, log func(string),
	options ...catalog.Option) (*Definitions, error) {
	d := New(config, every, log)
	d.reads = options
	conn, err := own.Connect(ctx, config, settings)
	if err != nil {
		return nil, fmt.Errorf("connecting to read the catalog: %w", err)
	}
	defer conn.Close(context.Background())
	return d, d.renew(ctx, conn)
}

// renew loads the catalog if it has changed. A change between reading the mark and the catalog is seen by the next
// check.
func (d *Definitions) renew(ctx context.Context, conn *pgconn.PgConn) error {
	made, began := d.made.Load(), time.Now()
	mark, err := own.One(ctx, conn, markText)
	if d.took = append(d.took, time.Since(began)); len(d.took) > compared {
		d.took = d.took[1:]
	}
	if err == nil && mark != d.mark {
		if d.hasty && began.Sub(d.read) < leastPause {
			d.Changed()
			return nil
		}
		if err = d.load(ctx, conn); err == nil {
			d.mark = mark
		}
	}
	if err == nil {
		d.seen.Store(made)
	}
	return err
}

// PlanIn returns a statement's plan on a connection with this search path; nil as long as nothing is loaded.
func (d *Definitions) PlanIn(path, text string) (*plan.Plan, plan.Tokens) {
	if cache := d.cache.Load(); cache != nil {
		return cache.PlanIn(path, text)
	}
	return nil, plan.Tokens{}
}

// Encoding returns the server's encoding; "" as long as nothing is loaded.
func (d *Definitions) Encoding() string {
	if cache := d.cache.Load(); cache != nil {
		return cache.Catalog().Encoding
	}
	return ""
}

// guess is the search path by which names are resolved until the first connection has reported its own.
const guess = `["public"]`

// Own says whether a search path is the catalog's own, which is the first one that is asked for: that of a connection
// of the application, since the audit's own connections have another one.
func (d *Definitions) Own(path string) bool {
	d.lock.Lock()
	defer d.lock.Unlock()
	if d.path == "" && d.loaded != nil {
		d.path = path
		if path != guess {
			d.use()
		}
	}
	return path == d.path
}

// use makes plans be made by the catalog that was loaded last. Called with lock held.
func (d *Definitions) use() {
	path := d.path
	if path == "" {
		path = guess
	}
	c, err := d.loaded.In(path)
	if err != nil {
		c = d.loaded
	}
	if cache := d.cache.Load(); cache != nil {
		cache.Use(c)
	} else {
		d.cache.Store(plan.NewCache(c))
	}
}

// Generation increases whenever the catalog has been loaded again.
func (d *Definitions) Generation() uint64 {
	if cache := d.cache.Load(); cache != nil {
		return cache.Generation()
	}
	return 0
}

// Changed reports that something may have changed. It doesn't wait.
func (d *Definitions) Changed() {
	select {
	case d.wake <- struct{}{}:
	default:
	}
}

// Remade reports that somebody has made, changed or dropped what names may mean. It doesn't wait.
func (d *Definitions) Remade() {
	d.made.Add(1)
	select {
	case d.hurry <- struct{}{}:
	default:
	}
}

// Made returns how often that was reported, and of how many such reports the catalog shows what they were about. Who asks for
// a plan after that gets one of this catalog, or of a newer one.
func (d *Definitions) Made() (made, seen uint64) {
	seen = d.seen.Load()
	return d.made.Load(), seen
}

// Run loads the catalog and checks for changes until ctx ends. It calls loaded when there is a catalog for the first
// time.
func (d *Definitions) Run(ctx context.Context, loaded func()) {
	var conn *pgconn.PgConn
	defer func() {
		if conn != nil {
			conn.Close(context.Background())
		}
	}()
	for {
		began := time.Now()
		conn = d.look(ctx, conn)
		d.looked = time.Now()
		d.whole = d.looked.Sub(began)
		if d.cache.Load() != nil && loaded != nil {
			loaded()
			loaded = nil
		}
		if !d.pause(ctx) {
			return
		}
	}
}

// pause waits until it is time for the next look: after the regular time, or sooner if a change was reported. A server
// with very many tables takes long to look, so it is asked less often. It returns false once ctx has ended.
func (d *Definitions) pause(ctx context.Context) bool {
	d.hasty = false
	regular, urgent := pauses(d.every, shortest(d.took), d.whole)
	timer := time.NewTimer(regular)
	defer timer.Stop()
	select {
	case <-ctx.Done():
		return false
	case <-timer.C:
		return true
	case <-d.wake: // a session is about to change something: the change is visible a little later
	case <-d.hurry: // by the slot it is visible
		if hasty := glances * shortest(d.took); hasty < urgent {
			d.hasty, urgent = true, hasty
		}
	}
	soon := time.NewTimer(time.Until(d.looked.Add(urgent)))
	defer soon.Stop()
	select {
	case <-ctx.Done():
		return false
	case <-soon.C:
		return true
	}
}

func shortest(all []time.Duration) (least time.Duration) {
	for i, one := range all {
		if i == 0 || one < least {
			least = one
		}
	}
	return least
}

// pauses returns the time from one look to the next one: if nothing was reported, and if a change was. Looking for a
// change takes so long, and the last look with all that it loaded.
func pauses(every, took, whole time.Duration) (regular, urgent time.Duration) {
	regular, urgent = every, leastPause
	if urgent > every {
		urgent = every
	}
	if by := part * took; by > regular {
		regular = by
	}
	if whole > urgent {
		urgent = whole
	}
	return regular, urgent
}

// look loads the catalog if it has changed. It returns the connection for the next check, nil if there is none.
func (d *Definitions) look(ctx context.Context, conn *pgconn.PgConn) *pgconn.PgConn {
	limited, cancel := context.WithTimeout(ctx, 30*time.Second)
	defer cancel()
	var err error
	if conn == nil || conn.IsClosed() {
		conn, err = own.Connect(limited, d.config, settings)
		d.shown = 0
	}
	if err == nil {
		err = d.here(limited, conn)
	}
	if err == nil {
		err = d.renew(limited, conn)
	}
	if err == nil {
		d.failed = ""
		return conn
	}
	if conn != nil {
		conn.Close(context.Background())
	}
	if text := err.Error(); text != d.failed && ctx.Err() == nil {
		d.failed = text
		d.log("reading the catalog: " + text)
	}
	return nil
}

func (d *Definitions) load(ctx context.Context, conn *pgconn.PgConn) error {
	c, err := catalog.Load(ctx, func(text own.Text) ([][]string, error) { return own.Ask(ctx, conn, text) }, d.reads...)
	if err != nil {
		return err
	}
	c.Only(d.only)
	d.loads.Add(1)
	d.lock.Lock()
	defer d.lock.Unlock()
	d.read = time.Now()
	d.loaded = c
	d.use()
	return nil
}
