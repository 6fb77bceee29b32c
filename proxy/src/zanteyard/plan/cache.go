package plan

import (
	"hash/maphash"
	"strings"
	"sync"
	"sync/atomic"

	"zanteyard/catalog"
)

const (
	shards    = 16
	maxAsked  = 4  // how many columns a key that a statement asks for may have
	mostPaths = 64 // how many search paths have their own plans
)

// Limits of each of a shard's two generations: entries, and bytes of keys and samples.
const (
	shardEntries = 256
	shardBytes   = 1 << 20
	pathEntries  = 64
	pathBytes    = 64 << 10
)

// Cache holds plans, by the statements' texts without constants and comments. It is safe for use by many goroutines.
type Cache struct {
	state    atomic.Pointer[cached]
	scanners sync.Pool
	seed     maphash.Seed
	followed sync.Map // tables, by record.Relation
}

// cached is what is held for one catalog.
type cached struct {
	catalog    *catalog.Catalog
	generation uint64
	unknown    *Plan
	entries    int
	bytes      int
	shards     [shards]shard

	lock  sync.RWMutex
	paths map[string]*cached // by search path
}

// shard keeps its plans in two generations: when the younger one is full it becomes the older one, whose plans are
// forgotten unless they are used in the meantime.
type shard struct {
	lock       sync.RWMutex
	young, old map[string]*Plan
	size       int // of the younger generation's keys and samples
}

// NewCache makes a cache of plans for a catalog.
func NewCache(c *catalog.Catalog) *Cache {
	cache := &Cache{seed: maphash.MakeSeed()}
	cache.scanners.New = func() any { return &scanner{} }
	cache.Use(c)
	return cache
}

// Use forgets all plans, and makes future ones for another catalog.
func (c *Cache) Use(with *catalog.Catalog) {
	next := &cached{
		catalog: with, generation: 1, entries: shardEntries, bytes: shardBytes, paths: map[string]*cached{},
	}
	if before := c.state.Load(); before != nil {
		next.generation = before.generation + 1
	}
	next.unknown = unknownPlan(next.generation)
	c.state.Store(next)
}

// in returns the cache for a search path. Beyond a number of paths, names are resolved by the catalog's own path, as one that
// may be another: the trial on a connection shows whether that is right for what returns rows.
func (s *cached) in(path string) *cached {
	s.lock.RLock()
	found, ok := s.paths[path]
	s.lock.RUnlock()
	if ok {
		return found
	}
	s.lock.Lock()
	defer s.lock.Unlock()
	if found, ok := s.paths[path]; ok {
		return found
	}
	if len(s.paths) >= mostPaths {
		return s.beyond(strings.HasPrefix(path, Converting))
	}
	view, err := s.view(path)
	if err != nil {
		return s.beyond(strings.HasPrefix(path, Converting))
	}
	if !view.Converts && strings.Join(view.Path, "\x00") == strings.Join(s.catalog.Path, "\x00") {
		s.paths[path] = s
		return s
	}
	made := &cached{catalog: view, generation: s.generation, unknown: s.unknown, entries: pathEntries, bytes: pathBytes}
	s.paths[path] = made
	return made
}

// beyond returns the cache for paths that have none of their own, or that can't be read. The lock is held.
func (s *cached) beyond(converts bool) *cached {
	key := "?"
	if converts {
		key = Converting + key
	}
	if s.paths[key] == nil {
		view := *s.catalog
		view.Path = append([]string{catalog.Unsure}, s.catalog.Path...)
		view.Converts = view.Converts || converts
		s.paths[key] = &cached{catalog: &view, generation: s.generation, unknown: s.unknown, entries: pathEntries, bytes: pathBytes}
	}
	return s.paths[key]
}

// Converting precedes the search path of a connection whose texts the server converts.
const Converting = "~"

func (s *cached) view(path string) (*catalog.Catalog, error) {
	rest := strings.TrimPrefix(path, Converting)
	view, err := s.catalog, error(nil)
	if rest != "" {
		view, err = s.catalog.In(rest)
	}
	if err == nil && rest != path {
		its := *view
		its.Converts = true
		view = &its
	}
	return view, err
}

// Generation counts the catalogs that the cache was given.
func (c *Cache) Generation() uint64 { return c.state.Load().generation }

// Catalog returns the one that plans are made for now.
func (c *Cache) Catalog() *catalog.Catalog { return c.state.Load().catalog }

// Plan returns the plan of a statement's text, and its places in this text. It never fails: a text that can't be
// understood has a plan that leaves it unchanged.
func (c *Cache) Plan(text string) (*Plan, Tokens) { return c.lookUp(c.state.Load(), text) }

// PlanIn is Plan for a connection with another search path than the catalog's, as catalog.PathSQL reports it there,
// with Converting before it if the server converts the connection's texts. For "" it is Plan.
func (c *Cache) PlanIn(path, text string) (*Plan, Tokens) {
	state := c.state.Load()
	if path != "" {
		state = state.in(path)
	}
	return c.lookUp(state, text)
}

func (c *Cache) lookUp(state *cached, text string) (*Plan, Tokens) {
	s := c.scanners.Get().(*scanner)
	defer c.giveBack(s)
	p := c.find(state, s, text, false)
	if p.apart {
		p = c.find(state, s, text, true)
	}
	if p == state.unknown {
		return p, Tokens{at: nowhere}
	}
	p, tokens := c.locate(state, p, text, s.tokens)
	tokens.left = s.left
	return p.named(s), tokens
}

// find returns a text's plan, and its tokens in the scanner.
func (c *Cache) find(state *cached, s *scanner, text string, apart bool) *Plan {
	if s.apart = apart; !s.scan(text) {
		return state.unknown
	}
	s.nameless()
	home := &state.shards[maphash.Bytes(c.seed, s.key)%shards]
	p := home.find(state, s.key)
	if p == nil {
		p = c.make(state, s)
		c.follows(p)
		home.keep(state, string(s.key), p)
	}
	return p
}

// follows remembers the tables that a plan asks by a condition. One by a whole key asks only if it finds no row.
func (c *Cache) follows(p *Plan) {
	if p.follow == nil {
		return
	}
	if p.follow.tables = &c.followed; !p.ByKey {
		p.HasAsked()
	}
}

func (c *Cache) giveBack(s *scanner) {
	s.text = "" // it may be long
	c.scanners.Put(s)
}

func (h *shard) find(state *cached, key []byte) *Plan {
	h.lock.RLock()
	p, ok := h.young[string(key)]
	if !ok {
		p = h.old[string(key)]
	}
	h.lock.RUnlock()
	if !ok && p != nil { // it is in use: it stays
		h.keep(state, string(key), p)
	}
	return p
}

func (h *shard) keep(state *cached, key string, p *Plan) {
	size := 2*len(key) + len(p.sample) + 512
	h.lock.Lock()
	defer h.lock.Unlock()
	if h.young == nil || len(h.young) >= state.entries || h.size+size > state.bytes {
		h.old, h.young, h.size = h.young, make(map[string]*Plan, 16), 0
	}
	h.young[key] = p
	h.size += size
}

// locate finds a plan's places in a text.
func (c *Cache) locate(state *cached, p *Plan, text string, list []token) (*Plan, Tokens) {
	if p.custom != nil && p.setsCustom(text, list) {
		p = p.custom
	}
	for _, at := range p.positions {
		if !within(text, list, at) {
			p = p.misplaced
			break
		}
	}
	for _, at := range p.labels {
		if text[list[at].start] != '\'' {
			p = p.misplaced
			break
		}
	}
	if p.Copied && areLong(p.insertions[0].in(list, 0).copied) {
		p = p.misplaced
	}
	tokens := Tokens{at: nowhere}
	for i, one := range p.insertions {
		if its := one.in(list, 0); i == 0 {
			tokens.at, tokens.copied = its.at, its.copied
		} else {
			tokens.further = append(tokens.further, its.at)
		}
	}
	for i, part := range p.asked {
		if part.token >= 0 {
			at := list[part.token]
			tokens.constants[i] = span{at.start, at.end}
		}
	}
	if p.follow != nil {
		tokens.follow = p.follow.places(text, list)
	}
	if p.Kind == Several {
		tokens.parts = c.parts(state, p, text, list)
	}
	return p, tokens
}

// within reports whether a constant means one of the statement's own columns, or no column at all.
func within(text string, tokens []token, at position) bool {
	t := tokens[at.token]
	place := 0
	for _, c := range text[t.start:t.end] {
		if c < '0' || c > '9' || place > at.columns {
			return false
		}
		place = 10*place + int(c-'0')
	}
	return place >= 1 && place <= at.columns
}
