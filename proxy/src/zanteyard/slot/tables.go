package slot

import (
	"sort"
	"strconv"
	"strings"
	"sync"
	"sync/atomic"
	"time"

	"zanteyard/catalog"
	"zanteyard/join"
	"zanteyard/record"
)

// Table is a table, or a partition, with its primary key.
type Table struct {
	Relation     record.Relation
	Root         record.Relation // the topmost partitioned table, if that has a primary key; otherwise the table itself
	Schema, Name string
	Key          []Column        // in the key's order; none without a primary key
	unasked      bool            // it isn't among those to audit
	stamp        string          // changes with the table's name or key
	version      string          // changes with each write to its definition (versionOfOne)
	identity     record.Identity // of the key
	deferrable   bool            // the key is
	noOldKeys    bool            // the log doesn't have a row's old key
	identified   bool            // the log identifies its rows that are updated or deleted, or has none of them
	used         uint32          // atomic: the slot has reported it
	// columns are those of the topmost partitioned table, by name, and shape is their identity; nil and 0 if values are
	// never wanted.
	columns map[string]*catalog.Column
	shape   record.Identity
}

// Column is a column of a key. Type is a type that Canonical knows: for a domain, its base type.
type Column struct {
	Name string
	Type uint32
}

func (t *Table) hasKey(name []byte) bool {
	for _, part := range t.Key {
		if part.Name == string(name) {
			return true
		}
	}
	return false
}

// sameKey reports whether the key has exactly these columns: if not, the table was altered since.
func (t *Table) sameKey(names [][]byte) bool {
	if len(names) != len(t.Key) {
		return false
	}
	for _, name := range names {
		if !t.hasKey(name) {
			return false
		}
	}
	return true
}

// left are changes of a table that are left out, by the table's name and the reason.
type left struct{ table, reason string }

// Why changes are left out.
const (
	noKey     = "the table has no primary key"
	noKeyLog  = "the log doesn't have the row's key, as for a long one that is stored apart and stays as it is"
	truncated = "TRUNCATE: its rows count as deleted by somebody else"
	notKnown  = "a table that isn't known yet, any more, or by this key"
)

// Tables is what is known about a database's tables, by name and by identifier. Safe for use by many goroutines.
type Tables struct {
	show func(uint32, string) string

	lock    sync.RWMutex
	by      map[record.Relation]*Table
	byName  map[string]map[string]*Table // by schema and name
	names   uint64                       // how often names were read
	uses    uint64                       // atomic: how many have been used
	oids    string                       // of the tables that are used, as an array's text
	stamp   string                       // their stamps
	version string                       // and versions
	made    record.Identity              // of what operators and the like mean; 0 before it was asked for
	missing bool                         // an unknown name arrived: the tables have to be read again
	left    map[left]uint64              // changes that are left out
	strange map[string]time.Time         // unknown names, and when the tables were last to be read again because of them
	// hidden are the schemas and names of tables that the slot leaves out, and appeared is 1 once one of them mustn't be.
	hidden   map[[2]string]bool
	appeared uint32 // atomic
}

func newTables(show func(uint32, string) string) *Tables {
	return &Tables{show: show, left: map[left]uint64{}, strange: map[string]time.Time{}}
}

// set replaces all tables, and returns those that have changed, and those whose definitions have been written since.
func (t *Tables) set(all []*Table) (changed []record.Relation, rewritten []join.Rewritten) {
	by, names := make(map[record.Relation]*Table, len(all)), map[string]map[string]*Table{}
	for _, one := range all {
		by[one.Relation] = one
		if names[one.Schema] == nil {
			names[one.Schema] = map[string]*Table{}
		}
		names[one.Schema][one.Name] = one
	}
	t.lock.Lock()
	defer t.lock.Unlock()
	for relation, was := range t.by {
		is := by[relation]
		if is == nil || is.stamp != was.stamp || is.Root != was.Root {
			changed = append(changed, relation, was.Root)
		} else if is.version != was.version {
			rewritten = append(rewritten, is.rewritten(was.version))
		}
		if is != nil {
			is.used = atomic.LoadUint32(&was.used)
		}
	}
	for relation, is := range by {
		if t.by != nil && t.by[relation] == nil {
			changed = append(changed, relation, is.Root)
		}
	}
	t.by, t.byName, t.missing = by, names, false
	t.names++
	t.appears()
	t.stampOf()
	return changed, rewritten
}

// rewritten says who has written its definition since it had another version.
func (t *Table) rewritten(was string) join.Rewritten {
	return join.Rewritten{Relation: t.Relation, Root: t.Root, By: writersOf(was, t.version)}
}

// writersOf returns who wrote the parts of a version (versionOfOne) that aren't the same in another one; none if a part is
// gone, since nothing says who dropped it.
func writersOf(was, is string) (by []uint32) {
	old := map[string]string{}
	for _, part := range strings.Fields(was) {
		name, number, _ := strings.Cut(part, ":")
		old[name] = number
	}
	for _, part := range strings.Fields(is) {
		name, text, _ := strings.Cut(part, ":")
		if before, there := old[name]; !there || before != text {
			number, _ := strconv.ParseUint(text, 10, 32)
			by = append(by, uint32(number))
		}
		delete(old, name)
	}
	if len(old) > 0 {
		return nil
	}
	return by
}

// versions takes over the versions of used tables, and returns those that have changed.
func (t *Tables) versions(text string) (rewritten []join.Rewritten) {
	t.lock.Lock()
	defer t.lock.Unlock()
	if text == t.version {
		return nil
	}
	for _, version := range strings.Split(text, "; ") {
		oid, _, _ := strings.Cut(version, " ")
		number, _ := strconv.ParseUint(oid, 10, 32)
		if one := t.by[record.Relation(number)]; one != nil && one.version != version {
			was := one.version
			one.version = version
			rewritten = append(rewritten, one.rewritten(was))
		}
	}
	t.stampOf()
	return rewritten
}

// stampOf joins the stamps that are expected of the tables in use. Called with lock held.
func (t *Tables) stampOf() {
	var its []*Table
	for _, one := range t.by {
		if atomic.LoadUint32(&one.used) == 1 {
			its = append(its, one)
		}
	}
	sort.Slice(its, func(i, j int) bool { return its[i].Relation < its[j].Relation })
	oids, stamps, versions := make([]string, len(its)), make([]string, len(its)), make([]string, len(its))
	for i, one := range its {
		oids[i], stamps[i], versions[i] = strconv.FormatUint(uint64(one.Relation), 10), one.stamp, one.version
	}
	t.oids, t.stamp, t.version = "{"+strings.Join(oids, ",")+"}", strings.Join(stamps, "; "), strings.Join(versions, "; ")
}

// usedText returns the used tables as an array's text, and how many these are at least; usedStamp is what is expected of
// them.
func (t *Tables) usedText() (oids string, used uint64) {
	used = atomic.LoadUint64(&t.uses)
	t.lock.Lock()
	defer t.lock.Unlock()
	t.stampOf()
	return t.oids, used
}

func (t *Tables) usedStamp() string {
	t.lock.RLock()
	defer t.lock.RUnlock()
	return t.stamp
}

// Names returns how often names were read: names in a decoded commit have the meaning of that time.
func (t *Tables) Names() uint64 {
	t.lock.RLock()
	defer t.lock.RUnlock()
	return t.names
}

// named returns the table of that name, or nil if none is known. From then on it counts as used.
func (t *Tables) named(schema, table []byte) *Table {
	t.lock.RLock()
	defer t.lock.RUnlock()
	its := t.byName[string(schema)][string(table)]
	t.use(its)
	return its
}

// use marks a table as used. Called with lock held for reading: a table isn't replaced meanwhile.
func (t *Tables) use(table *Table) {
	if table != nil && atomic.LoadUint32(&table.used) == 0 && atomic.SwapUint32(&table.used, 1) == 0 {
		atomic.AddUint64(&t.uses, 1)
	}
}

// Used returns how many tables have been used.
func (t *Tables) Used() uint64 { return atomic.LoadUint64(&t.uses) }

// Use implements join.Tables.
func (t *Tables) Use(relation record.Relation) {
	t.lock.RLock()
	defer t.lock.RUnlock()
	t.use(t.by[relation])
}

// Same implements join.Tables.
func (t *Tables) Same(relation record.Relation, identity record.Identity) bool {
	t.lock.RLock()
	defer t.lock.RUnlock()
	its := t.by[relation]
	if its == nil || identity == 0 {
		return false
	}
	root := t.by[its.Root]
	return its.identity == identity || root != nil && root.identity == identity
}

// SameColumns implements join.Columns.
func (t *Tables) SameColumns(relation record.Relation, identity record.Identity) bool {
	t.lock.RLock()
	defer t.lock.RUnlock()
	its := t.by[relation]
	return its != nil && its.shape != 0 && catalog.ColumnsIdentity(its.shape, t.made) == identity
}

func (t *Tables) knowsMade() bool {
	t.lock.RLock()
	defer t.lock.RUnlock()
	return t.made != 0
}

// remade takes over what operators and the like mean now (catalog.MadeSQL), and reports whether that has changed.
func (t *Tables) remade(text string) bool {
	is := catalog.IdentityOf(text)
	t.lock.Lock()
	defer t.lock.Unlock()
	was := t.made
	t.made = is
	return was != 0 && was != is
}

// list returns all tables, by name.
func (t *Tables) list() []*Table {
	t.lock.RLock()
	defer t.lock.RUnlock()
	its := make([]*Table, 0, len(t.by))
	for _, one := range t.by {
		its = append(its, one)
	}
	sort.Slice(its, func(i, j int) bool {
		return its[i].Schema < its[j].Schema || its[i].Schema == its[j].Schema && its[i].Name < its[j].Name
	})
	return its
}

// patience is how long a name that stays unknown doesn't make the tables be read again.
const patience = 30 * time.Second

// unknown records that a name isn't known, or has another meaning than before: the change is left out.
func (t *Tables) unknown(schema, table []byte) {
	name := string(schema) + "." + string(table)
	t.lock.Lock()
	defer t.lock.Unlock()
	t.leave(name, notKnown)
	if last, is := t.strange[name]; is && time.Since(last) < patience {
		return
	}
	if len(t.strange) >= mostNames {
		t.strange = map[string]time.Time{}
	}
	t.strange[name], t.missing = time.Now(), true
}

// without counts a change of a table that is left out.
func (t *Tables) without(table *Table, reason string) {
	t.lock.Lock()
	defer t.lock.Unlock()
	t.leave(table.Schema+"."+table.Name, reason)
}

// leave is called with lock held.
func (t *Tables) leave(table, reason string) {
	its := left{table, reason}
	if _, is := t.left[its]; !is && len(t.left) >= mostNames {
		its.table = "others"
	}
	t.left[its]++
}

// mostNames limits the tables that are counted separately.
const mostNames = 100

// leaves reports whether changes of the table are left out, and if so counts one.
func (t *Tables) leaves(table *Table) bool {
	reason := noKey
	switch {
	case table.unasked:
		reason = catalog.NotAsked
	case table.deferrable:
		reason = catalog.Deferrable
	case len(table.Key) > 0 && table.noOldKeys:
		reason = catalog.NoOldKeys
	case len(table.Key) > 0:
		return false
	}
	t.without(table, reason)
	return true
}

// LeftOut calls take for each table and reason with the number of changes that are left out.
func (t *Tables) LeftOut(take func(table, reason string, changes uint64)) {
	t.lock.RLock()
	defer t.lock.RUnlock()
	for its, n := range t.left {
		take(its.table, its.reason, n)
	}
}

// Missing reports whether unknown names have arrived: Control.Load reads the catalog again.
func (t *Tables) Missing() bool {
	t.lock.RLock()
	defer t.lock.RUnlock()
	return t.missing
}

// Root implements join.Tables.
func (t *Tables) Root(relation record.Relation) record.Relation {
	t.lock.RLock()
	defer t.lock.RUnlock()
	if it := t.by[relation]; it != nil {
		return it.Root
	}
	return relation
}

// Words implements join.Tables.
func (t *Tables) Words(relation record.Relation, key record.Key) (table, row string, columns []string) {
	t.lock.RLock()
	it := t.by[relation]
	t.lock.RUnlock()
	parts := strings.Split(string(key), "\x00")
	if it == nil {
		return "a dropped table", strings.Join(parts, ", "), nil
	}
	columns = make([]string, len(it.Key))
	for i, one := range it.Key {
		columns[i] = one.Name
	}
	if t.show != nil && len(parts) == len(it.Key) {
		for i := range parts {
			parts[i] = t.show(it.Key[i].Type, parts[i])
		}
	}
	return it.Schema + "." + it.Name, strings.Join(parts, ", "), columns
}
