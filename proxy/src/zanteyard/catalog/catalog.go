// Package catalog knows what the proxy needs of a database's definitions: its tables with their keys, which tables can
// be audited, and which functions read or write. A Catalog is a snapshot that never changes: after DDL it is loaded
// again.
package catalog

import (
	"context"
	"encoding/json"
	"fmt"

	"zanteyard/keys"
	"zanteyard/own"
	"zanteyard/record"
)

// Query runs one statement that returns rows, with each value as text. No value is NULL.
type Query func(text own.Text) ([][]string, error)

// Column is a column of a table. Type is the type by which package keys interprets its values: a domain's base type,
// keys.Enum for every enumeration.
type Column struct {
	Name   string
	Number int16
	Type   uint32
	Meaning
}

// Table is a relation that a FROM clause can name.
type Table struct {
	OID          uint32
	Schema, Name string
	Kind         byte   // pg_class.relkind: r, p (partitioned), v, m, f or S
	RowType      uint32 // the type of a whole row
	Root         uint32 // the topmost partitioned table, or the table itself
	Columns      []Column
	Key          []Column // of the primary key, in its order
	Identity     record.Identity
	// ColumnsIdentity is that of all columns, if it was asked for (WithColumns).
	ColumnsIdentity record.Identity
	// Hidden says why the table's rows can't be identified by hidden columns with xmin and key; "" if they can.
	Hidden string
	// RowSecurity says that policies may hide rows from a role: then a missing row may still exist.
	RowSecurity bool
	// Rules says that a rule rewrites what is written to the table: RETURNING may be refused.
	Rules bool
	// Triggers says that user triggers may write when the table is written to.
	Triggers bool
	// Planned says that to plan a statement that reads the table may call what others have made: functions of indexes, of a
	// range's type and the like.
	Planned bool
	// Foreign says that writing to the table may call what others have made: triggers, or functions of defaults and the like.
	Foreign bool
	// Indexes are the sets of columns, by number, that a single index can return.
	Indexes [][]int16
	// Unique are the sets of columns, by number, other than the key, of which no two rows have the same values, except NULL.
	Unique [][]int16
	// References are its foreign keys that the server checks, to tables like itself (referencesSQL).
	References []Reference

	system   system
	children int // tables that inherit from it, except partitions
}

// system is what decides whether a table can be audited.
type system struct {
	persistence, replica, method string
	primary, identity            bool // there is a primary key; and its index is the replica identity
	deferrable                   bool // the primary key is checked at the end of a transaction
}

// Partitioned says that rows are in partitions: RETURNING can't return the xmin of what INSERT or UPDATE wrote.
func (t *Table) Partitioned() bool { return t.Kind == 'p' }

// Alone says that to read the table reads no other one.
func (t *Table) Alone() bool { return t.Kind == 'r' && t.children == 0 }

// Column finds a column by its name.
func (t *Table) Column(name string) (Column, bool) {
	for _, c := range t.Columns {
		if c.Name == name {
			return c, true
		}
	}
	return Column{}, false
}

// Covered says whether a single index contains all of these columns, given by number.
func (t *Table) Covered(columns map[int16]bool) bool {
	for _, index := range t.Indexes {
		held := 0
		for _, number := range index {
			if columns[number] {
				held++
			}
		}
		if held == len(columns) {
			return true
		}
	}
	return false
}

// CoveredWith says whether each single index that contains all of these columns contains all of others, too.
func (t *Table) CoveredWith(columns map[int16]bool, others []int16) bool {
	for _, index := range t.Indexes {
		held := map[int16]bool{}
		for _, number := range index {
			held[number] = true
		}
		covers, all := true, true
		for number := range columns {
			covers = covers && held[number]
		}
		for _, number := range others {
			all = all && held[number]
		}
		if covers && !all {
			return false
		}
	}
	return true
}

// Catalog is a snapshot of one database's definitions.
type Catalog struct {
	// Path is the search path by which unqualified names are resolved, which In sets. A catalog that was just loaded has
	// none: the connection that loads it has another one than the application's.
	Path []string
	// Encoding is the server's encoding. The texts of a replication slot have it.
	Encoding string

	// Levels says that there is a function which may set the level that transactions begin at.
	Levels bool
	// Foreign says that any statement may call what others have made: an operator, a cast, the check of a domain.
	Foreign bool
	// Converts makes plans ask for texts in the server's encoding.
	Converts bool

	tables    map[uint32]*Table
	names     map[string]map[string]*Table // by schema and name
	sole      map[string]*Table            // by name, nil if several schemas have it
	functions map[string]*functions
	cascades  map[uint32][]uint32 // tables whose rows change with those of another one
	operators map[string]operator // whose functions aren't pure, or return sets, by name
	certain   bool                // OnlyCertainLists was given
	elsewhere *elsewhere
	columns   map[uint32]record.Identity // of tables
}

// Option changes what Load reads.
type Option func(*Catalog)

// WithColumns makes Load read the identities of tables' columns, which reads by conditions need.
func WithColumns(c *Catalog) { c.columns = map[uint32]record.Identity{} }

// OnlyCertainLists makes plans list the rows that an aggregate was made of, and look into tables of which an index has all,
// only for statements whose answers are the same whatever plan the server chooses.
func OnlyCertainLists(c *Catalog) { c.certain = true }

// ListsAll reports whether plans may do so for all statements.
func (c *Catalog) ListsAll() bool { return !c.certain }

// WithConditions reports whether the identities of columns were read.
func (c *Catalog) WithConditions() bool { return c.columns != nil }

// Load reads a database's definitions.
func Load(ctx context.Context, query Query, options ...Option) (*Catalog, error) {
	c := &Catalog{
		tables:    map[uint32]*Table{},
		names:     map[string]map[string]*Table{},
		sole:      map[string]*Table{},
		functions: map[string]*functions{},
		operators: map[string]operator{},
		cascades:  map[uint32][]uint32{},
	}
	for _, option := range options {
		option(c)
	}
	// What changes while this is read has another identity afterwards: so identities come first.
	if err := c.loadColumns(query); err != nil {
		return nil, err
	}
	types := types{}
	meanings := newMeanings(c, types)
	for _, part := range []struct {
		what string
		text own.Text
		take func(row []string) error
	}{
		{"the encoding", encodingSQL, c.takeEncoding},
		{"types", typesSQL, types.take},
		{"tables", tablesSQL, c.takeTable},
		{"columns", columnsSQL, func(row []string) error { return c.takeColumn(types, row) }},
		{"labels", labelsSQL, meanings.takeLabel},
		{"what columns mean", meaningsSQL, meanings.takeColumn},
		{"indexes", indexesSQL, c.takeIndex}, // whose columns are copies
		{"triggers", triggersSQL, c.takeTrigger},
		{"foreign keys", referencesSQL, c.takeReference},
		{"what tables call", callsSQL, c.takeCall},
		{"what planning calls", plannedSQL, c.takePlanned},
		{"what statements call", foreignSQL, c.takeForeign},
		{"functions", functionsSQL, c.takeFunction},
		{"operators", operatorsSQL, c.takeOperator},
		{"what has names of the server's own", elsewhereSQL, meanings.takeElsewhere},
	} {
		if err := ctx.Err(); err != nil {
			return nil, err
		}
		rows, err := query(part.text)
		if err != nil {
			return nil, fmt.Errorf("reading %s of the catalog: %w", part.what, err)
		}
		for _, row := range rows {
			if err := part.take(row); err != nil {
				return nil, fmt.Errorf("reading %s of the catalog: %w", part.what, err)
			}
		}
	}
	c.judge()
	return c, nil
}

// Table finds a relation by its object identifier.
func (c *Catalog) Table(oid uint32) (*Table, bool) {
	t, ok := c.tables[oid]
	return t, ok
}

// Find finds a relation by its name: in the search path if no schema is given, and else in the only schema with such a
// relation, since the application's roles may have another search path.
func (c *Catalog) Find(schema, name string) (*Table, bool) {
	if schema != "" {
		t, ok := c.names[schema][name]
		return t, ok
	}
	for _, schema := range c.Path {
		if t, ok := c.names[schema][name]; ok {
			return t, true
		}
	}
	t := c.sole[name]
	return t, t != nil
}

// In is the same catalog with another search path, as returned by PathSQL.
func (c *Catalog) In(path string) (*Catalog, error) {
	view := *c
	view.Path = nil
	if err := json.Unmarshal([]byte(path), &view.Path); err != nil {
		return nil, fmt.Errorf("reading a search path: %w", err)
	}
	return &view, nil
}

// Root is the topmost partitioned table of a partition, and any other table itself.
func (c *Catalog) Root(oid uint32) uint32 {
	if t, ok := c.tables[oid]; ok {
		return t.Root
	}
	return oid
}

// Tables returns all relations, in no particular order.
func (c *Catalog) Tables() []*Table {
	all := make([]*Table, 0, len(c.tables))
	for _, t := range c.tables {
		all = append(all, t)
	}
	return all
}

// judge decides for each table why it can't be audited, if it can't. A partitioned table needs all of its partitions.
func (c *Catalog) judge() {
	for _, t := range c.tables {
		t.Hidden = t.reason()
	}
	for _, t := range c.tables {
		root, ok := c.tables[t.Root]
		if !ok || root == t {
			continue
		}
		if t.Hidden != "" && root.Hidden == "" {
			root.Hidden = "a partition can't be seen: " + t.Hidden
		}
		root.Triggers = root.Triggers || t.Triggers
	}
	for more := true; more; {
		more = false
		for _, t := range c.tables {
			more = c.spreads(t) || more
		}
	}
	for _, t := range c.tables { // a partition is written through its parents, of which there may be several
		if root, ok := c.tables[t.Root]; ok && t.Kind == 'p' && root != t {
			t.Hidden, t.Triggers = root.Hidden, root.Triggers
		}
	}
}

// spreads makes a table one that calls what others have made if writing to it writes to such a one, and reports whether it
// has become one.
func (c *Catalog) spreads(t *Table) bool {
	if root, ok := c.tables[t.Root]; ok && t.Foreign && !root.Foreign {
		root.Foreign = true
		return true
	}
	if t.Foreign {
		return false
	}
	t.Foreign = t.Triggers || t.Rules || t.RowSecurity
	if root, ok := c.tables[t.Root]; ok && root.Foreign {
		t.Foreign = true
	}
	for _, oid := range c.cascades[t.OID] {
		if child, ok := c.tables[oid]; ok && child.Foreign {
			t.Foreign = true
		}
	}
	return t.Foreign
}

func (t *Table) reason() string {
	switch {
	case t.Kind == 'v':
		return "a view"
	case t.Kind == 'm':
		return "a materialized view"
	case t.Kind == 'S':
		return "a sequence"
	case t.Kind == 'f':
		return "a foreign table"
	case t.system.persistence == "u":
		return "an unlogged table"
	case t.system.persistence == "t":
		return "a temporary table"
	case t.Kind == 'r' && t.system.method != "heap":
		return "it isn't stored as a heap"
	case !t.system.primary:
		return "no primary key"
	case t.system.deferrable:
		return Deferrable
	case t.children > 0:
		return "other tables inherit from it"
	case t.Kind == 'r' && (t.system.replica == "n" || t.system.replica == "i" && !t.system.identity):
		return NoOldKeys
	}
	for _, column := range t.Key {
		if !keys.Known(column.Type) {
			return "the type of key column " + column.Name + " has no canonical text"
		}
	}
	return ""
}
