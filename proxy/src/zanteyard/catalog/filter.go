package catalog

import (
	"fmt"
	"strings"
)

// NotAsked is the reason for a table that a Filter excludes.
const NotAsked = "a table excluded by --tables"

// Deferrable is the reason for a table whose primary key is deferrable: the server's log then has no keys of rows that
// are deleted or get another key.
const Deferrable = "its primary key is deferrable"

// NoOldKeys is the reason for a table whose replica identity isn't its primary key, nor the whole row: the log then
// doesn't tell an update that changes a row's key from another one.
const NoOldKeys = "its replica identity leaves out the primary key"

// Filter says which tables to audit, by patterns of their names. The zero value includes all.
type Filter struct{ patterns []pattern }

// pattern is a schema and a table, in which * stands for any characters. Without a schema it applies to every schema.
type pattern struct{ schema, table, text string }

// ParseFilter reads patterns separated by commas, such as `public.*, shop.orders`. A partition also matches by the name
// of its topmost table.
func ParseFilter(text string) (Filter, error) {
	var f Filter
	if strings.TrimSpace(text) == "" {
		return f, nil
	}
	for _, one := range strings.Split(text, ",") {
		one = strings.TrimSpace(one)
		schema, table, qualified := strings.Cut(one, ".")
		if !qualified {
			schema, table = "*", one
		}
		if schema == "" || table == "" {
			return Filter{}, fmt.Errorf("%q isn't a table name or pattern: use the form public.*, shop.orders", one)
		}
		f.patterns = append(f.patterns, pattern{schema, table, one})
	}
	return f, nil
}

// Has says whether the table is included.
func (f Filter) Has(schema, table string) bool {
	if len(f.patterns) == 0 {
		return true
	}
	for _, one := range f.patterns {
		if matches(one.schema, schema) && matches(one.table, table) {
			return true
		}
	}
	return false
}

// Idle returns the patterns that match none of the tables, each a schema and a name.
func (f Filter) Idle(tables [][2]string) []string {
	var idle []string
	for _, one := range f.patterns {
		found := false
		for _, name := range tables {
			found = found || matches(one.schema, name[0]) && matches(one.table, name[1])
		}
		if !found {
			idle = append(idle, one.text)
		}
	}
	return idle
}

// matches compares a name with a pattern.
func matches(pattern, name string) bool {
	first, rest, found := strings.Cut(pattern, "*")
	if !found {
		return pattern == name
	}
	if !strings.HasPrefix(name, first) {
		return false
	}
	for name = name[len(first):]; ; {
		part, more, again := strings.Cut(rest, "*")
		if !again {
			return strings.HasSuffix(name, part)
		}
		at := strings.Index(name, part)
		if at < 0 {
			return false
		}
		name, rest = name[at+len(part):], more
	}
}

// Only is the catalog with the tables hidden that a filter excludes. Call it before anything else uses the catalog.
func (c *Catalog) Only(f Filter) {
	for _, t := range c.tables {
		root, ok := c.tables[t.Root]
		switch {
		case t.Kind == 'v' || t.Kind == 'S':
		case f.Has(t.Schema, t.Name) || ok && f.Has(root.Schema, root.Name):
		default:
			t.Hidden = NotAsked
		}
	}
}
