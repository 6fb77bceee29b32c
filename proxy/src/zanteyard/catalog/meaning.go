package catalog

import (
	"strconv"

	"zanteyard/own"
)

// What a condition over a table's columns means depends on their types, their collations, and on what else is visible
// by the names of the server's own operators, types and functions.

// Collation says how a column's texts are compared.
type Collation byte

// Equal texts are equal bytes unless a collation isn't deterministic. Their order is that of the bytes only by the
// collations C and POSIX.
const (
	NoCollation      Collation = 0 // not a text
	Bytewise         Collation = 'c'
	Deterministic    Collation = 'd'
	NotDeterministic Collation = 'n'
)

// Meaning is what a condition on a column depends on.
type Meaning struct {
	Declared  uint32 // the column's type
	Base      uint32 // the same, or a domain's base type
	Collation Collation
	Generated bool
	Length    int      // of a character(n), in characters; 0 for other types
	Composite bool     // but a domain over a composite type isn't known to be one
	Labels    []string // of an enumeration, in its order
}

// Operator is an operator that isn't the server's own. Left is 0 for a prefix operator.
type Operator struct{ Left, Right uint32 }

// elsewhere is what somebody has made: operators by name, names of types and of functions, by schema.
type elsewhere struct {
	operators map[string]map[string][]Operator
	types     map[string]map[string]bool
	functions map[string]map[string]bool
	casts     map[uint32]bool // types from which there is an implicit cast
}

const firstMade = 16384 // objects below this are the server's own

var meaningsSQL = own.SQL(`SELECT m.attrelid::pg_catalog.text, m.attnum::pg_catalog.text, m.atttypid::pg_catalog.text,
  CASE WHEN co.oid IS NULL THEN '' WHEN NOT co.collisdeterministic THEN 'n'
    WHEN co.oid = 100 AND d.datcollate IN ('C', 'POSIX') AND coalesce(pg_catalog.to_jsonb(d) ->> 'datlocprovider', 'c') = 'c' THEN 'c'
    WHEN co.collprovider = 'c' AND co.collcollate IN ('C', 'POSIX') THEN 'c' ELSE 'd' END,
  (m.attgenerated <> '')::pg_catalog.text, (t.typtype = 'c')::pg_catalog.text,
  CASE WHEN t.oid = 'pg_catalog.bpchar'::pg_catalog.regtype::pg_catalog.oid AND m.atttypmod > 4 THEN m.atttypmod - 4 ELSE 0 END::pg_catalog.text
FROM pg_catalog.pg_attribute m JOIN pg_catalog.pg_class c ON c.oid = m.attrelid JOIN pg_catalog.pg_type t ON t.oid = m.atttypid
  JOIN pg_catalog.pg_database d ON d.datname = pg_catalog.current_database()
  LEFT JOIN pg_catalog.pg_collation co ON co.oid = m.attcollation
WHERE m.attnum > 0 AND NOT m.attisdropped AND c.relkind IN ('r', 'p') AND c.relpersistence <> 't'`)

var labelsSQL = own.SQL(`SELECT e.enumtypid::pg_catalog.text, e.enumlabel::pg_catalog.text FROM pg_catalog.pg_enum e ORDER BY e.enumtypid, e.enumsortorder`)

var elsewhereSQL = own.SQL(`SELECT 'operator', n.nspname::pg_catalog.text, o.oprname::pg_catalog.text, o.oprleft::pg_catalog.text, o.oprright::pg_catalog.text
FROM pg_catalog.pg_operator o JOIN pg_catalog.pg_namespace n ON n.oid = o.oprnamespace WHERE o.oid >= 16384
UNION ALL SELECT 'cast', '', '', castsource::pg_catalog.text, casttarget::pg_catalog.text FROM pg_catalog.pg_cast
WHERE oid >= 16384 AND castcontext = 'i'
UNION ALL SELECT DISTINCT 'type', n.nspname::pg_catalog.text, t.typname::pg_catalog.text, '0', '0' FROM pg_catalog.pg_type t
  JOIN pg_catalog.pg_namespace n ON n.oid = t.typnamespace
WHERE n.nspname <> 'pg_catalog' AND EXISTS (SELECT FROM pg_catalog.pg_type s
  WHERE s.typname = t.typname AND s.typnamespace = 'pg_catalog'::pg_catalog.regnamespace)
UNION ALL SELECT DISTINCT 'function', n.nspname::pg_catalog.text, p.proname::pg_catalog.text, '0', '0' FROM pg_catalog.pg_proc p
  JOIN pg_catalog.pg_namespace n ON n.oid = p.pronamespace
WHERE p.oid >= 16384 AND EXISTS (SELECT FROM pg_catalog.pg_proc s
  WHERE s.proname = p.proname AND s.oid < 16384 AND s.pronamespace = 'pg_catalog'::pg_catalog.regnamespace)`)

// meanings reads what columns mean.
type meanings struct {
	catalog *Catalog
	types   types
	labels  map[uint32][]string
}

func newMeanings(c *Catalog, known types) *meanings {
	c.elsewhere = &elsewhere{
		operators: map[string]map[string][]Operator{}, types: map[string]map[string]bool{}, functions: map[string]map[string]bool{},
		casts: map[uint32]bool{},
	}
	return &meanings{catalog: c, types: known, labels: map[uint32][]string{}}
}

func (m *meanings) takeLabel(row []string) error {
	if err := width(row, 2); err != nil {
		return err
	}
	oid, err := number(row, 0)
	m.labels[oid] = append(m.labels[oid], row[1])
	return err
}

func (m *meanings) takeColumn(row []string) error {
	if err := width(row, 7); err != nil {
		return err
	}
	oid, err := number(row, 0)
	if err != nil {
		return err
	}
	length, err := number(row, 6)
	if err != nil {
		return err
	}
	at, err := strconv.ParseInt(row[1], 10, 16)
	if err != nil {
		return err
	}
	its := Meaning{Generated: row[4] == "true", Composite: row[5] == "true", Length: int(length)}
	if its.Declared, err = number(row, 2); err != nil {
		return err
	}
	if row[3] != "" {
		its.Collation = Collation(row[3][0])
	}
	its.Base = its.Declared
	for depth := 0; depth < 32 && m.types[its.Base].kind == "d"; depth++ {
		its.Base = m.types[its.Base].base
	}
	its.Labels = m.labels[its.Base]
	if t, ok := m.catalog.tables[oid]; ok {
		for i := range t.Columns {
			if t.Columns[i].Number == int16(at) {
				t.Columns[i].Meaning = its
			}
		}
	}
	return nil
}

func (m *meanings) takeElsewhere(row []string) error {
	if err := width(row, 5); err != nil {
		return err
	}
	left, err := number(row, 3)
	if err != nil {
		return err
	}
	right, err := number(row, 4)
	if err != nil {
		return err
	}
	e, schema, name := m.catalog.elsewhere, row[1], row[2]
	switch row[0] {
	case "operator":
		if e.operators[name] == nil {
			e.operators[name] = map[string][]Operator{}
		}
		e.operators[name][schema] = append(e.operators[name][schema], Operator{left, right})
	case "cast":
		e.casts[left] = true
	case "type":
		addName(e.types, name, schema)
	case "function":
		addName(e.functions, name, schema)
	}
	return nil
}

func addName(to map[string]map[string]bool, name, schema string) {
	if to[name] == nil {
		to[name] = map[string]bool{}
	}
	to[name][schema] = true
}

// Unsure is the first schema of a search path that may become another one (PathSQL).
const Unsure = ""

// visible reports whether an unqualified name may mean something in a schema: one of the search path, or any one if
// that isn't known, or may become another one.
func (c *Catalog) visible(schema string) bool {
	if c.Path == nil || schema == "pg_catalog" || len(c.Path) > 0 && c.Path[0] == Unsure {
		return true
	}
	for _, one := range c.Path {
		if one == schema {
			return true
		}
	}
	return false
}

// Own reports whether the server's own types come before those of other schemas: unless the search path names its
// schema after others, they do.
func (c *Catalog) Own() bool {
	for i, schema := range c.Path {
		if schema == "pg_catalog" {
			return i == 0
		}
	}
	return true
}

// First reports whether nobody can make a relation that an unqualified name finds before those of a schema, without making a
// schema or a temporary relation. Of a path that may become another one that is true of none.
func (c *Catalog) First(schema string) bool {
	for _, one := range c.Path {
		if one != "pg_catalog" {
			return one == schema
		}
	}
	return false
}

// OperatorsElsewhere returns the operators of a name of the server's own that aren't the server's own, and that an
// unqualified name may mean.
func (c *Catalog) OperatorsElsewhere(name string) []Operator {
	var all []Operator
	for schema, its := range c.elsewhere.operators[name] {
		if c.visible(schema) {
			all = append(all, its...)
		}
	}
	return all
}

// FunctionElsewhere reports whether an unqualified function's name, which is one of the server's own, may mean another
// function.
func (c *Catalog) FunctionElsewhere(name string) bool {
	return c.anyVisible(c.elsewhere.functions[name])
}

// TypeElsewhere reports the same of a type's name.
func (c *Catalog) TypeElsewhere(name string) bool {
	return !c.Own() && c.anyVisible(c.elsewhere.types[name])
}

func (c *Catalog) anyVisible(schemas map[string]bool) bool {
	for schema := range schemas {
		if c.visible(schema) {
			return true
		}
	}
	return false
}

// CastsElsewhere reports whether somebody has made an implicit cast from one of these types, or from a type of the
// server's own: an operator may then take operands of types that aren't its own.
func (c *Catalog) CastsElsewhere(types ...uint32) bool {
	for from := range c.elsewhere.casts {
		if from < firstMade {
			return true
		}
		for _, one := range types {
			if from == one {
				return true
			}
		}
	}
	return false
}
