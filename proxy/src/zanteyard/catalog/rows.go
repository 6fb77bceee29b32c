package catalog

import (
	"crypto/sha256"
	"encoding/binary"
	"fmt"
	"strconv"
	"strings"

	"zanteyard/keys"
	"zanteyard/record"
)

// types resolves domains to their base types.
type types map[uint32]struct {
	kind string
	base uint32
	name string
}

func (t types) take(row []string) error {
	oid, err := number(row, 0)
	if err != nil {
		return err
	}
	base, err := number(row, 2)
	if err != nil {
		return err
	}
	t[oid] = struct {
		kind string
		base uint32
		name string
	}{row[1], base, row[3]}
	return nil
}

// resolve is the type by which package keys interprets values of a type.
func (t types) resolve(oid uint32) uint32 {
	for depth := 0; depth < 32; depth++ {
		known, ok := t[oid]
		switch {
		case !ok:
			return oid
		case known.kind == "e":
			return keys.Enum
		case known.kind == "d":
			oid = known.base
		default: // citext: a row's own text, as for any text
			return keys.Text
		}
	}
	return oid
}

func number(row []string, at int) (uint32, error) {
	if at >= len(row) {
		return 0, fmt.Errorf("a row has %d values", len(row))
	}
	value, err := strconv.ParseUint(row[at], 10, 32)
	if err != nil {
		return 0, fmt.Errorf("object identifier %q: %w", row[at], err)
	}
	return uint32(value), nil
}

func width(row []string, want int) error {
	if len(row) != want {
		return fmt.Errorf("a row has %d values in place of %d", len(row), want)
	}
	return nil
}

func (c *Catalog) takeEncoding(row []string) error {
	if err := width(row, 1); err != nil {
		return err
	}
	c.Encoding = row[0]
	return nil
}

func (c *Catalog) takeTable(row []string) error {
	if err := width(row, 12); err != nil {
		return err
	}
	oid, err := number(row, 0)
	if err != nil {
		return err
	}
	root, err := number(row, 9)
	if err != nil {
		return err
	}
	children, err := strconv.Atoi(row[10])
	if err != nil {
		return err
	}
	rowType, err := number(row, 11)
	if err != nil {
		return err
	}
	t := &Table{
		OID: oid, RowType: rowType, Schema: row[1], Name: row[2], Kind: row[3][0], Root: root, RowSecurity: row[7] == "true",
		Rules: row[8] == "true", children: children,
		system: system{persistence: row[4], method: row[5], replica: row[6]},
	}
	t.ColumnsIdentity = c.columns[oid]
	c.tables[oid] = t
	if c.names[t.Schema] == nil {
		c.names[t.Schema] = map[string]*Table{}
	}
	c.names[t.Schema][t.Name] = t
	if _, several := c.sole[t.Name]; several {
		c.sole[t.Name] = nil
	} else {
		c.sole[t.Name] = t
	}
	return nil
}

// loadColumns reads the identities of all tables' columns, if they are wanted.
func (c *Catalog) loadColumns(query Query) error {
	if c.columns == nil {
		return nil
	}
	rows, err := query(madeSQL)
	if err == nil && len(rows) != 1 {
		err = fmt.Errorf("%d rows", len(rows))
	}
	if err != nil {
		return fmt.Errorf("reading what was made: %w", err)
	}
	made := rows[0][0]
	if rows, err = query(allColumnsSQL); err != nil {
		return fmt.Errorf("reading the identities of columns: %w", err)
	}
	for _, row := range rows {
		if err := width(row, 2); err != nil {
			return err
		}
		oid, err := number(row, 0)
		if err != nil {
			return err
		}
		c.columns[oid] = ColumnsIdentity(IdentityOf(row[1]), IdentityOf(made))
	}
	return nil
}

// ColumnsIdentity makes the identity of a table's columns, by which conditions are asked, of what they mean (ColumnsSQL)
// and what the names of operators and the like mean (MadeSQL).
func ColumnsIdentity(columns, made record.Identity) record.Identity { return (columns ^ made) | 1 }

func (c *Catalog) takeColumn(known types, row []string) error {
	if err := width(row, 4); err != nil {
		return err
	}
	oid, err := number(row, 0)
	if err != nil {
		return err
	}
	at, err := strconv.ParseInt(row[1], 10, 16)
	if err != nil {
		return err
	}
	typeOID, err := number(row, 3)
	if err != nil {
		return err
	}
	if t, ok := c.tables[oid]; ok {
		t.Columns = append(t.Columns, Column{Name: row[2], Number: int16(at), Type: known.resolve(typeOID)})
	}
	return nil
}

func (c *Catalog) takeIndex(row []string) error {
	if err := width(row, 9); err != nil {
		return err
	}
	oid, err := number(row, 0)
	if err != nil {
		return err
	}
	t, ok := c.tables[oid]
	if !ok {
		return nil
	}
	keyColumns, err := strconv.Atoi(row[3])
	if err != nil {
		return err
	}
	columns, err := columnNumbers(row[4])
	if err != nil {
		return err
	}
	switch row[5] { // these can return what was indexed
	case "btree", "gist", "spgist":
		t.Indexes = append(t.Indexes, columns)
	}
	if row[8] == "true" && row[1] != "true" && keyColumns <= len(columns) {
		t.Unique = append(t.Unique, columns[:keyColumns:keyColumns])
	}
	if row[1] != "true" || keyColumns > len(columns) {
		return nil
	}
	t.system.primary, t.system.identity = true, row[2] == "true"
	t.Identity, t.system.deferrable = KeyIdentity(t.Schema, t.Name, row[6]), row[7] != "true"
	for _, at := range columns[:keyColumns] {
		for _, column := range t.Columns {
			if column.Number == at {
				t.Key = append(t.Key, column)
			}
		}
	}
	if len(t.Key) != keyColumns {
		return fmt.Errorf("the primary key of %s.%s has unknown columns", t.Schema, t.Name)
	}
	return nil
}

// KeyIdentity returns the identity of a table's key, from the table's name and IdentitySQL's text: by another name
// statements may mean another table.
func KeyIdentity(schema, table, text string) record.Identity {
	return IdentityOf(strconv.Quote(schema) + strconv.Quote(table) + text)
}

// IdentityOf returns the identity that a text stands for. It is never 0.
func IdentityOf(text string) record.Identity {
	sum := sha256.Sum256([]byte(text))
	return record.Identity(binary.BigEndian.Uint64(sum[:]) | 1)
}

func (c *Catalog) takeTrigger(row []string) error {
	oid, err := number(row, 0)
	if err != nil {
		return err
	}
	if t, ok := c.tables[oid]; ok {
		t.Triggers = true
	}
	return nil
}

// Reference is a foreign key.
type Reference struct {
	To            uint32
	Columns, Keys []int16 // those of the table, by number, and those of the other one that they equal
	Required      bool    // none of the columns can be NULL: a row with one that is refers to nothing
}

func (c *Catalog) takeReference(row []string) error {
	if err := width(row, 5); err != nil {
		return err
	}
	from, err := number(row, 0)
	if err != nil {
		return err
	}
	its := Reference{Required: row[4] == "true"}
	if its.To, err = number(row, 1); err != nil {
		return err
	}
	if its.Columns, err = columnNumbers(row[2]); err != nil {
		return err
	}
	if its.Keys, err = columnNumbers(row[3]); err != nil {
		return err
	}
	if t, ok := c.tables[from]; ok && len(its.Columns) == len(its.Keys) {
		t.References = append(t.References, its)
	}
	return nil
}

// columnNumbers reads numbers of columns between spaces.
func columnNumbers(text string) (all []int16, err error) {
	for _, one := range strings.Fields(text) {
		at, err := strconv.ParseInt(one, 10, 16)
		if err != nil {
			return nil, err
		}
		all = append(all, int16(at))
	}
	return all, nil
}

func (c *Catalog) takeCall(row []string) error {
	if err := width(row, 2); err != nil {
		return err
	}
	oid, err := number(row, 0)
	if err != nil {
		return err
	}
	by, err := number(row, 1)
	if err != nil {
		return err
	}
	if by != 0 {
		c.cascades[oid] = append(c.cascades[oid], by)
	} else if t, ok := c.tables[oid]; ok {
		t.Foreign = true
	}
	return nil
}

func (c *Catalog) takePlanned(row []string) error {
	oid, err := number(row, 0)
	if t, ok := c.tables[oid]; ok {
		t.Planned = true
	}
	return err
}

func (c *Catalog) takeForeign(row []string) error {
	c.Foreign = len(row) == 1 && row[0] == "true"
	return width(row, 1)
}
