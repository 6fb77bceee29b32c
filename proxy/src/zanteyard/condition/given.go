package condition

import (
	"strings"

	"zanteyard/keys"
	"zanteyard/record"
)

// A join that finds no row may have found none because one of its tables has none. But if it asks that table for one row by
// its whole key, and it is known that this row was there, then what could stand beside it wasn't.

// alone makes the form of what a join asks of one of its tables whatever the others have: nil if that isn't just a row by its
// whole key.
func (j *joins) alone(of *scope, statement map[string]any, text string) *Form {
	if of.nullable || len(of.table.Key) == 0 {
		return nil
	}
	f := newForm(statement, text, j.catalog)
	if f.from(of.entry, j.catalog) != nil {
		return nil
	}
	r, named := &reader{form: f, catalog: j.catalog, joins: j}, map[int16]bool{}
	var args []expression
	for _, one := range j.where {
		its, err := j.named(one)
		if err != nil {
			return nil
		}
		mentions, others := false, false
		for _, table := range its {
			mentions, others = mentions || table == of, others || table != of
		}
		if !mentions || others {
			continue
		}
		made, err := r.truth(one)
		compared, is := made.(compared)
		if err != nil || !is || compared.is != equal || named[compared.column.Number] || compared.value.outer > 0 || !keys.Askable(compared.column.Type) {
			return nil
		}
		named[compared.column.Number] = true
		args = append(args, compared)
	}
	for i := range of.table.Key {
		if !named[of.table.Key[i].Number] {
			return nil
		}
	}
	if len(args) != len(of.table.Key) {
		return nil
	}
	f.root = allOf(args)
	return f
}

// decides reports whether each condition mentions a table, or one other table alone.
func (j *joins) decides(of *scope) bool {
	for _, one := range j.where {
		its, err := j.named(one)
		if err != nil || len(its) == 0 {
			return false
		}
		several, mentions := false, false
		for _, table := range its {
			several, mentions = several || table != its[0], mentions || table == of
		}
		if several && !mentions {
			return false
		}
	}
	return true
}

// Key returns the whole key that a form made by alone asks for.
func (f *Form) Key(with Arguments) (record.Key, bool) {
	args := []expression{f.root}
	if all, several := f.root.(junction); several {
		args = all.args
	}
	b := &binder{form: f, with: with}
	parts := make([]string, len(f.Table.Key))
	for _, one := range args {
		its := one.(compared)
		part, ok := b.keyPart(its)
		if !ok {
			return "", false
		}
		for i := range f.Table.Key {
			if f.Table.Key[i].Number == its.column.Number {
				parts[i] = part
			}
		}
	}
	if len(b.inferred) > 0 && with.Left > b.left {
		return "", false
	}
	return record.Key(strings.Join(parts, "\x00")), true
}

// keyPart returns the canonical text of what a column of the key is compared with.
func (b *binder) keyPart(of compared) (string, bool) {
	its, err := b.one(of.value)
	if err != nil || its.null || its.made {
		return "", false
	}
	typ := its.typ
	switch {
	case familyOfColumn(of.column) == labelled && typ != of.column.Base:
		return "", false // a cast may make it a text
	case familyOfColumn(of.column) == labelled:
		typ = of.column.Type
	case typ == 0 && its.parameter > 0 && b.infer(its.parameter, of.column.Type) != nil:
		return "", false
	case typ == 0:
		typ = of.column.Type
	case keys.Family(typ) != keys.Family(of.column.Type):
		return "", false
	}
	if b.with.Converts && keys.IsText(typ) && !isASCII(its.raw) {
		return "", false
	}
	return keys.Canonical(typ, its.raw, its.binary)
}
