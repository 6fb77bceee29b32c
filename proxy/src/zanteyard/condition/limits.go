package condition

import (
	"strings"

	"zanteyard/catalog"
)

// A LIMIT that cut rows off returned any of those that satisfy the condition, if nothing sorts them: then it has read nothing
// of the others. If they are sorted by columns of a table's key, a row of that table which comes before the last one that was
// returned would have been returned, too. So the condition is what the statement asks for, and that: id < 17. Where the key's
// values are equal, or later, nothing was read.

// cutOff is why nothing is followed of a statement whose LIMIT cut rows off.
const cutOff = Refusal("LIMIT")

// sorting is a column of a table's key by which a statement sorts its rows.
type sorting struct {
	column     *catalog.Column
	place      int // among the columns of the key
	descending bool
}

// sorts reads ORDER BY: the columns of a table's key in front of all others. resolve says what a name means.
func sorts(body tree, of *catalog.Table, resolve func(value any) *catalog.Column) (all []sorting) {
	if body.has("lockingClause") { // by the time that a row is locked, it may sort elsewhere
		return nil
	}
	for _, item := range body.list("sortClause") {
		_, its := open(item)
		kind, reference := open(its["node"])
		fields := reference.names("fields")
		if kind != "ColumnRef" || its.has("useOp") || len(fields) == 1 && renames(body, fields[0]) {
			return all
		}
		column := resolve(its["node"])
		if column == nil || column.Collation == catalog.Deterministic || column.Collation == catalog.NotDeterministic {
			return all
		}
		switch familyOfColumn(column) {
		case integers, texts, uuids:
		default:
			return all
		}
		place := -1
		for i := range of.Key {
			if of.Key[i].Number == column.Number {
				place = i
			}
		}
		if place < 0 {
			return all
		}
		all = append(all, sorting{column, place, its.text("sortby_dir") == "SORTBY_DESC"})
	}
	return all
}

// renames reports whether a result's column may have a name: ORDER BY then means that one.
func renames(body tree, name string) bool {
	for _, item := range body.list("targetList") {
		_, target := open(item)
		kind, value := open(target["val"])
		called := value.names("funcname") // which names a column without a name of its own
		switch its := target.text("name"); {
		case its == name:
			return true
		case its != "" || kind == "ColumnRef":
		case kind != "FuncCall" || len(called) == 0 || called[len(called)-1] == name:
			return true
		}
	}
	return false
}

// before binds what a row needs to come before the last one that a statement returned.
func (b *binder) before() (part, error) {
	sorted := b.form.sorted
	key := strings.Split(string(b.with.Last), "\x00")
	if len(sorted) == 0 || b.with.Last == "" {
		return part{}, cutOff
	}
	var all []part
	for i := range sorted {
		var its []part
		for k := 0; k <= i; k++ {
			is := equal
			switch {
			case k == i && sorted[k].descending:
				is = greater
			case k == i:
				is = less
			}
			one, err := b.beforeBy(sorted[k], is, key)
			if err != nil {
				return part{}, err
			}
			its = append(its, one)
		}
		if len(its) == 1 {
			all = append(all, its[0])
		} else {
			all = append(all, joined(its, true))
		}
	}
	if len(all) == 1 {
		return all[0], nil
	}
	return joined(all, false), nil
}

// beforeBy compares a column of the key with its value in the last row.
func (b *binder) beforeBy(by sorting, is operator, key []string) (part, error) {
	if by.place >= len(key) {
		return part{}, cutOff
	}
	its, err := b.cast(value{typ: by.column.Base, raw: []byte(key[by.place]), canonical: true, shownAs: by.column.Type}, 0)
	if err != nil {
		return part{}, err
	}
	column, unknown, err := b.pair(by.column, []value{its}, false)
	if err != nil {
		return part{}, err
	}
	bound, err := b.datum(its, column, unknown)
	if err != nil {
		return part{}, err
	}
	name := quoted(by.column.Name) + " " + is.String() + " "
	return part{
		clause: &comparison{column, is, bound}, key: columnKey(column) + " " + is.String() + " " + datumKey(bound),
		text: name + its.shown(unknown), shape: name + "?", strength: aTest,
	}, nil
}
