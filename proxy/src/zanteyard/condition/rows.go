package condition

import "sort"

// Rows finds those places of a list of rows at which a condition may hold, by the values that it asks columns for. Rows may be
// added at the list's end; if it changes otherwise, it needs another Rows. The zero value has none. It isn't safe for use
// by several goroutines.
type Rows struct{ columns map[columnBy]*filed }

// filed are the places by the values of one column: for each value a chain of them, the last one first.
type filed struct {
	upTo  int // places before this one are in it
	of    map[datum]int32
	null  int32
	links []link
}

// link is one of a chain of places: the place, and where the next one of the chain is.
type link struct{ place, next int32 }

// noLink is the end of a chain.
const noLink = -1

// Clear makes it have none, and keeps its memory.
func (x *Rows) Clear() {
	for key, its := range x.columns {
		if its.upTo == 0 { // nobody has asked for it since it was cleared
			delete(x.columns, key)
			continue
		}
		for value := range its.of {
			delete(its.of, value)
		}
		its.upTo, its.null, its.links = 0, noLink, its.links[:0]
	}
}

// Find calls take, in order, with each of the first n places at which the condition may be true, of one of the rows that
// are there. It returns false without a call if the condition asks no column for a value: then it may be true anywhere.
func (x *Rows) Find(c *Condition, n int, at func(place int) [3]*Row, take func(place int)) bool {
	its := equalities(c.root)
	if its == nil {
		return false
	}
	var places []int
	for _, one := range its {
		by := x.by(one.column, n, at)
		last := by.null
		if !one.null {
			var is bool
			if last, is = by.of[one.value]; !is {
				continue
			}
		}
		for ; last != noLink; last = by.links[last].next {
			places = append(places, int(by.links[last].place))
		}
	}
	sort.Ints(places)
	for i, place := range places {
		if i == 0 || place != places[i-1] {
			take(place)
		}
	}
	return true
}

// by returns the places by a column's values, up to n.
func (x *Rows) by(column *column, n int, at func(place int) [3]*Row) *filed {
	key := columnBy{column.number, column.by}
	its := x.columns[key]
	if its == nil {
		its = &filed{of: map[datum]int32{}, null: noLink}
		if x.columns == nil {
			x.columns = map[columnBy]*filed{}
		}
		x.columns[key] = its
	}
	for ; its.upTo < n; its.upTo++ {
		for _, row := range at(its.upTo) {
			if row != nil {
				its.file(row.value(column))
			}
		}
	}
	return its
}

// file adds a value at the last place. What isn't known makes no condition true that asks for a value.
func (f *filed) file(value *reading) {
	switch value.known {
	case isNull:
		f.null = f.with(f.null)
	case isKnown:
		last, is := f.of[value.datum]
		if !is {
			last = noLink
		}
		if its := f.with(last); its != last {
			f.of[value.datum] = its
		}
	}
}

// with adds the last place to a chain, and returns its beginning.
func (f *filed) with(last int32) int32 {
	if last != noLink && f.links[last].place == int32(f.upTo) {
		return last
	}
	f.links = append(f.links, link{int32(f.upTo), last})
	return int32(len(f.links) - 1)
}
