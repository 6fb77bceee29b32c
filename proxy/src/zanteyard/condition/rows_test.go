package condition_test

import (
	"sort"

	"zanteyard/condition"
)

// file finds rows by conditions, as search finds conditions by rows: half of them before the others are there, and then
// others in their places.
func (o *oracle) file() {
	var rows condition.Rows
	o.fileIn(&rows, 0)
	rows.Clear()
	o.fileIn(&rows, 1)
	rows.Clear()
}

func (o *oracle) fileIn(rows *condition.Rows, first int) {
	at := func(place int) (its [3]*condition.Row) {
		its[0], its[2] = o.rows[(place+first)%len(o.rows)].testDecoding, o.rows[(place+first+1)%len(o.rows)].testDecoding
		return its
	}
	for _, n := range []int{len(o.rows) / 2, len(o.rows)} {
		for _, its := range o.made {
			var found []int
			found = append(found, -1)
			indexed := rows.Find(its, n, at, func(place int) { found = append(found, place) })
			if !indexed && len(found) > 1 || !sort.IntsAreSorted(found) {
				o.t.Errorf("%v is found at %v", its, found)
			}
			for place := 0; place < n && indexed; place++ {
				is := sort.SearchInts(found, place)
				there := is < len(found) && found[is] == place
				row := at(place)
				holds := its.Holds(row[0]) == condition.Yes || its.Holds(row[2]) == condition.Yes
				if holds && !there || there && is+1 < len(found) && found[is+1] == place {
					o.t.Errorf("%v is found at %v, and holds at %d: %v", its, found, place, holds)
				}
				if !there {
					o.counts["not tried by rows"]++
				}
			}
		}
	}
}
