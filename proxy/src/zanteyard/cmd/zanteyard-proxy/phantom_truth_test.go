package main

import (
	"context"
	"fmt"
	"regexp"
	"strconv"
	"strings"
)

// phantomVersion is a key as a transaction left it.
type phantomVersion struct {
	tag    string
	xid    uint64
	exists bool
	row    phantomRow
	which  int // of the rows that had the key
}

var (
	beganPattern = regexp.MustCompile(`^BEGIN (\d+)`)
	valuePattern = regexp.MustCompile(`(\w+)\[\w+\]:('[^']*'|\S+)`)
)

// log reads what the log has of a round's histories, and adds it to their keys' versions.
func (b *phantomRun) log(of []*phantomHistory) {
	b.t.Helper()
	results, err := b.direct.Exec(context.Background(),
		"SELECT data FROM pg_logical_slot_get_changes('truth', NULL, NULL, 'include-xids', '1')").ReadAll()
	if err != nil {
		b.t.Fatal(err)
	}
	by := map[string]map[int][]phantomVersion{}
	for _, one := range of {
		by[one.group.table] = one.chains
	}
	xid := uint64(0)
	for _, row := range results[0].Rows {
		line := string(row[0])
		if its := beganPattern.FindStringSubmatch(line); its != nil {
			xid, _ = strconv.ParseUint(its[1], 10, 64)
		}
		table, rest, is := strings.Cut(strings.TrimPrefix(line, "table public."), ": ")
		if to := by[table]; is && to != nil {
			logged(to, xid, rest)
		}
	}
}

// logged adds a change of a row to its key's versions.
func logged(to map[int][]phantomVersion, xid uint64, change string) {
	values := map[string]string{}
	for _, its := range valuePattern.FindAllStringSubmatch(change, -1) {
		values[its[1]] = strings.Trim(its[2], "'")
	}
	key, _ := strconv.Atoi(values["id"])
	v := phantomVersion{tag: values["tag"], xid: xid, exists: !strings.HasPrefix(change, "DELETE:")}
	v.row.id = key
	v.row.b, _ = strconv.Atoi(values["b"])
	if v.row.a = -1; values["a"] != "null" {
		v.row.a, _ = strconv.Atoi(values["a"])
	}
	its := to[key]
	last := len(its) - 1
	if last >= 0 {
		if v.which = its[last].which; !its[last].exists {
			v.which++
		}
		if its[last].xid == xid {
			if v.which = its[last].which; !v.exists {
				v.tag = its[last].tag
			}
			its = its[:last]
		}
	}
	to[key] = append(its, v)
}

// phantomTruth is whether some order explains what a history's transactions have read of rows, and that and what they
// passed over. It is unsure if it isn't known for each row which version was passed over.
func phantomTruth(txns []*phantomTxn, chains map[int][]phantomVersion) (byRows, whole, unsure bool) {
	arcs, more := make([][]int, len(txns)), make([][]int, len(txns))
	arc := func(to [][]int, from, behind int) {
		if from >= 0 && behind >= 0 && from != behind {
			to[from] = append(to[from], behind)
		}
	}
	last := map[int]int{}
	for i, t := range txns { // they are sorted by client and place
		if before, is := last[t.client]; is {
			arc(arcs, before, i)
		}
		last[t.client] = i
	}
	writers := map[uint64]int{}
	for i, t := range txns {
		if t.xid != 0 {
			writers[t.xid] = i
		}
	}
	by := func(v phantomVersion) int {
		if n, is := writers[v.xid]; is {
			return n
		}
		return -1 // it was there before
	}
	for _, its := range chains {
		for i := 1; i < len(its); i++ {
			if its[i].which == its[i-1].which {
				arc(arcs, by(its[i-1]), by(its[i]))
			}
		}
	}
	for n, t := range txns {
		for _, ask := range t.asks {
			for key, its := range chains {
				tag, found := ask.found[key]
				if ask.alone && !found {
					continue
				}
				if !ask.alone { // rows that had, or got, the key besides the one that was found or is its own
					for _, it := range ask.others(its, t, key) {
						if it.before {
							arc(more, by(its[it.at]), n)
						} else {
							arc(more, n, by(its[it.at]))
						}
					}
				}
				read := func(tag string) {
					for i, v := range its {
						if v.exists && v.tag == tag {
							arc(arcs, by(v), n)
							if i+1 < len(its) && its[i+1].which == v.which {
								arc(arcs, n, by(its[i+1]))
							}
						}
					}
				}
				for _, tag := range ask.also[key] {
					read(tag)
				}
				switch {
				case tag == t.tag:
					continue
				case found: // though it may have inserted another row with that key
					read(tag)
					continue
				case ask.own[key]:
					continue
				}
				saw, sure := ask.passed(its)
				if !sure {
					unsure = true
					continue
				}
				held := false
				for i, v := range its {
					if holds := v.exists && ask.by.holds(v.row); holds != held {
						if held = holds; i <= saw {
							arc(more, by(v), n)
						} else {
							arc(more, n, by(v))
						}
					}
				}
			}
		}
	}
	byRows = acyclic(arcs)
	for i := range arcs {
		arcs[i] = append(arcs[i], more[i]...)
	}
	return byRows, acyclic(arcs), unsure
}

// otherChange is one of whether a condition holds, of a row that had the key before or after the one that was seen.
type otherChange struct {
	at     int
	before bool
}

// others are the changes of the rows that had a key before and after the one that a SELECT found, and after the one that
// the transaction itself had written: these it has passed over.
func (a *phantomAsk) others(its []phantomVersion, t *phantomTxn, key int) (all []otherChange) {
	at, own := -1, a.own[key] || a.found[key] == t.tag
	for i, v := range its {
		if own && t.xid != 0 && v.xid == t.xid || !own && a.found[key] != "" && v.exists && v.tag == a.found[key] {
			at = i
		}
	}
	held := false
	for i, v := range its {
		holds := v.exists && a.by.holds(v.row)
		if holds == held {
			continue
		}
		held = holds
		switch {
		case at < 0 || v.which == its[at].which:
		case i > at:
			all = append(all, otherChange{at: i})
		case !own:
			all = append(all, otherChange{at: i, before: true})
		}
	}
	return all
}

// passed returns the version of a key that a SELECT saw although it didn't return it, -1 if none.
func (a *phantomAsk) passed(its []phantomVersion) (saw int, sure bool) {
	first, last := -1, -1
	for i, v := range its {
		if a.before.has(v.xid) {
			first = i
		}
		if a.after.has(v.xid) {
			last = i
		}
	}
	no := func(i int) bool { return i < 0 || !its[i].exists || !a.by.holds(its[i].row) }
	if a.locks && no(first) {
		return first, true
	}
	found, held := false, false
	for i := first; i <= last; i++ {
		switch {
		case !no(i):
			held = true
		case !found:
			saw, found, held = i, true, false
		case held: // it may be this one as well
			return saw, false
		}
	}
	return saw, found
}

// needed are the statements without which a history that is violated wouldn't be.
func needed(txns []*phantomTxn, chains map[int][]phantomVersion) (texts []string) {
	for _, t := range txns {
		all := t.asks
		for i := range all {
			t.asks = append(append([]phantomAsk(nil), all[:i]...), all[i+1:]...)
			if _, whole, _ := phantomTruth(txns, chains); whole {
				texts = append(texts, t.tag+": "+all[i].text)
			}
		}
		t.asks = all
	}
	return texts
}

func acyclic(arcs [][]int) bool {
	before := make([]int, len(arcs))
	for _, its := range arcs {
		for _, to := range its {
			before[to]++
		}
	}
	var ready []int
	for i, n := range before {
		if n == 0 {
			ready = append(ready, i)
		}
	}
	done := 0
	for ; len(ready) > 0; done++ {
		i := ready[len(ready)-1]
		ready = ready[:len(ready)-1]
		for _, to := range arcs[i] {
			if before[to]--; before[to] == 0 {
				ready = append(ready, to)
			}
		}
	}
	return done == len(arcs)
}

// shownHistory writes a history for people.
func shownHistory(txns []*phantomTxn, chains map[int][]phantomVersion) string {
	var to strings.Builder
	for _, t := range txns {
		fmt.Fprintf(&to, "%s, number %d\n", t.tag, t.xid)
		for _, ask := range t.asks {
			fmt.Fprintf(&to, "  asked for %s between %v and %v, locks %v, own %v: %v %v\n", ask.by.text, ask.before, ask.after,
				ask.locks, ask.own, ask.found, ask.also)
		}
	}
	for key, its := range chains {
		fmt.Fprintf(&to, "%d: %+v\n", key, its)
	}
	return to.String()
}
