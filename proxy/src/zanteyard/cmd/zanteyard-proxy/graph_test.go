package main

import (
	"encoding/json"
	"fmt"
	"strings"
	"testing"
)

// graph has what was offered, and which transactions have to precede which. Every write reads the version before it, so
// each key's versions are in a known order, and what was offered has a serial order exactly if there is no cycle.
type graph struct {
	ids     map[[2]int]int // by session and number
	names   [][2]int
	reads   [][][3]int // key, session and number of the writer; -1 for "init"
	writes  [][]int
	session map[int]int // the last one of each session
	after   [][]int
	fences  int
}

func newGraph() *graph { return &graph{ids: map[[2]int]int{}, session: map[int]int{}} }

// take takes a line, and returns the transactions in it.
func (g *graph) take(line string) (its [][2]int) {
	if !strings.HasPrefix(line, `["offer"`) && !strings.HasPrefix(line, `["join"`) {
		return nil
	}
	var session, first int
	var fragment [][2][]json.RawMessage
	parts := []any{new(string), &session, &first, &fragment}
	if strings.HasPrefix(line, `["join"`) {
		parts = []any{new(string), &session, &fragment}
	}
	if err := json.Unmarshal([]byte(line), &parts); err != nil {
		panic(err)
	}
	for i, one := range fragment {
		id := len(g.names)
		g.ids[[2]int{session, first + i}] = id
		g.names, g.after = append(g.names, [2]int{session, first + i}), append(g.after, nil)
		var reads [][3]int
		for _, text := range one[0] {
			read := [3]int{0, -1, -1}
			if strings.HasSuffix(string(text), `"init"]`) {
				json.Unmarshal(text, &[]any{&read[0], new(string)})
			} else if err := json.Unmarshal(text, &[]any{&read[0], &read[1], &read[2]}); err != nil {
				panic(err)
			}
			reads = append(reads, read)
		}
		var writes []int
		for _, text := range one[1] {
			key := 0
			json.Unmarshal(text, &key)
			writes = append(writes, key)
		}
		if len(writes) == 1 && writes[0] == 0 {
			g.fences++
		}
		g.reads, g.writes = append(g.reads, reads), append(g.writes, writes)
		if before, is := g.session[session]; is {
			g.after[before] = append(g.after[before], id)
		}
		g.session[session] = id
		its = append(its, [2]int{session, first + i})
	}
	return its
}

// beginOf and commitOf return what stands for a transaction: the same, unless only snapshots are promised.
func beginOf(id int, snapshots bool) int {
	if snapshots {
		return 2 * id
	}
	return id
}

func commitOf(id int, snapshots bool) int {
	if snapshots {
		return 2*id + 1
	}
	return id
}

// check reports a cycle, or two transactions that overwrite one version. With snapshots it is one of begins and commits.
func (g *graph) check(t *testing.T, snapshots bool) {
	t.Helper()
	cycle, wrong := g.violation(snapshots)
	for _, text := range wrong {
		t.Error(text)
	}
	if cycle != "" {
		t.Errorf("a violation is told: %s", cycle)
	}
}

// violation returns a cycle, "" if there is none, and what may never be told. It is called once.
func (g *graph) violation(snapshots bool) (cycle string, wrong []string) {
	if snapshots {
		after := make([][]int, 2*len(g.after))
		for id, its := range g.after {
			after[2*id] = []int{2*id + 1}
			for _, to := range its {
				after[2*id+1] = append(after[2*id+1], 2*to)
			}
		}
		g.after = after
	}
	next := map[[3]int]int{} // by version: who wrote the one after it
	for id, writes := range g.writes {
		wrote := map[int]bool{}
		for _, key := range writes {
			wrote[key] = true
		}
		seen := map[[3]int]bool{}
		for _, read := range g.reads[id] {
			if !wrote[read[0]] || seen[read] {
				continue
			}
			seen[read] = true
			if other, is := next[read]; is && other != id {
				wrong = append(wrong, fmt.Sprintf("%v and %v overwrite the version %v", g.names[other], g.names[id], read))
			}
			next[read] = id
		}
	}
	before := make([]int, len(g.after))
	edge := func(from, to int) {
		g.after[from] = append(g.after[from], to)
	}
	for id, reads := range g.reads {
		for _, read := range reads {
			if from, is := g.ids[[2]int{read[1], read[2]}]; is {
				edge(commitOf(from, snapshots), beginOf(id, snapshots))
			} else if read[1] >= 0 {
				wrong = append(wrong, fmt.Sprintf("%v reads from %v, which isn't offered", g.names[id], read))
			}
			if writer, is := next[read]; is && writer != id {
				edge(beginOf(id, snapshots), commitOf(writer, snapshots))
			}
		}
	}
	for _, its := range g.after {
		for _, to := range its {
			before[to]++
		}
	}
	var ready []int
	for id, n := range before {
		if n == 0 {
			ready = append(ready, id)
		}
	}
	done := 0
	for ; len(ready) > 0; done++ {
		id := ready[len(ready)-1]
		ready = ready[:len(ready)-1]
		for _, to := range g.after[id] {
			if before[to]--; before[to] == 0 {
				ready = append(ready, to)
			}
		}
	}
	if done < len(before) {
		cycle = g.cycle(before, snapshots)
	}
	return cycle, wrong
}

// cycle returns one, of those that are left.
func (g *graph) cycle(left []int, snapshots bool) string {
	preceding := map[int]int{}
	start := -1
	for id, n := range left {
		if n > 0 {
			start = id
			for _, to := range g.after[id] {
				if left[to] > 0 {
					preceding[to] = id
				}
			}
		}
	}
	at, seen := start, map[int]bool{}
	for !seen[at] {
		seen[at] = true
		at = preceding[at]
	}
	text := ""
	for from, first := at, true; first || from != at; first = false {
		id := from
		if snapshots {
			id /= 2
		}
		text += fmt.Sprintf("%v reads %v writes %v\n", g.names[id], g.reads[id], g.writes[id])
		from = preceding[from]
		if len(text) > 4000 {
			break
		}
	}
	return text
}
