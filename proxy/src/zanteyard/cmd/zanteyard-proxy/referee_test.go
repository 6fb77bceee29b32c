package main

import (
	"encoding/json"
	"fmt"
	"strings"
	"testing"
	"time"
)

// referee compares what is told with what the clients saw.
type referee struct {
	t                       *testing.T
	p                       *program
	b                       *battlefield
	g                       *graph
	pending                 [][2]int                   // not yet described
	marks                   []int                      // of each session: what is below is forgotten
	given                   []enemyTold                // described, and to be compared once their writers are known
	names                   map[string]string          // by tag
	wrote                   map[string]map[string]bool // the rows, by name
	reads, compared, levels int
	passed                  int // reads of what conditions passed over
	held                    int // and of cursors WITH HOLD
}

type enemyTold struct {
	described
	Level string
}

// next handles one line; ids that are described by it are returned.
func (j *referee) next(end <-chan time.Time) (its []enemyTold, answered bool, line string) {
	j.t.Helper()
	select {
	case line = <-j.p.lines:
	case <-end:
		j.t.Fatal("the feed says nothing more")
	}
	if line == "" {
		j.t.Fatal("the feed ended")
	}
	if strings.Contains(line, "these marks belong to another audit") {
		j.t.Fatal(line) // nothing would be forgotten, and soon there would be no room
	}
	j.pending = append(j.pending, j.g.take(line)...)
	if strings.HasPrefix(line, `{"event":"transactions"`) {
		var it struct{ Transactions []enemyTold }
		if err := json.Unmarshal([]byte(line), &it); err != nil {
			j.t.Fatal(err)
		}
		return it.Transactions, true, line
	}
	if strings.HasPrefix(line, `{"event":"ended"`) {
		j.t.Fatal(line)
	}
	return nil, false, line
}

// describe asks what is known of everything that was offered.
func (j *referee) describe() {
	end := time.After(5 * time.Minute)
	for len(j.pending) > 0 {
		some := j.pending
		if len(some) > 10 {
			some = some[:10]
		}
		j.pending = j.pending[len(some):]
		text, _ := json.Marshal(map[string]any{"command": "describe", "id": 1, "transactions": some})
		fmt.Fprintln(j.p.say, string(text))
		for answered := false; !answered; {
			var its []enemyTold
			its, answered, _ = j.next(end)
			j.given = append(j.given, its...)
		}
		for _, id := range some {
			for len(j.marks) <= id[0] {
				j.marks = append(j.marks, 0)
			}
			if id[1]+1 > j.marks[id[0]] {
				j.marks[id[0]] = id[1] + 1
			}
		}
	}
}

// watch plays an auditor that forgets everything at each round, until enough is told.
func (j *referee) watch(enough int) {
	last := 0
	for len(j.g.names)-j.g.fences < enough {
		_, _, line := j.next(time.After(5 * time.Minute))
		if line == `["truncate"]` {
			before := j.given
			j.given = nil
			j.describe()
			for len(j.marks) < int(j.p.sessions.Load()) {
				j.marks = append(j.marks, 0)
			}
			text, _ := json.Marshal(map[string]any{"command": "cut", "marks": j.marks})
			fmt.Fprintln(j.p.say, string(text))
			j.named(j.given)
			j.compare(before)
		}
		if told := len(j.g.names) - j.g.fences; told/10000 > last {
			last = told / 10000
			fmt.Printf("%d told, %d reads compared\n", told, j.compared)
		}
		if j.t.Failed() {
			return
		}
	}
}

// finish looks at what is left, and lets the audit end.
func (j *referee) finish() {
	j.describe()
	j.named(j.given)
	j.compare(j.given)
	fmt.Fprintln(j.p.say, `{"command":"stop"}`)
	for end := time.After(5 * time.Minute); ; {
		_, _, line := j.next(end)
		if strings.HasPrefix(line, `{"event":"stopped"`) {
			break
		}
	}
}

func (it *enemyTold) tag() string {
	for _, statement := range it.Statements {
		if tag := statement.Comment["tag"]; tag != "" {
			return tag
		}
	}
	return ""
}

// rows are the tables of keys, and the rows; registers are those of conditions, and their tables.
func (it *enemyTold) rows() (rows map[int][2]string, registers map[int]string) {
	rows, registers = map[int][2]string{}, map[int]string{}
	for _, key := range it.Keys {
		table := strings.TrimPrefix(key.Table, "public.")
		if key.Condition != "" {
			registers[key.Key] = table
			continue
		}
		rows[key.Key] = [2]string{table, table + " " + key.Row}
	}
	return rows, registers
}

func (j *referee) named(its []enemyTold) {
	for i := range its {
		tag, name := its[i].tag(), fmt.Sprint(its[i].Session, ".", its[i].Number)
		if tag == "" {
			continue
		}
		j.names[tag], j.wrote[name] = name, map[string]bool{}
		rows, registers := its[i].rows()
		for _, key := range its[i].Writes {
			if registers[key] == "" {
				j.wrote[name][rows[key][0]], j.wrote[name][rows[key][1]] = true, true
			}
		}
	}
}

// compare checks transactions whose writers have been named.
func (j *referee) compare(its []enemyTold) {
	for i := range its {
		it := &its[i]
		tag := it.tag()
		if tag == "" || it.Fence {
			continue
		}
		j.b.lock.Lock()
		did := j.b.deeds[tag]
		if did != nil && did.holds {
			j.compareReads(tag, it, did)
			j.held += len(it.Reads)
			j.b.lock.Unlock()
			continue
		}
		delete(j.b.deeds, tag)
		j.b.lock.Unlock()
		if did == nil {
			j.t.Errorf("%s is told, and wasn't committed", tag)
			continue
		}
		if did.level != "" && it.Level != "unknown" {
			j.levels++
			if it.Level != did.level {
				j.t.Errorf("%s is told at the level %s, and was at %s", tag, it.Level, did.level)
			}
		}
		j.compareReads(tag, it, did)
	}
}

func (j *referee) compareReads(tag string, it *enemyTold, did *deeds) {
	rows, registers := it.rows()
	wrote := map[int]bool{}
	for _, key := range it.Writes {
		wrote[key] = true
	}
	for _, read := range it.Reads {
		j.reads++
		key := int(read[0].(float64))
		table, at := rows[key][0], rows[key][1]
		if wrote[key] {
			continue // what its write replaced
		}
		if of := registers[key]; of != "" {
			if j.passed++; !did.asked[of] && !did.wrote[of] {
				j.t.Errorf("%s is told with what it passed over in %s, and has asked for nothing there", tag, of)
			}
			continue
		}
		if keysChange[table] {
			at = table
		}
		from := "init"
		if len(read) == 3 {
			from = fmt.Sprint(read[1], ".", read[2])
		}
		tags := did.read[at]
		if len(tags) == 0 {
			if !did.asked[table] {
				j.t.Errorf("%s is told with a read of %s from %s, and has read nothing of that table", tag, at, from)
			}
			continue // a row that wasn't there
		}
		j.compared++
		fits := did.asked[table] && from == "init"
		var known []string
		for one := range tags {
			// If the write isn't told, the version before it is.
			name, is := j.names[one]
			fits = fits || name == from || one != "-" && (!is || !j.wrote[name][at] || keysChange[table])
			known = append(known, one+" "+name)
		}
		if !fits && !(tags["-"] && from == "init") {
			j.t.Errorf("%s is told with a read of %s from %s, and has read the versions of %v", tag, at, from, known)
		}
	}
}
