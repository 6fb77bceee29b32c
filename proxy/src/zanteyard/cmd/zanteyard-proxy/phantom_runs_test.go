package main

import (
	"context"
	"encoding/json"
	"fmt"
	"math/rand"
	"strconv"
	"strings"
	"sync"
	"testing"
	"time"

	"github.com/jackc/pgconn"
)

// phantomRun is one audit with many histories.
type phantomRun struct {
	t      *testing.T
	direct *pgconn.PgConn
	level  string
	p      *program
	h      *hearing
	groups []*phantomGroup
	sums   *phantomSums
}

// phantomGroup is a table, and the connections that use it: the last one makes its rows.
type phantomGroup struct {
	table    string
	conns    []*pgconn.PgConn
	sessions map[int]bool // of the auditor
}

func (b *phantomRun) all(seed int64, n int) {
	b.p.until(`["open"`)
	b.h = &hearing{p: b.p, g: newGraph()}
	groups := phantomGroups
	if n < groups {
		groups = n
	}
	for i := 0; i < groups; i++ {
		one := &phantomGroup{table: fmt.Sprint("r", i), sessions: map[int]bool{}}
		for j := 0; j <= phantomClients; j++ {
			one.conns = append(one.conns, b.p.connect("application_name="+one.table))
		}
		b.groups = append(b.groups, one)
	}
	b.warm()
	for tried := 0; tried < n && !b.t.Failed(); tried += groups {
		b.round(seed+int64(tried), min(groups, n-tried))
	}
	b.h.until(func() bool { return b.h.said.Pending == 0 })
	its, s := b.h.said.Conditions, b.sums
	s.seen, s.followed, s.passedOver, s.dropped = s.seen+its.Seen, s.followed+its.Followed, s.passedOver+its.PassedOver, s.dropped+its.Dropped
	if s.leftOut == nil {
		s.leftOut = map[string]uint64{}
	}
	for why, count := range its.LeftOut {
		s.leftOut[why] += count
	}
	if its.Followed < uint64(n) || its.PassedOver < its.Followed {
		b.t.Errorf("too little was followed: %+v", its)
	}
}

func min(a, b int) int {
	if a < b {
		return a
	}
	return b
}

// warm runs statements of all shapes on all tables until they are seen, and learns which session each connection has.
func (b *phantomRun) warm() {
	var all sync.WaitGroup
	errs := make([]error, len(b.groups))
	for i, group := range b.groups {
		all.Add(1)
		go func(i int, group *phantomGroup) {
			defer all.Done()
			errs[i] = group.warm(b.level)
		}(i, group)
	}
	all.Wait()
	for _, err := range errs {
		if err != nil {
			b.t.Fatal(err)
		}
	}
	b.h.quiet()
	last := map[int][2]int{}
	for id, name := range b.h.g.names {
		if its := b.h.g.writes[id]; len(its) != 1 || its[0] != 0 {
			last[name[0]] = name
		}
	}
	for session, name := range last {
		its := b.described(name)
		for _, group := range b.groups {
			if group.table == its.Application {
				group.sessions[session] = true
			}
		}
	}
	for _, group := range b.groups {
		if len(group.sessions) != len(group.conns) {
			b.t.Fatalf("%s has %d sessions", group.table, len(group.sessions))
		}
	}
}

func (group *phantomGroup) warm(level string) error {
	first := &phantomClient{conn: group.conns[0], r: rand.New(rand.NewSource(0)), level: level, table: group.table}
	for i := 0; i < 4; i++ { // in one message, and in several
		texts := []string{"BEGIN"}
		for kind := 0; kind < phantomKinds; kind++ {
			its := conditionOf(kind, 1, 2)
			texts = append(append(texts, its.asks(group.table)...), its.nones(group.table)...)
			texts = append(texts, first.unless(its, -1, "1", 1, "none")[1:]...)
		}
		shapesOf(group.table, func(number, kind int) {
			its := conditionOf(kind, 1, 2).shape(number, group.table)
			if texts = append(texts, its.text); its.reads != "" {
				texts = append(texts, its.reads)
			}
		})
		for _, text := range append(texts, "COMMIT") {
			if _, err := first.ask(text); err != nil {
				return err
			}
		}
	}
	for i, conn := range group.conns {
		c := &phantomClient{conn: conn, r: rand.New(rand.NewSource(int64(i))), number: i, level: level, table: group.table}
		if c.run("warm", 6); c.err != nil {
			return c.err
		}
	}
	return nil
}

// quiet hears until nothing more is offered of what was reported by now.
func (h *hearing) quiet() {
	h.p.t.Helper()
	now := float64(time.Now().UnixMicro()) / 1e6
	for end, still := time.After(5*time.Minute), 0; still < 2; {
		if h.next(end) == "coverage" && h.said.At > now {
			if still++; h.said.Pending > 0 {
				still = 0
			}
		}
	}
}

// phantomHistory is one history of a round.
type phantomHistory struct {
	seed   int64
	group  *phantomGroup
	txns   []*phantomTxn
	made   int // transactions that made the rows
	chains map[int][]phantomVersion
	err    error
}

// round runs histories at the same time, one on each group.
func (b *phantomRun) round(seed int64, n int) {
	first, fences, expected := len(b.h.g.names), b.h.g.fences, 0
	its := make([]*phantomHistory, n)
	each := func(do func(*phantomHistory)) {
		var all sync.WaitGroup
		for _, one := range its {
			all.Add(1)
			go func(one *phantomHistory) {
				defer all.Done()
				do(one)
			}(one)
		}
		all.Wait()
		for _, one := range its {
			if one.err != nil {
				b.t.Fatal(one.err)
			}
		}
	}
	for i := range its {
		its[i] = &phantomHistory{seed: seed + int64(i), group: b.groups[i], chains: map[int][]phantomVersion{}}
	}
	each((*phantomHistory).begin)
	b.log(its)
	for _, one := range its { // what the history begins with
		for key, versions := range one.chains {
			if v := versions[len(versions)-1]; v.exists {
				v.which = 0
				one.chains[key] = []phantomVersion{v}
			} else {
				delete(one.chains, key)
			}
		}
	}
	each(func(one *phantomHistory) { one.run(b.level) })
	b.log(its)
	for _, one := range its {
		b.sums.transactions += len(one.txns)
		expected += one.made + len(one.txns)
	}
	b.sums.lacking += b.hear(first-fences, expected)
	for _, one := range its {
		b.judge(one, first)
	}
}

// begin makes a history's rows.
func (one *phantomHistory) begin() {
	r := rand.New(rand.NewSource(one.seed))
	var rows []string
	for k := 1; k <= phantomKeys; k++ {
		if r.Intn(3) > 0 {
			a, b := r.Intn(3), r.Intn(4)
			rows = append(rows, fmt.Sprintf("(%d, %d, %d, 'first', %s)", k, a, b, moodOf(strconv.Itoa(a))))
		}
	}
	texts := []string{"BEGIN", "DELETE FROM " + one.group.table + " WHERE id > 0"} // a block's number is known
	if len(rows) > 0 {
		texts = append(texts, "INSERT INTO "+one.group.table+" VALUES "+strings.Join(rows, ", "))
	}
	written := int64(0)
	for _, text := range append(texts, "COMMIT") {
		results, err := one.group.conns[phantomClients].Exec(context.Background(), text).ReadAll()
		if err != nil {
			one.err = err
			return
		}
		if text != "COMMIT" {
			written += results[0].CommandTag.RowsAffected()
		}
	}
	if written > 0 {
		one.made = 1
	}
}

// run lets all clients of a history do their transactions.
func (one *phantomHistory) run(level string) {
	var all sync.WaitGroup
	clients := make([]*phantomClient, phantomClients)
	for i := range clients {
		clients[i] = &phantomClient{conn: one.group.conns[i], r: rand.New(rand.NewSource(one.seed*100 + int64(i))), number: i, level: level,
			table: one.group.table}
		all.Add(1)
		go func(c *phantomClient) {
			defer all.Done()
			c.run(fmt.Sprint("h", one.seed), 3)
		}(clients[i])
	}
	all.Wait()
	for _, c := range clients {
		if c.err != nil {
			one.err = c.err
		}
		one.txns = append(one.txns, c.done...)
	}
}

// judge compares what was offered of a history with the truth.
func (b *phantomRun) judge(one *phantomHistory, first int) {
	byRows, whole, unsure := phantomTruth(one.txns, one.chains)
	mine := func(id int) bool { return one.group.sessions[b.h.g.names[id][0]] }
	cycle, told := b.h.g.part(first, mine).violation(false)
	var wrong []string
	for _, text := range told {
		if !strings.Contains(text, "overwrite") { // at read committed a transaction may read a version, and overwrite a later one
			wrong = append(wrong, text)
		}
	}
	count := func(to *int, is bool) {
		if is {
			*to++
		}
	}
	b.sums.tried++
	count(&b.sums.violated, !whole)
	count(&b.sums.byRows, !byRows)
	count(&b.sums.found, !whole && cycle != "")
	count(&b.sums.foundByRows, !byRows && cycle != "")
	count(&b.sums.unsure, unsure)
	if len(wrong) > 0 || cycle != "" && (b.level == "SERIALIZABLE" || whole && !unsure) {
		b.t.Errorf("history %d: %v; a violation is offered that nobody made: %s\n%s", one.seed, wrong, cycle,
			shownHistory(one.txns, one.chains))
		b.describe(first, mine)
	}
	if *phantomsMissed && !whole && cycle == "" {
		b.t.Logf("history %d is violated, and that isn't found; it wouldn't be without any of\n%s\n%s", one.seed,
			strings.Join(needed(one.txns, one.chains), "\n"), shownHistory(one.txns, one.chains))
		b.describe(first, mine)
	}
}

// part is the graph of those transactions from the first one on that are kept. What they have read of others came before
// and is over.
func (g *graph) part(first int, keep func(id int) bool) *graph {
	its := newGraph()
	for id := first; id < len(g.names); id++ {
		name := g.names[id]
		if !keep(id) {
			continue
		}
		at := len(its.names)
		its.ids[name] = at
		its.names, its.after = append(its.names, name), append(its.after, nil)
		var reads [][3]int
		for _, read := range g.reads[id] {
			if earlier, is := g.ids[[2]int{read[1], read[2]}]; is && (earlier < first || !keep(earlier)) {
				read = [3]int{read[0], -2, earlier}
			}
			reads = append(reads, read)
		}
		its.reads, its.writes = append(its.reads, reads), append(its.writes, g.writes[id])
		if before, is := its.session[name[0]]; is {
			its.after[before] = append(its.after[before], at)
		}
		its.session[name[0]] = at
	}
	return its
}

// describe shows what the keys of a history's transactions stand for.
func (b *phantomRun) describe(first int, mine func(int) bool) {
	b.t.Helper()
	for id := first; id < len(b.h.g.names); id++ {
		if mine(id) {
			b.describeOne(b.h.g.names[id])
		}
	}
}

// phantomDescription is what the feed says of a transaction.
type phantomDescription struct {
	Session, Number int
	Application     string `json:"application_name"`
	Xid             uint64
	Reads           [][]any
	Writes          []int
	Keys            []struct {
		Key            int
		Row, Condition string
	}
}

func (b *phantomRun) described(name [2]int) phantomDescription {
	b.t.Helper()
	text, _ := json.Marshal(map[string]any{"command": "describe", "id": 1, "transactions": [][2]int{name}})
	fmt.Fprintln(b.p.say, string(text))
	var it struct{ Transactions []phantomDescription }
	if err := json.Unmarshal([]byte(b.p.until("transactions")), &it); err != nil || len(it.Transactions) != 1 {
		b.t.Fatal(err)
	}
	return it.Transactions[0]
}

func (b *phantomRun) describeOne(name [2]int) {
	b.t.Helper()
	one := b.described(name)
	names := map[int]string{}
	for _, key := range one.Keys {
		names[key.Key] = fmt.Sprintf("%d (%s %s)", key.Key, key.Row, key.Condition)
	}
	b.t.Logf("%d %d is %d", one.Session, one.Number, one.Xid)
	for _, read := range one.Reads {
		b.t.Logf("  read %s: %v", names[int(read[0].(float64))], read[1:])
	}
	for _, key := range one.Writes {
		b.t.Logf("  wrote %s", names[key])
	}
}

// hear waits until so many transactions are offered, other than fences and the first ones: each has asked something, or
// made rows. It returns how many are lacking, if some are left out.
func (b *phantomRun) hear(from, n int) int {
	b.t.Helper()
	now := float64(time.Now().UnixMicro()) / 1e6
	for end, still := time.After(5*time.Minute), 0; len(b.h.g.names)-b.h.g.fences-from < n; {
		if b.h.next(end) != "coverage" || b.h.said.At < now {
			continue
		}
		if still++; b.h.said.Pending > 0 {
			still = 0
		} else if still > 2 {
			return n - (len(b.h.g.names) - b.h.g.fences - from)
		}
	}
	return 0
}
