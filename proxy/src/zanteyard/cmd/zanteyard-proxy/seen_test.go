package main

import (
	"context"
	"encoding/json"
	"fmt"
	"math/rand"
	"strings"
	"sync"
	"sync/atomic"
	"testing"
	"time"

	"github.com/jackc/pgconn"
)

// version is a row's version as the row itself shows it: the tag of its writer, "-" at first.
type version struct{ row, tag string }

// deed is what the answers to a committed transaction show: which versions it read, and which version each of its
// writes replaced.
type deed struct {
	read     map[version][]int // by which of the transaction's statements, counted from 0
	replaced map[string]string // by row
}

// tagger runs random transactions over its own connection. Each of its writes leaves its tag in the row, and returns
// the tag that it replaces.
type tagger struct {
	conn  *pgconn.PgConn
	r     *rand.Rand
	name  int
	deeds map[string]deed
}

func (c *tagger) rows(text string) ([][]string, error) {
	results, err := c.conn.Exec(context.Background(), text).ReadAll()
	if err != nil {
		return nil, err
	}
	var rows [][]string
	for _, row := range results[len(results)-1].Rows {
		var texts []string
		for _, value := range row {
			texts = append(texts, string(value))
		}
		rows = append(rows, texts)
	}
	return rows, nil
}

// transaction tries one; if it aborts, it isn't kept.
func (c *tagger) transaction(number int) error {
	tag := fmt.Sprintf("%d.%d", c.name, number)
	level := []string{"READ COMMITTED", "REPEATABLE READ", "SERIALIZABLE"}[c.r.Intn(3)]
	it, ran := deed{map[version][]int{}, map[string]string{}}, 1
	_, err := c.rows(fmt.Sprintf("BEGIN ISOLATION LEVEL %s /*tag='%s'*/", level, tag))
	for n := c.r.Intn(4); n >= 0 && err == nil; n-- {
		err = c.statement(tag, it, &ran)
	}
	if err == nil {
		_, err = c.rows("COMMIT")
	}
	if err == nil {
		c.deeds[tag] = it
		return nil
	}
	if _, failed := err.(*pgconn.PgError); !failed {
		return err
	}
	_, err = c.rows("ROLLBACK")
	return err
}

// statement runs one, or three; ran counts those of the transaction.
func (c *tagger) statement(tag string, it deed, ran *int) error {
	id := c.r.Intn(8)
	read := []string{
		fmt.Sprintf("SELECT id, tag FROM tagged WHERE id = %d", id),
		fmt.Sprintf("SELECT id, tag FROM tagged WHERE id BETWEEN %d AND %d ORDER BY id", id, id+2),
		fmt.Sprintf("SELECT id, tag FROM tagged WHERE id = %d FOR UPDATE", id),
		fmt.Sprintf("SELECT string_agg(id || ' ' || tag, ','), count(*) FROM tagged WHERE id BETWEEN %d AND %d", id, id+2),
	}
	write := fmt.Sprintf("UPDATE tagged SET replaced = tag, tag = '%s' WHERE id = %d RETURNING id, replaced", tag, id)
	switch n := c.r.Intn(8); n {
	case 0, 1, 2, 3:
		rows, err := c.rows(read[n])
		if n == 3 && err == nil {
			rows = apart(rows[0][0])
		}
		for _, row := range rows {
			one := version{row[0], row[1]}
			it.read[one] = append(it.read[one], *ran)
		}
		*ran++
		return err
	case 4: // what is undone doesn't count as written
		for _, text := range []string{"SAVEPOINT a", write, "ROLLBACK TO a"} {
			if _, err := c.rows(text); err != nil {
				return err
			}
			*ran++
		}
		return nil
	}
	rows, err := c.rows(write)
	*ran++
	for _, row := range rows {
		if row[1] != tag { // otherwise it has written the row before
			it.replaced[row[0]] = row[1]
		}
	}
	return err
}

// apart takes the rows apart that an aggregate has joined.
func apart(list string) (rows [][]string) {
	for _, one := range strings.Split(list, ",") {
		if words := strings.Split(one, " "); len(words) == 2 {
			rows = append(rows, words)
		}
	}
	return rows
}

// described is a transaction as the feed describes it.
type described struct {
	Session, Number int
	Known, Fence    bool
	Statements      []struct{ Comment map[string]string }
	Reads           [][]any
	By              []*int `json:"read_by"`
	Writes          []int
	Keys            []struct {
		Key                   int
		Table, Row, Condition string
	}
}

// watched records what the feed reports as offered.
type watched struct {
	*program
	ids [][2]int // of the transactions in lines
}

// event has the parts of an event that are used.
type event struct {
	Event                    string
	Pending, Offered, Fences int
	Reads                    struct{ Offered int }
	Transactions             []described
}

// next returns the next line, and its event. Transactions in it are recorded, and nothing is ever cut.
func (w *watched) next(end <-chan time.Time) (line string, it event) {
	w.t.Helper()
	open := true
	select {
	case line, open = <-w.lines:
	case <-end:
		w.t.Fatal("too little is offered in time")
	}
	if !open {
		w.t.Fatal("the feed ended")
	}
	switch {
	case line[0] == '{':
		if err := json.Unmarshal([]byte(line), &it); err != nil {
			w.t.Fatalf("%s: %v", line, err)
		}
	case strings.HasPrefix(line, `["offer"`), strings.HasPrefix(line, `["join"`):
		var session, first int
		var fragment []any
		parts := []any{new(string), &session, &first, &fragment}
		if strings.HasPrefix(line, `["join"`) {
			parts = []any{new(string), &session, &fragment}
		}
		if err := json.Unmarshal([]byte(line), &parts); err != nil {
			w.t.Fatalf("%s: %v", line, err)
		}
		for i := range fragment {
			w.ids = append(w.ids, [2]int{session, first + i})
		}
	}
	if it.Event == "ended" {
		w.t.Fatal(line)
	}
	return line, it
}

// much waits until enough transactions and reads are offered.
func (w *watched) much(least int) {
	w.t.Helper()
	for end := time.After(5 * time.Minute); ; {
		_, it := w.next(end)
		if it.Event == "coverage" && it.Offered-it.Fences >= least && it.Reads.Offered >= least {
			return
		}
	}
}

// offered waits until everything reported is offered, and has it described.
func (w *watched) offered() (its []described) {
	w.t.Helper()
	asked := 0
	for end := time.After(5 * time.Minute); ; {
		_, it := w.next(end)
		if it.Event == "coverage" && it.Pending == 0 && asked == 0 || it.Event == "transactions" {
			its = append(its, it.Transactions...)
			if asked == len(w.ids) && asked > 0 {
				return its
			}
			some := w.ids[asked:]
			if len(some) > 10 { // lines of the feed should not be long here
				some = some[:10]
			}
			asked += len(some)
			if len(some) > 0 {
				text, _ := json.Marshal(map[string]any{"command": "describe", "id": asked, "transactions": some})
				fmt.Fprintln(w.say, string(text))
			}
		}
	}
}

// TestReadsAreWhatClientsSaw makes clients run at the same time, at all levels, until enough is offered. It compares
// each offered read with what the rows themselves showed: which version was read, and who is offered as its writer.
func TestReadsAreWhatClientsSaw(t *testing.T) {
	c := start(t)
	p := begin(t, c, "--aggregates")
	p.until(`["open"`)
	sql(t, p.connect(), `CREATE TABLE tagged (id int PRIMARY KEY, tag text NOT NULL, replaced text);
		INSERT INTO tagged SELECT i, '-', NULL FROM generate_series(0, 9) i`)
	const clients, enough, least = 4, 120, 60
	var all sync.WaitGroup
	var isEnough atomic.Bool
	var taggers []*tagger
	for i := 0; i < clients; i++ {
		its := &tagger{conn: p.connect(), r: rand.New(rand.NewSource(time.Now().UnixNano() + int64(i))), name: i, deeds: map[string]deed{}}
		taggers = append(taggers, its)
		all.Add(1)
		go func() {
			defer all.Done()
			for n := 0; !isEnough.Load(); n++ {
				if err := its.transaction(n); err != nil {
					t.Error(err)
					return
				}
				time.Sleep(5 * time.Millisecond) // the auditor has room for 4,096, and these aren't all seen at first
			}
		}()
	}
	w := &watched{program: p}
	w.much(enough)
	isEnough.Store(true)
	all.Wait()
	j := judge{t: t, deeds: map[string]deed{}, names: map[string]string{}, wrote: map[version]bool{}}
	for _, its := range taggers {
		for tag, it := range its.deeds {
			j.deeds[tag] = it
		}
	}
	fmt.Fprintln(p.say, `{"command":"round"}`)
	if seen := j.compare(w.offered()); len(j.names) < least || seen < least {
		t.Error("too little was offered") // much more was counted
	} else if j.made < least {
		t.Errorf("of %d reads %d have a statement", seen, j.made)
	}
	fmt.Fprintln(p.say, `{"command":"stop"}`)
	p.until("stopped")
}

type judge struct {
	t     *testing.T
	deeds map[string]deed
	names map[string]string // by tag, of the offered transactions
	wrote map[version]bool  // writes that are offered
	made  int               // reads that have a statement
}

// source returns the transaction that a read of the version has to name: the last offered one at or before it.
func (j *judge) source(row, tag string) string {
	for tag != "-" {
		if j.wrote[version{row, tag}] {
			return j.names[tag]
		}
		tag = j.deeds[tag].replaced[row]
	}
	return "init"
}

// compare checks what is offered, and returns how many reads were right.
func (j *judge) compare(its []described) (seen int) {
	tags := make([]string, len(its))
	for i, it := range its {
		for _, statement := range it.Statements {
			if tag := statement.Comment["tag"]; tag != "" {
				tags[i], j.names[tag] = tag, fmt.Sprint(it.Session, ".", it.Number)
			}
		}
		for _, key := range it.Writes {
			if row, is := it.row(key); is {
				j.wrote[version{row, tags[i]}] = true
			}
		}
	}
	owed := 0
	for i, it := range its {
		if tags[i] == "" { // a fence, or the test's own transaction
			continue
		}
		want, must := j.owed(tags[i])
		owed += len(want)
		got := it.got()
		for read, by := range got {
			made, is := want[read]
			if !is {
				j.t.Errorf("%s is offered with a read of %s, and has read %v", tags[i], read, j.deeds[tags[i]])
				continue
			}
			seen++
			if by != nil {
				j.made++
				if !made[*by] {
					j.t.Errorf("%s: %s is told to have been read by statement %d, not by one of %v", tags[i], read, *by, made)
				}
			}
		}
		for read := range must {
			if _, is := got[read]; len(it.Writes) > 0 && !is {
				j.t.Errorf("%s is offered without what its write replaced: %s", tags[i], read)
			}
		}
	}
	j.t.Logf("%d of %d transactions were offered, %d of %d reads", len(j.names), len(j.deeds), seen, owed)
	return seen
}

// owed returns the reads that a transaction may be offered with, each with the statements that made it, and those that
// it must be offered with if its writes are.
func (j *judge) owed(tag string) (all map[string]map[int]bool, must map[string]bool) {
	all, must = map[string]map[int]bool{}, map[string]bool{}
	made := func(text string, by ...int) {
		if all[text] == nil {
			all[text] = map[int]bool{}
		}
		for _, one := range by {
			all[text][one] = true
		}
	}
	it, committed := j.deeds[tag]
	if !committed {
		j.t.Errorf("%s wasn't committed, and is offered", tag)
	}
	for its, by := range it.read {
		if its.tag != tag {
			made(its.row+" from "+j.source(its.row, its.tag), by...)
		}
	}
	for row, before := range it.replaced {
		text := row + " from " + j.source(row, before)
		made(text)
		must[text] = true
	}
	return all, must
}

// row returns the row that a key stands for, false if it stands for what a condition passed over.
func (it described) row(key int) (string, bool) {
	for _, one := range it.Keys {
		if one.Key == key {
			return one.Row, one.Condition == ""
		}
	}
	return "", true
}

// got returns the reads that it is offered with, each with the statement that is reported to have made it, or nil if
// none is.
func (it described) got() map[string]*int {
	got := map[string]*int{}
	for i, read := range it.Reads {
		from := "init"
		if len(read) == 3 {
			from = fmt.Sprint(read[1], ".", read[2])
		}
		if row, is := it.row(int(read[0].(float64))); is {
			got[row+" from "+from] = it.By[i]
		}
	}
	return got
}
