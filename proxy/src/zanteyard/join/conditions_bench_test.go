package join

import (
	"context"
	"strconv"
	"syscall"
	"testing"
	"time"

	"zanteyard/catalog"
	"zanteyard/cluster"
	"zanteyard/condition"
	"zanteyard/plan"
	"zanteyard/record"
)

// askedTables are tables that nobody changes.
type askedTables struct{ plainTables }

func (askedTables) Same(record.Relation, record.Identity) bool        { return true }
func (askedTables) SameColumns(record.Relation, record.Identity) bool { return true }

// BenchmarkConditions is BenchmarkJoiner, where two transactions in five ask by a condition of their own, and the log has
// the values of what is written, and the key of what was there before. There is a moment a second. What is done for it is
// in the processor time: what the session and the slot do alone, and with the joiner.
func BenchmarkConditions(b *testing.B) {
	c, err := cluster.Start(nil, nil)
	if err != nil {
		b.Skip(err)
	}
	defer c.Stop()
	ctx := context.Background()
	conn, err := c.Connect(ctx)
	if err != nil {
		b.Fatal(err)
	}
	if _, err := conn.Exec(ctx, "CREATE TABLE visits (id int PRIMARY KEY, room int, state int)").ReadAll(); err != nil {
		b.Fatal(err)
	}
	known, err := catalog.Load(ctx, cluster.Query(ctx, conn), catalog.WithColumns)
	if err != nil {
		b.Fatal(err)
	}
	table, _ := known.Find("public", "visits")
	for _, way := range []string{"without", "reported", "followed"} {
		b.Run(way, func(b *testing.B) {
			cache := plan.NewCache(known)
			l := newLoad(100_000)
			l.core.tables = askedTables{}
			if way != "without" {
				l.asks = func(it *record.Transaction, commit *record.Commit) {
					for i := range commit.Writes {
						one := &commit.Writes[i]
						one.Relation = record.Relation(table.OID)
						now := condition.NewRow([]condition.Value{{Text: string(one.Key), State: condition.Present},
							{Text: strconv.Itoa(l.r.Intn(100_000)), State: condition.Present}, {Text: "1", State: condition.Present}})
						was := condition.NewRow([]condition.Value{{Text: string(one.Key), State: condition.Present}})
						if way == "followed" {
							one.New, one.Old, one.Bytes = now, was, 200
						}
					}
					for i := range it.Reads {
						it.Reads[i].Relation = record.Relation(table.OID)
					}
					if l.next%5 >= 2 {
						return
					}
					text := "SELECT id, state FROM visits WHERE room = " + strconv.Itoa(l.r.Intn(100_000)) + " AND state >= 0"
					p, tokens := cache.Plan(text)
					q := p.Asks(text, tokens, condition.Arguments{})
					if q.Why != "" {
						b.Fatal(q.Why)
					}
					if way == "followed" {
						it.Asks = []record.Ask{{Condition: q.By, Identity: q.Identity, Columns: q.Columns, From: it.Began}}
					}
				}
			}
			b.ReportAllocs()
			b.ResetTimer()
			before := processorTime()
			for i := 0; i < b.N; i++ {
				l.transaction()
				if i%10_000 == 9_999 { // the load's second
					l.now = l.now.Add(time.Microsecond)
					l.core.quiet(l.now)
					l.now = l.now.Add(time.Microsecond)
				}
			}
			b.ReportMetric(float64(processorTime()-before)/float64(b.N)/1000, "cpu-us/op")
			b.StopTimer()
			q := l.core.questions
			b.ReportMetric(float64(q.order.Len()), "conditions")
			b.ReportMetric(float64(l.core.counts.passed), "passed")
			b.ReportMetric(float64(l.core.counts.offered)/float64(b.N), "offered")
		})
	}
}

func processorTime() time.Duration {
	var its syscall.Rusage
	syscall.Getrusage(syscall.RUSAGE_SELF, &its)
	return time.Duration(its.Utime.Nano() + its.Stime.Nano())
}
