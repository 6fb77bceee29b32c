package condition_test

import (
	"fmt"
	"math/rand"
	"strconv"
	"syscall"
	"testing"
	"time"

	"zanteyard/condition"
	"zanteyard/record"
)

// used is the processor time that this process has taken.
func used() time.Duration {
	var its syscall.Rusage
	syscall.Getrusage(syscall.RUSAGE_SELF, &its)
	return time.Duration(its.Utime.Nano() + its.Stime.Nano())
}

// BenchmarkSecond is a second of a busy application: 2,000 conditions that weren't asked before, and 5,000 rows
// written, each tried with its old and new values. What it takes of a second is a share of one processor.
func BenchmarkSecond(b *testing.B) {
	_, c := open(b, fmt.Sprint("bench", b.N), `CREATE TABLE bookings (id int PRIMARY KEY, room int, guest text, during tstzrange, paid numeric, day date)`)
	forms := make([]*condition.Form, 0, 5)
	for _, text := range []string{
		"SELECT * FROM bookings WHERE room = $1 AND during && tstzrange($2, $3)",
		"SELECT * FROM bookings WHERE guest = $4 AND paid > 10",
		"SELECT * FROM bookings WHERE room IN ($1, 5, 6) AND day BETWEEN '2024-01-01' AND '2024-02-01'",
		"SELECT * FROM bookings WHERE room = $1",
		"SELECT * FROM bookings WHERE paid > $5 AND day >= '2024-01-01'", // without an equality
	} {
		its, err := form(b, c, text)
		if err != nil {
			b.Fatal(err)
		}
		forms = append(forms, its)
	}
	table, _ := c.Find("", "bookings")
	index := condition.NewIndex(condition.DefaultLimits(), nil)
	r := rand.New(rand.NewSource(1))
	next, holding := 0, 0
	ask := func(count int) {
		for i := 0; i < count; i++ {
			next++
			room := strconv.Itoa(next % 50000)
			day := fmt.Sprintf("2024-01-%02d", 1+next%28)
			which := next % 4
			if next%100 == 0 {
				which = 4
			}
			made, err := forms[which].Bind(condition.Arguments{Parameters: [][]byte{
				[]byte(room), []byte(day + " 10:00:00+00"), []byte(day + " 11:00:00+00"), []byte("guest" + room), []byte(room),
			}})
			if err != nil {
				b.Fatal(err)
			}
			index.Add(made)
		}
	}
	row := func() *condition.Row {
		room := strconv.Itoa(r.Intn(50000))
		return condition.NewRow([]condition.Value{
			{Text: strconv.Itoa(r.Intn(1000)), State: condition.Present}, {Text: room, State: condition.Present},
			{Text: "guest" + room, State: condition.Present},
			{Text: `["2024-01-05 10:30:00+00","2024-01-05 10:45:00+00")`, State: condition.Present},
			{Text: "12.50", State: condition.Present}, {Text: "2024-01-15", State: condition.Present},
		})
	}
	ask(1 << 16)
	b.ResetTimer()
	began := used()
	for i := 0; i < b.N; i++ {
		ask(2000)
		for j := 0; j < 5000; j++ {
			old, new := row(), row()
			index.Candidates(record.Relation(table.OID), func(its *condition.Condition) {
				if its.Holds(old) == condition.Yes || its.Holds(new) == condition.Yes {
					holding++
				}
			}, old, new)
		}
	}
	b.ReportMetric((used()-began).Seconds()/float64(b.N)*100, "%processor")
	b.ReportMetric(float64(holding)/float64(b.N), "holding")
	b.ReportMetric(float64(index.Len()), "conditions")
	b.ReportMetric(float64(index.Bytes())/(1<<20), "MB")
}
