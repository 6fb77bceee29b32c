package remote

import (
	"testing"
	"time"

	"zanteyard/record"
)

// TestFarFromRedis: a proxy sends one message after another, and each waits for Redis's answer. One that is 20 ms away
// still has to send what 20,000 transactions a second are.
func TestFarFromRedis(t *testing.T) {
	const away, rate = 20 * time.Millisecond, 20_000
	p, err := NewPost(someOptions(), "p", 64<<20, someRoom{})
	if err != nil {
		t.Fatal(err)
	}
	p.attach(&answer{Proxy: p.id, Epoch: 1, Mark: 7})
	its := record.Transaction{Connection: 1, Number: 1 << 33, Level: record.Serializable, Began: time.Now(), Ended: time.Now()}
	for i := 0; i < 3; i++ {
		its.Reads = append(its.Reads, record.Read{Relation: 16385, Key: "1234567", Version: 755 + uint32(i)})
		its.Statements = append(its.Statements, record.Statement{Text: "UPDATE account SET balance = balance - $1 WHERE id = $2",
			Parameters: []string{"100", "1234567"}, At: time.Now()})
	}
	for i := 0; i < rate; i++ {
		p.Transaction(its)
	}
	messages, items := 0, 0
	for more := true; more; messages++ {
		var m *toHub
		m, more = p.message(false)
		items += len(m.Items)
	}
	if took := time.Duration(messages) * (away + gather); took > time.Second || items != rate || p.dropped > 0 {
		t.Errorf("%d messages with %d transactions take %v; %d were left out", messages, items, took, p.dropped)
	}
}

// TestWaiting: messages of one size, however long, take no more than 256 MiB of Redis if the watch doesn't read them.
func TestWaiting(t *testing.T) {
	for _, one := range []struct{ size, want int }{{0, backlog}, {300, backlog}, {64 << 10, 4096}, {mostBytes, 512}, {mostBytes + 1, 511}, {mostOfOne, 64}} {
		got := waiting(one.size)
		if got != one.want || got*one.size > 256<<20 {
			t.Errorf("%d messages of %d bytes may wait", got, one.size)
		}
	}
}
