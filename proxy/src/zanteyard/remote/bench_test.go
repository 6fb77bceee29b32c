package remote

import (
	"testing"
	"time"

	"zanteyard/record"
)

// BenchmarkTransactions measures what both sides do for one transaction of three reads and four statements, without
// Redis.
func BenchmarkTransactions(b *testing.B) {
	to := newHeard()
	h := newTestHub(b, to)
	p, err := NewPost(someOptions(), "p", 1<<30, someRoom{})
	if err != nil {
		b.Fatal(err)
	}
	h.greet(someHello(h, p.id, 1), time.Now())
	p.run = h.run
	p.Connection(record.Connection{Number: 1})
	p.attach((<-h.out).Answer)
	its := record.Transaction{Connection: 1, Number: 1 << 33, Level: record.Serializable, Began: time.Now(), Ended: time.Now()}
	for i := 0; i < 3; i++ {
		its.Reads = append(its.Reads, record.Read{Relation: 16385, Key: "1234567", Version: 755 + uint32(i)})
	}
	for i := 0; i < 4; i++ {
		its.Statements = append(its.Statements, record.Statement{Text: "UPDATE account SET balance = balance - $1 WHERE id = $2",
			Parameters: []string{"100", "1234567"}, At: time.Now()})
	}
	bytes := 0
	b.ResetTimer()
	for i := 0; i < b.N; i++ {
		p.Transaction(its)
		if i%20 < 19 && i+1 < b.N { // as many as come in two milliseconds
			continue
		}
		m, _ := p.message(false)
		text, err := encode(m)
		if err != nil {
			b.Fatal(err)
		}
		one := entry{id: "1-1", text: text, signature: p.options.sign(upwards, text)}
		bytes += len(text)
		var back toHub
		if err := h.options.open(upwards, one.text, one.signature, &back); err != nil {
			b.Fatal(err)
		}
		h.lock.Lock()
		h.one(&back, time.Now())
		h.lock.Unlock()
		to.its = to.its[:0]
	}
	b.ReportMetric(float64(bytes)/float64(b.N), "bytes/transaction")
}
