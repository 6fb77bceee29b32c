package session

import (
	"strings"
	"testing"

	"github.com/jackc/pgproto3/v2"

	"zanteyard/record"
)

// TestParametersAreFew: of a statement with thousands of parameters only the first ones are kept, and of a transaction of
// many such statements only about as much as the limit; the rest is counted.
func TestParametersAreFew(t *testing.T) {
	needServer(t)
	p := through(t, "postgres", func(o *Options) { o.Shared, o.Policy.Statements, o.Policy.Parameters = nil, true, true })
	const statements, parameters = 200, 3000
	values := make([][]byte, parameters)
	for i := range values {
		values[i] = []byte(strings.Repeat("x", 300))
	}
	text := "SELECT v FROM t WHERE id = 1 AND '' NOT IN ($1::text"
	for i := 2; i <= parameters; i++ {
		text += ", $" + itoa(uint64(i)) + "::text"
	}
	text += ")"
	p.query("BEGIN")
	for i := 0; i < statements; i++ {
		p.send(encoded(&pgproto3.Parse{Query: text}, &pgproto3.Bind{Parameters: values}, &pgproto3.Execute{}, &pgproto3.Sync{}))
		p.until('Z')
	}
	p.query("COMMIT")
	var its record.Transaction
	until(t, "the transaction is reported", func() bool {
		for _, one := range p.sink.take() {
			if len(one.Statements) > 10 {
				its = one
				return true
			}
		}
		return false
	})
	kept := 0
	for i := range its.Statements {
		one := &its.Statements[i]
		kept += sizeOf(one)
		if !strings.HasPrefix(one.Text, "SELECT v") {
			continue
		}
		if len(one.Text) != mostText || one.Text != text[:mostText] {
			t.Errorf("a text of %d bytes", len(one.Text))
		}
		if len(one.Parameters) != mostOfThem || one.More != parameters-mostOfThem {
			t.Errorf("statement %d: %d parameters are kept, and %d more were counted", i, len(one.Parameters), one.More)
		}
	}
	if kept > mostKept+64<<10 || kept < mostKept/2 {
		t.Errorf("%d bytes are kept", kept)
	}
	if n := len(its.Statements) + its.Dropped; n < statements {
		t.Errorf("%d statements are kept and %d counted, of %d", len(its.Statements), its.Dropped, statements)
	}
}
