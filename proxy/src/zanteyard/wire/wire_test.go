package wire

import (
	"bytes"
	"errors"
	"fmt"
	"io"
	"testing"
	"testing/iotest"

	"github.com/jackc/chunkreader/v2"
	"github.com/jackc/pgproto3/v2"
)

func message(kind byte, n int) []byte {
	to := append(Begin(nil, kind), bytes.Repeat([]byte{kind}, n)...)
	return End(to, 0)
}

// TestReader returns all messages whole, however the bytes arrive, and long ones in parts.
func TestReader(t *testing.T) {
	var all []byte
	sizes := []int{0, 1, 4, 100, firstBuffer - 5, firstBuffer, keptBuffer, 3 * keptBuffer, Limit - 5, Limit, Limit + 1,
		3*Limit + 7, 0, 12}
	for i, n := range sizes {
		all = append(all, message('a'+byte(i), n)...)
	}
	for name, from := range map[string]io.Reader{
		"at once": bytes.NewReader(all), "in halves": iotest.HalfReader(bytes.NewReader(all)),
		"with its end": iotest.DataErrReader(bytes.NewReader(all)),
		"by bytes":     iotest.OneByteReader(bytes.NewReader(all[:20000])),
	} {
		r := NewReader(from)
		var got []byte
		for {
			b, more, err := r.Whole()
			if err != nil {
				if err != io.EOF {
					t.Errorf("%s: %v", name, err)
				}
				break
			}
			if more > 0 && len(b) < Limit {
				t.Errorf("%s: only %d bytes of a long message were given", name, len(b))
			}
			got = append(got, b...)
			for more > 0 && err == nil {
				b, more, err = r.Chunk()
				got = append(got, b...)
			}
		}
		want := all
		if name == "by bytes" {
			want = all[:len(got)]
			if len(got) < firstBuffer {
				t.Errorf("%s: %d bytes", name, len(got))
			}
		}
		if !bytes.Equal(got, want) {
			t.Errorf("%s: %d bytes in place of %d", name, len(got), len(want))
		}
		if len(r.buf) > 2*keptBuffer {
			t.Errorf("%s: the buffer has %d bytes in the end", name, len(r.buf))
		}
	}
}

func TestReaderRest(t *testing.T) {
	long := message('x', 2*Limit)
	r := NewReader(bytes.NewReader(append(append([]byte(nil), long...), message('y', 3)...)))
	b, more, err := r.Whole()
	if err != nil || more == 0 {
		t.Fatalf("%d more, %v", more, err)
	}
	if _, _, err := r.Whole(); err == nil {
		t.Error("the next message in the midst of one")
	}
	if b, err = r.Rest(b); err != nil || !bytes.Equal(b, long) {
		t.Errorf("%d bytes, %v", len(b), err)
	}
	if b, more, err = r.Whole(); err != nil || more != 0 || !bytes.Equal(b, message('y', 3)) {
		t.Errorf("%q, %d, %v", b, more, err)
	}
}

func TestReaderRefuses(t *testing.T) {
	for _, x := range []struct {
		bytes []byte
		want  error
	}{
		{nil, io.EOF}, {[]byte("Q"), io.EOF}, {message('Q', 5)[:8], io.EOF},
		{[]byte{'Q', 0, 0, 0, 3}, ErrFrame}, {[]byte{'Q', 0xff, 0xff, 0xff, 0xff}, ErrFrame},
	} {
		if _, _, err := NewReader(bytes.NewReader(x.bytes)).Whole(); !errors.Is(err, x.want) {
			t.Errorf("%q: %v in place of %v", x.bytes, err, x.want)
		}
	}
}

// TestRow cuts off hidden columns.
func TestRow(t *testing.T) {
	row := func(values ...[]byte) []byte { return (&pgproto3.DataRow{Values: values}).Encode(nil) }
	a, b, empty := []byte("alpha"), []byte("b"), []byte{}
	for _, x := range []struct {
		m      []byte
		hidden int
		keeps  []byte
		hides  [][]byte
	}{
		{row(a, b), 1, row(a), [][]byte{b}},
		{row(a, nil, b, nil), 2, row(a, nil), [][]byte{b, nil}},
		{row(nil, empty), 1, row(nil), [][]byte{empty}},
		{row(a), 1, row(), [][]byte{a}},
		{row(a, b), 0, row(a, b), nil},
	} {
		visible, columns, values, ok := Row(x.m, x.hidden, nil)
		for i := range x.hides {
			if !bytes.Equal(values[i], x.hides[i]) || (values[i] == nil) != (x.hides[i] == nil) {
				t.Errorf("%q: hides %q", x.m, values)
			}
		}
		if n := CutRow(x.m, columns, visible); !ok || !bytes.Equal(x.m[:n], x.keeps) {
			t.Errorf("%q: keeps %q", x.m, visible)
		}
	}
	whole := row(a, nil, b)
	for n := Header; n < len(whole); n++ {
		if _, _, _, ok := Row(whole[:n], 1, nil); ok {
			t.Errorf("a row that ends after %d bytes was taken", n)
		}
	}
	if _, _, _, ok := Row(whole, 4, nil); ok {
		t.Error("more columns were taken off than there are")
	}
}

func TestDescription(t *testing.T) {
	d := &pgproto3.RowDescription{Fields: []pgproto3.FieldDescription{{Name: []byte("a"), DataTypeOID: 23},
		{Name: []byte("long name"), TableOID: 1 << 31, TableAttributeNumber: 65534, DataTypeOID: 28, Format: 1}}}
	m := d.Encode(nil)
	columns, ends, ok := Columns(m, nil, nil)
	if !ok || fmt.Sprint(columns) != fmt.Sprint([]Column{{[]byte("a"), 0, 0, 23, 0}, {[]byte("long name"), 1 << 31, -2, 28, 1}}) || ends[1] != len(m) {
		t.Errorf("%v %v %v", columns, ends, ok)
	}
	d.Fields = d.Fields[:1]
	if got := AppendDescription([]byte("x"), m, 1, ends[0]); !bytes.Equal(got[1:], d.Encode(nil)) {
		t.Errorf("%q", got)
	}
	for n := Header; n < len(m); n++ {
		if _, _, ok := Columns(m[:n], nil, nil); ok {
			t.Errorf("a description that ends after %d bytes was taken", n)
		}
	}
}

func TestBind(t *testing.T) {
	for _, x := range []struct {
		bind   pgproto3.Bind
		more   int
		want   []int16
		binary bool
	}{
		{pgproto3.Bind{}, 2, nil, false},
		{pgproto3.Bind{ResultFormatCodes: []int16{1}}, 2, []int16{1}, true},
		{pgproto3.Bind{ResultFormatCodes: []int16{0}}, 2, []int16{0}, false},
		{pgproto3.Bind{ResultFormatCodes: []int16{1, 0}, DestinationPortal: "p", PreparedStatement: "s"}, 3, []int16{1, 0,
			0, 0, 0}, false},
		{pgproto3.Bind{Parameters: [][]byte{[]byte("abc"), nil, {}}, ParameterFormatCodes: []int16{0, 1, 0}}, 1, nil, false},
	} {
		m := x.bind.Encode(nil)
		var b Bind
		if !b.Parse(m) {
			t.Errorf("%+v isn't taken", x.bind)
			continue
		}
		if b.Binary() != x.binary || len(b.Parameters) != len(x.bind.Parameters) {
			t.Errorf("%+v: %+v", x.bind, b)
		}
		want := x.bind
		want.PreparedStatement, want.ResultFormatCodes = "other", x.want
		if got := b.Append(nil, "other", x.more); !bytes.Equal(got, want.Encode(nil)) {
			t.Errorf("%+v: %q in place of %q", x.bind, got, want.Encode(nil))
		}
		for n := Header; n < len(m); n++ {
			if new(Bind).Parse(m[:n]) {
				t.Errorf("%+v: taken with %d bytes", x.bind, n)
			}
		}
	}
}

func TestError(t *testing.T) {
	e := &pgproto3.ErrorResponse{Severity: "ERROR", SeverityUnlocalized: "ERROR", Code: "42703", Message: "m",
		Position: 40}
	m := e.Encode(nil)
	e.Position = 33
	if got := AppendMoved(nil, m, func(p int) int { return p - 7 }); !bytes.Equal(got, e.Encode(nil)) {
		t.Errorf("%q", got)
	}
	e.Position = 0
	m = e.Encode(nil)
	if got := AppendMoved(nil, m, func(int) int { return 1 }); !bytes.Equal(got, m) {
		t.Errorf("%q", got)
	}
	if string(Field(m, 'C')) != "42703" || Field(m, 'D') != nil || Fatal(m) {
		t.Errorf("fields of %q", m)
	}
	if !Fatal((&pgproto3.ErrorResponse{Severity: "FATAL", SeverityUnlocalized: "FATAL"}).Encode(nil)) {
		t.Error("fatal")
	}
}

// stream is what a server sends for many small results.
func stream() []byte {
	var b []byte
	row := (&pgproto3.DataRow{Values: [][]byte{[]byte("12345"), []byte("a value"), nil, []byte("731")}}).Encode(nil)
	for i := 0; i < 100; i++ {
		b = append(b, (&pgproto3.BindComplete{}).Encode(nil)...)
		for j := 0; j < 10; j++ {
			b = append(b, row...)
		}
		b = append(b, (&pgproto3.CommandComplete{CommandTag: []byte("SELECT 10")}).Encode(nil)...)
		b = append(b, (&pgproto3.ReadyForQuery{TxStatus: 'I'}).Encode(nil)...)
	}
	return b
}

// BenchmarkFrames passes messages on, with the last column of each row cut off: by slices of the buffer, and by
// values of pgproto3.
func BenchmarkFrames(b *testing.B) {
	all := stream()
	b.Run("slices", func(b *testing.B) {
		b.SetBytes(int64(len(all)))
		b.ReportAllocs()
		var out []byte
		var values [][]byte
		for i := 0; i < b.N; i++ {
			r := NewReader(bytes.NewReader(all)) // which copies it, so that rows can be cut in place
			for {
				batch, _, err := r.Whole()
				if err != nil {
					break
				}
				out = out[:0]
				for len(batch) > 0 {
					m := batch[:Length(batch)]
					batch = batch[len(m):]
					if m[0] != 'D' {
						out = append(out, m...)
						continue
					}
					visible, columns, hidden, _ := Row(m, 1, values[:0])
					values = hidden
					out = append(out, m[:CutRow(m, columns, visible)]...)
				}
			}
		}
	})
	b.Run("pgproto3", func(b *testing.B) {
		b.SetBytes(int64(len(all)))
		b.ReportAllocs()
		var out []byte
		for i := 0; i < b.N; i++ {
			f := pgproto3.NewFrontend(chunkreader.New(bytes.NewReader(all)), nil)
			for {
				m, err := f.Receive()
				if err != nil {
					break
				}
				if len(out) > 60000 {
					out = out[:0]
				}
				if row, ok := m.(*pgproto3.DataRow); ok {
					row.Values = row.Values[:len(row.Values)-1]
				}
				out = m.Encode(out)
			}
		}
	})
}
