package wire

import (
	"bytes"
	"encoding/binary"
	"strconv"
)

// Text splits off a text that ends in NUL from the beginning of b. ok is false if there is no NUL.
func Text(b []byte) (text, rest []byte, ok bool) {
	i := bytes.IndexByte(b, 0)
	if i < 0 {
		return nil, nil, false
	}
	return b[:i], b[i+1:], true
}

// Int16 reads a 16-bit integer at the beginning of b; -1 if b is too short.
func Int16(b []byte) int {
	if len(b) < 2 {
		return -1
	}
	return int(binary.BigEndian.Uint16(b))
}

// Int32 reads a signed 32-bit integer at the beginning of b; -2 if b is too short (-1 is the length of NULL).
func Int32(b []byte) int {
	if len(b) < 4 {
		return -2
	}
	return int(int32(binary.BigEndian.Uint32(b)))
}

// Begin appends a message's type and room for its length, which End fills in.
func Begin(to []byte, kind byte) []byte { return append(to, kind, 0, 0, 0, 0) }

// End fills in the length of the message that begins at start.
func End(to []byte, start int) []byte {
	binary.BigEndian.PutUint32(to[start+1:], uint32(len(to)-start-1))
	return to
}

// AppendInt16 appends a 16-bit integer.
func AppendInt16(to []byte, n int) []byte { return append(to, byte(n>>8), byte(n)) }

// AppendText appends a text and its terminating NUL.
func AppendText(to []byte, s string) []byte { return append(append(to, s...), 0) }

// Row parses a DataRow. values receives the last `hidden` columns; visible is the part of the message's body before
// them, without the number of columns; columns is the number of visible columns. ok is false if the row has too few
// columns or is malformed.
func Row(m []byte, hidden int, values [][]byte) (visible []byte, columns int, hid [][]byte, ok bool) {
	all := Int16(m[Header:])
	columns = all - hidden
	if columns < 0 {
		return nil, 0, values, false
	}
	at := Header + 2
	for i := 0; i < columns; i++ {
		l := Int32(m[min(at, len(m)):])
		if l < -1 {
			return nil, 0, values, false
		}
		at += 4
		if l > 0 {
			at += l
		}
	}
	if at > len(m) {
		return nil, 0, values, false
	}
	visible = m[Header+2 : at]
	for i := 0; i < hidden; i++ {
		l := Int32(m[min(at, len(m)):])
		at += 4
		switch {
		case l == -1:
			values = append(values, nil)
			continue
		case l < 0 || at+l > len(m):
			return nil, 0, values, false
		}
		values = append(values, m[at:at+l:at+l])
		at += l
	}
	return visible, columns, values, true
}

func min(a, b int) int {
	if a < b {
		return a
	}
	return b
}

// CutRow reduces a DataRow to its first columns, in place, and returns its length. visible is what Row returned.
func CutRow(m []byte, columns int, visible []byte) int {
	n := Header + 2 + len(visible)
	binary.BigEndian.PutUint32(m[1:], uint32(n-1))
	binary.BigEndian.PutUint16(m[Header:], uint16(columns))
	return n
}

// Column is one column of a RowDescription.
type Column struct {
	Name   []byte // in the message
	Table  uint32 // the relation that the statement took it from as it is, 0 if it computes it
	Number int16  // the column's number in that relation; negative for a system column
	Type   uint32
	Format int // 0 text, 1 binary
}

// Columns parses a RowDescription: each column's name, origin, type and format, and where in the message it ends.
func Columns(m []byte, columns []Column, ends []int) ([]Column, []int, bool) {
	at, n := Header+2, Int16(m[Header:])
	if n < 0 {
		return columns, ends, false
	}
	for ; n > 0; n-- {
		name := bytes.IndexByte(m[min(at, len(m)):], 0)
		if name < 0 || at+name+19 > len(m) {
			return columns, ends, false
		}
		begin := at
		at += name + 19
		columns = append(columns, Column{Name: m[begin : begin+name], Table: binary.BigEndian.Uint32(m[at-18:]),
			Number: int16(binary.BigEndian.Uint16(m[at-14:])), Type: binary.BigEndian.Uint32(m[at-12:]), Format: Int16(m[at-2:])})
		ends = append(ends, at)
	}
	return columns, ends, true
}

// AppendDescription appends a RowDescription of the first columns of m, which end at end.
func AppendDescription(to, m []byte, columns, end int) []byte {
	start := len(to)
	to = AppendInt16(Begin(to, 'T'), columns)
	return End(append(to, m[Header+2:end]...), start)
}

// Field returns a field of an ErrorResponse or NoticeResponse, or nil if it has none.
func Field(m []byte, kind byte) []byte {
	rest := m[Header:]
	for len(rest) > 0 && rest[0] != 0 {
		text, next, ok := Text(rest[1:])
		if !ok {
			return nil
		}
		if rest[0] == kind {
			return text
		}
		rest = next
	}
	return nil
}

// Fatal reports whether an ErrorResponse ends the connection.
func Fatal(m []byte) bool {
	severity := Field(m, 'V')
	if severity == nil {
		severity = Field(m, 'S')
	}
	return string(severity) == "FATAL" || string(severity) == "PANIC"
}

// AppendMoved appends an ErrorResponse or NoticeResponse, with its position, if it has one, moved.
func AppendMoved(to, m []byte, moved func(position int) int) []byte {
	position, err := strconv.Atoi(string(Field(m, 'P')))
	if err != nil {
		return append(to, m...)
	}
	start := len(to)
	to = Begin(to, m[0])
	rest := m[Header:]
	for len(rest) > 0 && rest[0] != 0 {
		text, next, ok := Text(rest[1:])
		if !ok {
			break
		}
		to = append(to, rest[0])
		if rest[0] == 'P' {
			to = strconv.AppendInt(to, int64(moved(position)), 10)
		} else {
			to = append(to, text...)
		}
		to = append(to, 0)
		rest = next
	}
	return End(append(to, 0), start)
}
