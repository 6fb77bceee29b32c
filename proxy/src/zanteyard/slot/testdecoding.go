package slot

import (
	"bytes"
	"strconv"

	"zanteyard/record"
)

// testDecoding reads the lines of test_decoding, for servers without wal2json: "BEGIN 734", "table s.t: INSERT:
// id[integer]:1 v[text]:'it”s'", "COMMIT 734".
type testDecoding struct {
	tables    *Tables
	canonical func(uint32, string) (string, bool)
	open      transaction
}

const testDecodingOptions = `"include-xids" '1', "skip-empty-xacts" '1'`

func (d *testDecoding) decode(text []byte, end uint64) (record.Commit, bool, error) {
	switch {
	case bytes.HasPrefix(text, []byte("BEGIN ")):
		number, err := strconv.ParseUint(string(text[len("BEGIN "):]), 10, 32)
		if err != nil {
			return record.Commit{}, false, errForm
		}
		d.open.begin(uint32(number), 0, d.tables.Names())
	case bytes.HasPrefix(text, []byte("COMMIT")):
		return d.open.commit(end, d.tables.Used()), true, nil
	case bytes.HasPrefix(text, []byte("table ")):
		d.open.touched = true
		return record.Commit{}, false, d.change(text[len("table "):])
	}
	return record.Commit{}, false, nil // a message that an application wrote to the log
}

func (d *testDecoding) change(text []byte) error {
	schema, rest, ok := name(text, '.')
	if !ok {
		return errForm
	}
	first, rest, ok := name(rest, ':')
	if !ok {
		return errForm
	}
	if bytes.HasPrefix(rest, []byte(" TRUNCATE:")) || bytes.HasPrefix(rest, []byte(", ")) {
		return d.truncate(schema, first, rest)
	}
	action, rest, found := bytes.Cut(bytes.TrimPrefix(rest, []byte(" ")), []byte(":"))
	if !found {
		return errForm
	}
	t := d.tables.named(schema, first)
	switch {
	case t == nil:
		d.tables.unknown(schema, first)
		d.open.keyless++
		d.open.gap(record.NoRelation)
		return nil
	case d.tables.leaves(t):
		d.open.keyless++
		if len(t.Key) > 0 { // it may be asked for by a condition
			d.open.gap(t.Root)
		}
		return nil
	}
	was, now, err := d.rows(rest, t, string(action))
	if err != nil {
		return err
	}
	old, hasOld := d.key(t, was)
	key, hasKey := d.key(t, now)
	if string(action) == "DELETE" && !hasOld || string(action) != "DELETE" && !hasKey {
		d.tables.without(t, noKeyLog)
		d.open.keyless++
		d.open.gap(t.Root)
	}
	if hasOld && (string(action) == "DELETE" || hasKey && old != key) {
		d.open.write(t.Root, old, false, true, values{})
	}
	if hasKey {
		moved := hasOld && old != key
		d.open.write(t.Root, key, string(action) == "INSERT" || moved, false, values{moved: moved})
	}
	return nil
}

// truncate reads "s.t, s.u: TRUNCATE: (no-flags)", from after the first name.
func (d *testDecoding) truncate(schema, table, rest []byte) error {
	for {
		if t := d.tables.named(schema, table); t != nil && !(t.unasked && d.tables.leaves(t)) {
			d.open.empty(t)
			d.tables.without(t, truncated)
		}
		if !bytes.HasPrefix(rest, []byte(", ")) {
			return nil
		}
		var ok bool
		if schema, rest, ok = name(rest[2:], '.'); !ok {
			return errForm
		}
		if table, rest, ok = name(rest, ':'); !ok {
			return errForm
		}
	}
}

// name reads an identifier, with quotes if it has any, up to the separator; instead of a colon there may be a comma,
// which isn't consumed.
func name(text []byte, end byte) (its, rest []byte, ok bool) {
	if len(text) > 0 && text[0] == '"' {
		for i := 1; i < len(text); i++ {
			switch {
			case text[i] != '"':
				its = append(its, text[i])
			case i+1 < len(text) && text[i+1] == '"':
				its = append(its, '"')
				i++
			default:
				return after(its, text[i+1:], end)
			}
		}
		return nil, nil, false
	}
	i := bytes.IndexAny(text, ".:,")
	if i < 0 {
		return nil, nil, false
	}
	return after(text[:i], text[i:], end)
}

func after(its, rest []byte, end byte) ([]byte, []byte, bool) {
	if len(rest) > 0 && rest[0] == end {
		return its, rest[1:], true
	}
	return its, rest, end == ':' && len(rest) > 0 && rest[0] == ','
}

// rows reads the columns of the old row, if they are given, and of the new one.
func (d *testDecoding) rows(rest []byte, t *Table, action string) (was, now []column, err error) {
	switch {
	case action == "DELETE":
		if bytes.HasPrefix(rest, []byte(" (no-tuple-data)")) {
			return nil, nil, nil
		}
		was, _, err = columnsOf(rest, t)
	case bytes.HasPrefix(rest, []byte(" old-key:")):
		if was, rest, err = columnsOf(rest[len(" old-key:"):], t); err != nil {
			return nil, nil, err
		}
		now, _, err = columnsOf(bytes.TrimPrefix(rest, []byte(" new-tuple:")), t)
	case bytes.HasPrefix(rest, []byte(" (no-tuple-data)")):
	default:
		now, _, err = columnsOf(rest, t)
	}
	return was, now, err
}

// columnsOf reads " id[integer]:1 v[text]:'x'" up to the end or " new-tuple:", and keeps those of the key.
func columnsOf(rest []byte, t *Table) (its []column, left []byte, err error) {
	for len(rest) > 0 && !bytes.HasPrefix(rest, []byte(" new-tuple:")) {
		one, next, err := columnOf(bytes.TrimPrefix(rest, []byte(" ")))
		if err != nil {
			return nil, nil, err
		}
		if t.hasKey(one.name) {
			its = append(its, one)
		}
		rest = next
	}
	return its, rest, nil
}

// columnOf reads one column: its name, its type in brackets, and its value.
func columnOf(text []byte) (column, []byte, error) {
	var one column
	open := nameEnd(text)
	if open < 0 {
		return one, nil, errForm
	}
	one.name = plainName(text[:open])
	value := typeEnd(text, open)
	if value < 0 {
		return one, nil, errForm
	}
	rest := text[value:]
	var err error
	one.value, one.null, rest, err = valueOf(rest)
	return one, rest, err
}

// nameEnd returns where the type's bracket opens.
func nameEnd(text []byte) int {
	if len(text) == 0 || text[0] != '"' {
		return bytes.IndexByte(text, '[')
	}
	for i := 1; i < len(text); i++ {
		if text[i] != '"' {
			continue
		}
		if i+1 < len(text) && text[i+1] == '"' {
			i++
			continue
		}
		if i+1 < len(text) && text[i+1] == '[' {
			return i + 1
		}
		return -1
	}
	return -1
}

// typeEnd returns where the value begins: after the type's bracket, which opens there, and a colon. A type's name may
// contain both, in quotes.
func typeEnd(text []byte, open int) int {
	quoted := false
	for i := open + 1; i+1 < len(text); i++ {
		switch {
		case text[i] == '"': // one that is doubled ends a quoted part and begins another
			quoted = !quoted
		case !quoted && text[i] == ']' && text[i+1] == ':':
			return i + 2
		}
	}
	return -1
}

func plainName(text []byte) []byte {
	if len(text) < 2 || text[0] != '"' {
		return text
	}
	return bytes.ReplaceAll(text[1:len(text)-1], []byte(`""`), []byte(`"`))
}

// valueOf reads a value: a quoted one, in which quotes are doubled, or a word.
func valueOf(text []byte) (value []byte, null bool, rest []byte, err error) {
	bits := bytes.HasPrefix(text, []byte("B'"))
	if bits {
		text = text[1:]
	}
	if len(text) == 0 || text[0] != '\'' {
		end := bytes.IndexByte(text, ' ')
		if end < 0 {
			end = len(text)
		}
		word := text[:end]
		return word, string(word) == "null" || string(word) == "unchanged-toast-datum", text[end:], nil
	}
	plain := false
	for i := 1; i < len(text); i++ {
		if text[i] != '\'' {
			continue
		}
		if i+1 < len(text) && text[i+1] == '\'' {
			plain = true
			i++
			continue
		}
		value = text[1:i]
		if plain {
			value = bytes.ReplaceAll(value, []byte("''"), []byte("'"))
		}
		return value, false, text[i+1:], nil
	}
	return nil, false, nil, errForm
}

func (d *testDecoding) key(t *Table, its []column) (record.Key, bool) {
	w := wal2json{canonical: d.canonical}
	return w.key(t, its)
}
