package wire

// Bind is a parsed Bind message. Its slices are parts of the message.
type Bind struct {
	Portal, Statement []byte
	// Middle is the part of the message between the statement's name and the formats of the results: the formats and
	// values of the parameters.
	Middle     []byte
	Formats    []byte // of the parameters, two bytes each: none, one for all, or one each
	Parameters [][]byte
	// Results are the formats of the result's columns, two bytes each.
	Results []byte
}

// Names returns the names of portal and statement from a Bind message, of which at least these must have been read.
func Names(m []byte) (portal, statement, rest []byte, ok bool) {
	portal, rest, ok = Text(m[Header:])
	if !ok {
		return
	}
	statement, rest, ok = Text(rest)
	return
}

// Parse parses a Bind message. It reuses the slices of b for the parameters' values.
func (b *Bind) Parse(m []byte) bool {
	var rest []byte
	var ok bool
	b.Portal, b.Statement, rest, ok = Names(m)
	if !ok {
		return false
	}
	b.Middle = rest
	n := Int16(rest)
	if n < 0 || len(rest) < 2+2*n {
		return false
	}
	b.Formats, rest = rest[2:2+2*n], rest[2+2*n:]
	n = Int16(rest)
	if n < 0 {
		return false
	}
	rest = rest[2:]
	b.Parameters = b.Parameters[:0]
	for ; n > 0; n-- {
		l := Int32(rest)
		switch {
		case l == -1:
			b.Parameters = append(b.Parameters, nil)
			rest = rest[4:]
			continue
		case l < 0 || len(rest) < 4+l:
			return false
		}
		b.Parameters = append(b.Parameters, rest[4:4+l:4+l])
		rest = rest[4+l:]
	}
	b.Middle = b.Middle[:len(b.Middle)-len(rest)]
	n = Int16(rest)
	if n < 0 || len(rest) != 2+2*n {
		return false
	}
	b.Results = rest[2:]
	return true
}

// Binary reports whether hidden columns come as binary, if their formats are those that Append adds.
func (b *Bind) Binary() bool {
	return len(b.Results) == 2 && b.Results[1] == 1
}

// Append appends a Bind of another statement, whose result has `more` columns after the client's own. Those come as
// text, unless one format holds for all columns.
func (b *Bind) Append(to []byte, statement string, more int) []byte {
	start := len(to)
	to = Begin(to, 'B')
	to = append(append(to, b.Portal...), 0)
	to = AppendText(to, statement)
	to = append(to, b.Middle...)
	n := len(b.Results) / 2
	if n > 1 {
		to = append(AppendInt16(to, n+more), b.Results...)
		for ; more > 0; more-- {
			to = append(to, 0, 0)
		}
	} else {
		to = append(AppendInt16(to, n), b.Results...)
	}
	return End(to, start)
}
