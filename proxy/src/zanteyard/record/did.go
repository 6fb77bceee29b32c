package record

// Did says what the client's statements on tables did in a transaction: each statement that ended well, and each row
// that a SELECT returned, is in one place. Selects, Again and Left have the SELECTs, Writes and Left what changes rows.
type Did struct {
	Selects []Select // SELECTs of which all was seen, with what they read
	Again   uint64   // SELECTs of which all was seen, and that made no read of their own: cursors
	Writes  uint64   // statements of whose reads all was seen, and whose changes are in the server's log
	Left    []Left   // all others
	// Rows has how many rows were returned with each of the transaction's Reads, the first one of a row that has several;
	// nil: one with each. Only rows of Selects and Again count.
	Rows []uint32
	// Beyond is how many rows of Selects and Again were read beyond the limit.
	Beyond uint64
	// Others are definitions, procedures, and whatever else may read or write.
	Others uint64
	// Conditions are those of all SELECTs that asked by anything but one whole primary key, and Empty those that returned
	// no row.
	Conditions, Empty uint64
	// Written is how many rows the statements changed, as the server answered.
	Written uint64
}

// FoundNoRow is why a SELECT isn't checked that returned no row, unless it is known what it passed over, nor a write
// that changed none.
const FoundNoRow = "it found no row"

// NotKept is why a read isn't checked that a transaction made beyond as many as are kept.
const NotKept = "more reads of one transaction than are kept"

// Select is one SELECT: the reads that it made, from From to before To, or, if it returned no row, the absent one or the
// condition that it asked for, counted from 1.
type Select struct {
	From, To int32
	// Those of its reads that had been made before are from EarlierFrom to before EarlierTo, perhaps with others between.
	EarlierFrom, EarlierTo int32
	// Unkept are its reads beyond the limit.
	Unkept int32
	Absent int32
	Ask    int32
}

// Reads is how many reads it rests on.
func (s Select) Reads() int { return int(s.To - s.From + s.EarlierTo - s.EarlierFrom + s.Unkept) }

// Earlier adds a read that had been made before.
func (s *Select) Earlier(at int) {
	if place := int32(at); s.EarlierTo == 0 {
		s.EarlierFrom, s.EarlierTo = place, place+1
	} else if place < s.EarlierFrom {
		s.EarlierFrom = place
	} else if place >= s.EarlierTo {
		s.EarlierTo = place + 1
	}
}

// Left counts statements of which something wasn't seen, for one reason. InPart means that the rest was seen.
type Left struct {
	Reason                string
	InPart                bool
	Selects, Writes, Rows uint64
}

// Leave counts statements, or rows of statements that were counted before.
func (d *Did) Leave(reason string, inPart bool, selects, writes, rows uint64) {
	for i := range d.Left {
		if it := &d.Left[i]; it.Reason == reason && it.InPart == inPart {
			it.Selects, it.Writes, it.Rows = it.Selects+selects, it.Writes+writes, it.Rows+rows
			return
		}
	}
	d.Left = append(d.Left, Left{reason, inPart, selects, writes, rows})
}

// Sum is how many statements and rows there are in all, of a transaction with so many reads.
func (d Did) Sum(reads int) (selects, writes, rows uint64) {
	d = d.Alone(reads)
	selects, writes, rows = d.Again, d.Writes, d.Beyond
	for _, it := range d.Left {
		selects, writes, rows = selects+it.Selects, writes+it.Writes, rows+it.Rows
	}
	return selects, writes, rows
}

// Added counts a row that was returned with a new read, the last one of so many; n is 0 if the row isn't counted there.
func (d *Did) Added(reads int, n uint32) {
	if d.Rows != nil || n != 1 {
		d.weigh(reads - 1)
		d.Rows = append(d.Rows, n)
	}
}

// Repeated counts a row that was returned with one of so many reads, which was there before.
func (d *Did) Repeated(at, reads int, n uint32) {
	if n > 0 {
		d.weigh(reads)
		d.Rows[at] += n
	}
}

func (d *Did) weigh(reads int) {
	if d.Rows != nil {
		return
	}
	d.Rows = make([]uint32, reads, reads+8)
	for i := range d.Rows {
		d.Rows[i] = 1
	}
}

// Weight is how many rows were returned with a read.
func (d *Did) Weight(read int) uint64 {
	if d.Rows == nil {
		return 1
	}
	return uint64(d.Rows[read])
}

// Alone is the same without the transaction's reads, of which there were so many.
func (d Did) Alone(reads int) Did {
	rows := d.Beyond + uint64(reads)
	if d.Rows != nil {
		rows = d.Beyond
		for _, n := range d.Rows {
			rows += uint64(n)
		}
	}
	d.Again, d.Selects, d.Rows, d.Beyond = d.Again+uint64(len(d.Selects)), nil, nil, rows
	return d
}
