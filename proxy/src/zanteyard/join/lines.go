package join

import (
	"strconv"

	"zanteyard/record"
)

// write puts the session's resolved transactions into its fragment, in order, and reports whether there were any.
func (c *core) write(s *session) bool {
	moved := false
	for len(s.waiting) > 0 {
		e := s.waiting[0]
		if c.isHeld(e) {
			break
		}
		to, ok := c.resolve(e)
		if !ok {
			break
		}
		c.put(s, e, &to)
		s.waiting[0] = nil
		s.waiting = s.waiting[1:]
		moved = true
	}
	if len(s.waiting) == 0 {
		s.waiting = nil
	}
	return moved
}

func (c *core) put(s *session, e *entry, to *resolution) {
	c.used++
	c.settle(e, to)
	if !c.countLater(e, to) {
		c.counts.put(e, to)
	}
	if s.count == 0 {
		s.first = e.name.number()
	} else {
		s.line = append(s.line, ',')
	}
	before := len(s.line)
	s.line = appendTransaction(s.line, to)
	s.count++
	s.written = e.name.number() + 1
	c.keep(s, e, to, len(s.line)-before)
	if e.writer != nil {
		e.writer.forgetWrites()
	}
	if s.count == c.opt.mostInLine() {
		c.writeOffer(s)
	}
}

// appendTransaction appends [[read,..],[key,..]].
func appendTransaction(to []byte, its *resolution) []byte {
	to = append(to, '[', '[')
	for i, one := range its.reads {
		if i > 0 {
			to = append(to, ',')
		}
		to = appendRead(to, one)
	}
	to = append(to, ']', ',', '[')
	for i, one := range its.writes {
		if i > 0 {
			to = append(to, ',')
		}
		to = strconv.AppendUint(to, one.number, 10)
	}
	return append(to, ']', ']')
}

func appendRead(to []byte, one source) []byte {
	to = append(to, '[')
	to = strconv.AppendUint(to, one.row.number, 10)
	to = append(to, ',')
	to = one.from.appendSource(to)
	return append(to, ']')
}

// writeOffer writes the session's fragment.
func (c *core) writeOffer(s *session) {
	if s.count == 0 {
		return
	}
	line := make([]byte, 0, len(s.line)+40)
	if s.joins {
		c.writeOffer(c.sessions[s.after.session()]) // it has the fence that this one reads
		if before := c.sessions[s.index-1]; before.joins {
			c.writeOffer(before)
		}
		s.joins = false
		line = append(line, `["join",`...)
		line = strconv.AppendInt(line, int64(s.index), 10)
	} else {
		line = append(line, `["offer",`...)
		line = strconv.AppendInt(line, int64(s.index), 10)
		line = append(line, ',')
		line = strconv.AppendUint(line, s.first, 10)
	}
	line = append(line, `,[`...)
	line = append(line, s.line...)
	line = append(line, `]]`...)
	s.line, s.count = s.line[:0], 0
	c.out(line)
}

// flush writes all fragments.
func (c *core) flush() {
	for _, s := range c.sessions {
		c.writeOffer(s)
	}
}

// open writes the first line of an audit.
func (c *core) open() {
	promise := ""
	if c.opt.Snapshot {
		promise = `,"snapshot"`
	}
	c.out([]byte(`["open",` + strconv.Itoa(len(c.sessions)) + `,` + strconv.Itoa(c.opt.Limit) + `,3` + promise + `]`))
}

// round makes the auditor check everything that was offered, and forget what is settled.
func (c *core) round() {
	c.flush()
	c.counts.rounds++
	c.counts.totals.add(&c.counts.fresh)
	c.counts.fresh = Totals{}
	c.out([]byte(`["round",` + strconv.Itoa(c.opt.Budget) + `,0,1]`))
	c.out([]byte(`["truncate"]`))
}

// keep stores what people may ask about a transaction, until it is gone.
func (c *core) keep(s *session, e *entry, to *resolution, inLine int) {
	one := &told{its: e.its, fence: e.fence, reads: to.reads, writes: to.writes, used: c.used, dropped: e.its.Dropped}
	one.its.Reads, one.its.Absent, one.its.Versions, one.its.Did = nil, nil, nil, record.Did{}
	if e.conn != nil {
		one.from = e.conn.its
		if its := e.its.Application; its != "" {
			one.from.ApplicationName = its
		}
	}
	one.bytes = textsOf(e.its.Statements)
	if c.texts+one.bytes > c.opt.Texts {
		one.dropped, one.bytes, one.its.Statements = one.dropped+len(e.its.Statements), 0, nil
	}
	c.counts.dropped += uint64(one.dropped)
	c.texts += one.bytes
	one.size = sizeOfTold + inLine + one.bytes + 40*len(one.reads) + 8*len(one.writes)
	c.bytes += one.size - e.size
	s.kept = append(s.kept, one)
}

func textsOf(its []record.Statement) int {
	n := 0
	for _, one := range its {
		n += len(one.Text) + 64
		for _, it := range one.Parameters {
			n += len(it) + 16
		}
	}
	return n
}

// cut records how many transactions of each session are gone, and forgets them.
func (c *core) cut(marks []uint64) bool {
	if len(marks) < c.opt.First || len(marks) > len(c.sessions) {
		return false
	}
	for i, mark := range marks { // sessions that have joined since come behind these
		if s := c.sessions[i]; mark < s.mark || mark > s.written {
			return false
		}
	}
	for i, mark := range marks {
		s := c.sessions[i]
		gone := int(mark - s.mark)
		for j, one := range s.kept[:gone] {
			c.texts -= one.bytes
			c.bytes -= one.size
			s.kept[j] = nil
		}
		c.remain -= gone
		s.kept, s.mark = s.kept[gone:], mark
	}
	remain := c.fences[:0]
	for _, one := range c.fences {
		if one.name.number() >= c.sessions[one.name.session()].mark {
			remain = append(remain, one)
		} else if one.place > c.fenced {
			c.fenced = one.place
		}
	}
	c.fences = remain
	c.forget()
	c.place()
	return true
}
