package join

import (
	"time"

	"zanteyard/record"
)

// session is one of the auditor's sessions. The transactions of one connection after another are offered in it, and
// fences. Only the order within one connection is audited; every other order is permitted by quiet moments
// (moments.go).
type session struct {
	index   int
	next    uint64 // the number to give next
	written uint64 // the numbers below it are in lines
	mark    uint64 // the numbers below it are gone
	tenant  *connection
	last    time.Time // when the last one that is named in it, other than fences, had ended
	fence   time.Time // the moment of its last fence
	own     bool      // the last one in it, other than fences, is the tenant's
	had     uint64    // the connection whose transaction was named last
	place   uint64    // of that in its connection
	fenced  bool      // nothing comes after its last fence, or it never had anything
	joins   bool      // it joins, and no line of it is written yet
	after   name      // the fence that its first one reads, if it joins
	waiting []*entry  // named, but not in a line yet
	kept    []*told   // of numbers from mark on
	line    []byte    // a fragment that is being built
	first   uint64
	count   int
}

// connection is a client's connection.
type connection struct {
	its     record.Connection
	session *session
	ended   bool
	active  time.Time
	held    *entry // its outcome isn't known yet
	// aside stands for it where what its cursors WITH HOLD return is offered: in a session of its own, which no other
	// transaction of the connection is in. isAside: it stands for another one.
	aside   *connection
	isAside bool
}

// told is what is kept about an offered transaction until it is gone.
type told struct {
	its     record.Transaction // without reads
	fence   bool
	from    record.Connection
	reads   []source
	writes  []*row
	bytes   int    // of its statements' texts
	size    int    // what it counts with in core.bytes
	used    uint64 // the count of transactions in lines
	dropped int    // number of statements that were dropped
}

// entry is a transaction on its way into a line.
type entry struct {
	its     record.Transaction
	conn    *connection
	session *session
	name    name
	writer  *writer     // nil if it wrote nothing that is offered
	batch   uint64      // what it needs from the slot comes before this batch's place
	told    time.Time   // when it was reported
	asked   bool        // subtransactions were asked for because of it
	late    string      // why its writes are left out, though its number is known, or ""
	size    int         // about how many bytes it takes
	fence   bool        // nobody ran it
	from    name        // if it is a fence, the one before it
	asks    []*question // of its.Asks, nil for those that aren't followed
	deduced bool        // what it passed over has told what rows were before
}

// enter records what a session reported of a connection.
func (c *core) enter(it record.Connection) {
	if it.Refused != "" {
		c.counts.refused[it.Refused]++
		return
	}
	if it.Ended {
		if conn := c.connections[it.Number]; conn != nil {
			conn.ended = true
			delete(c.connections, it.Number)
			for _, one := range []*connection{conn, conn.aside} {
				if one != nil {
					c.unqueue(one)
					c.release(one)
				}
			}
		}
		return
	}
	if conn := c.connections[it.Number]; conn != nil { // it is known
		conn.its = it
		return
	}
	c.counts.ever++
	conn := &connection{its: it, active: c.now}
	c.connections[it.Number] = conn
	if !c.sampled(it.Number) || c.isElsewhere(it) {
		return
	}
	c.queue = append(c.queue, conn)
	c.place()
}

// asideOf returns what stands for a connection where what its cursors WITH HOLD return is offered.
func (c *core) asideOf(conn *connection) *connection {
	if conn.aside == nil {
		conn.aside = &connection{its: conn.its, isAside: true, active: c.now}
		if c.sampled(conn.its.Number) && !c.isElsewhere(conn.its) {
			c.queue = append(c.queue, conn.aside)
			c.place()
		}
	}
	return conn.aside
}

// isElsewhere reports whether a connection is of another database than the slot: there the same identifiers belong to
// other tables.
func (c *core) isElsewhere(it record.Connection) bool {
	return c.database != "" && it.Database != "" && it.Database != c.database
}

// unqueue removes a connection from those that wait.
func (c *core) unqueue(conn *connection) {
	for i, one := range c.queue {
		if one == conn {
			c.queue = append(c.queue[:i], c.queue[i+1:]...)
			return
		}
	}
}

// audited returns the connections with a session.
func (c *core) audited() []uint64 {
	its := make([]uint64, 0, len(c.sessions))
	for _, s := range c.sessions {
		if s.tenant != nil && !s.tenant.isAside {
			its = append(its, s.tenant.its.Number)
		}
	}
	return its
}

// unaudited returns the connections without a session.
func (c *core) unaudited() []uint64 {
	var its []uint64
	for number, conn := range c.connections {
		if conn.session == nil {
			its = append(its, number)
		}
	}
	return its
}

// sampled reports whether a connection is among those to be audited. It depends on nothing that a client does.
func (c *core) sampled(number uint64) bool {
	if c.opt.Sample >= 1 {
		return true
	}
	x := number + 0x9e3779b97f4a7c15
	x = (x ^ x>>30) * 0xbf58476d1ce4e5b9
	x = (x ^ x>>27) * 0x94d049bb133111eb
	return float64((x^x>>31)>>11)/(1<<53) < c.opt.Sample
}
