package join

import (
	"fmt"
	"math"
	"time"
)

// The auditor falls behind if more is committed than it can check. Then transactions are left out, and counted, which
// folds them; nobody waits. That is decided by the time for which a round isn't answered, and by the bytes of what the
// auditor holds or has yet to read, so what waits has a bound, and each verdict is young.
//
// A round takes the longer the more remains, and its time grows faster than that. If a single round had to do with all that
// is committed while the one before it runs, none might ever end in time. So a bound on what remains, below the limit,
// follows from how long rounds take, and sessions meet for a cut before much of it is used.

// sizeOfTold is about how many bytes an offered transaction takes here, without its reads and texts.
const sizeOfTold = 512

// mostFull is how long there may be no room although rounds are answered: then no cut makes any, and another audit has to
// begin.
const mostFull = time.Minute

const (
	goodRound  = time.Second // so long a round should take
	leastRound = time.Second / 8
	firstFit   = 1 << 13 // so many a round should have before the first one was answered
	leastFit   = 1 << 12 // a round of fewer is fast on a machine with a processor to spare
	untilMet   = 4       // one in so many more may come until sessions have met
)

// pace takes over that a round of so many took so long: by that, as if the time grew with the square of the number, the next
// one should have as many as can be done in good time. A round of few that is slow is slow for another reason.
func (c *core) pace(n int, took time.Duration) {
	c.took = took
	left := c.counts.folded[noRoom]
	c.crowded, c.leftBefore = left > c.leftBefore, left
	c.aim()
	fit := c.inTime(n, took)
	if fit < c.fit && n < leastFit {
		return
	}
	c.fits(least(greatest(fit, c.fit/4), 4*c.fit))
}

// aim sets how long a round should take. While transactions have to be left out, the auditor does most in rounds that take as
// long as it takes to prepare the next one (maySoon): it would wait after shorter ones, and longer ones take more time for each
// transaction.
func (c *core) aim() {
	best := longest(leastRound, shortestOf(c.prepares, goodRound))
	switch {
	case c.crowded && c.good > best:
		c.good = longest(c.good/2, best)
	case c.crowded:
		c.good = shortestOf(c.good*5/4, best)
	case c.took < c.good/2:
		c.good = shortestOf(c.good*5/4, goodRound)
	}
}

// prepared takes over how long a meeting took, with what was reported before it. One before which nothing had come for a while
// says little about others.
func (c *core) prepared(took time.Duration) { c.prepares = longest(took, c.prepares*15/16) }

// inTime returns how many a round can do with in good time, if one of n took so long.
func (c *core) inTime(n int, took time.Duration) int {
	return int(float64(n) * math.Sqrt(float64(c.good)/float64(took+1)))
}

func longest(a, b time.Duration) time.Duration {
	if a > b {
		return a
	}
	return b
}

func shortestOf(a, b time.Duration) time.Duration { return -longest(-a, -b) }

// fits sets how many the next round should have, and may come before it by that.
func (c *core) fits(n int) {
	c.fit = least(greatest(n, leastFit), c.opt.Limit)
	c.most = least(c.fit+c.fit/untilMet, c.opt.Limit)
}

// mostNow is how many may come between two meetings now: the fewer, the longer a round takes that isn't of few.
func (c *core) mostNow() int {
	if passed := c.now.Sub(c.asking); !c.asking.IsZero() && passed > c.good && c.inRound >= leastFit {
		return least(c.most, greatest(c.inTime(c.inRound, passed), leastFit))
	}
	return c.most
}

// room returns how many more transactions may be named.
func (c *core) room() int { return least(c.mostNow()-c.since, c.left()) }

// left returns how many more may remain. What has come since the last meeting is for one round, what had come before it for the
// one before, and what a round is about now is forgotten once it is answered.
func (c *core) left() int {
	return least(c.opt.Limit, c.going+2*c.mostNow()+2*c.opt.fenceRoom()) - c.opt.fenceRoom() - c.remain
}

func least(a, b int) int {
	if a < b {
		return a
	}
	return b
}

func greatest(a, b int) int { return -least(-a, -b) }

// roundAsked notes that another round is asked for, about so many, after which so many aren't answered. If sessions have met
// before it, the auditor may forget all of these.
func (c *core) roundAsked(unanswered, n int, met bool) {
	c.until = nil
	if unanswered > 1 {
		return
	}
	if c.asking, c.inRound, c.going = c.now, n, 0; met {
		c.going = n
	}
}

// given returns how many transactions the auditor has.
func (c *core) given() (n int) {
	for _, s := range c.sessions {
		n += int(s.written - s.mark)
	}
	return n
}

// isHeld reports whether a transaction was named after the moment of the meeting that is under way: it isn't given to the
// auditor before the meeting's round was asked for, which would take longer.
func (c *core) isHeld(e *entry) bool {
	return c.until != nil && (e.session.index >= len(c.until) || e.name.number() >= c.until[e.session.index])
}

// maySoon reports whether sessions should meet though a round isn't answered yet: there is enough for another one, which will
// have been prepared when this one is answered.
func (c *core) maySoon(last time.Time) bool {
	return c.isShortOfRoom() && c.now.Sub(last) >= c.soonest()
}

// isFull reports whether there is no room for another transaction, in number or in bytes.
func (c *core) isFull() bool { return c.room() <= 0 || c.bytes >= c.opt.Bytes }

// isLate reports whether a round hasn't been answered for too long.
func (c *core) isLate() bool { return !c.asking.IsZero() && c.now.Sub(c.asking) >= c.opt.Behind }

// fellBehind reports whether the auditor has fallen behind.
func (c *core) fellBehind() bool { return c.isFull() || c.isLate() }

// roundAnswered notes that a round was answered, of which so many aren't yet.
func (c *core) roundAnswered(left int) {
	if !c.asking.IsZero() && c.inRound > 0 {
		c.pace(c.inRound, c.now.Sub(c.asking))
	}
	c.asking, c.inRound, c.going = time.Time{}, 0, 0
	if left > 0 {
		c.asking = c.now
	}
}

// lookBehind tells people if the auditor has fallen behind, and the parent if only another audit helps.
func (j *Joiner) lookBehind() {
	c := j.core
	if left := c.counts.folded[noRoom]; left > j.leftOut {
		j.leftOut = left
		switch {
		case c.isLate():
			j.warn(fmt.Sprintf("the auditor fell behind: it hasn't answered for %g s; transactions are left out until it has",
				c.opt.Behind.Seconds()))
		case c.most < c.opt.Limit:
			j.warn(fmt.Sprintf("the auditor fell behind: it is given %d transactions at a time, so that rounds don't take long; others are left out",
				c.most))
		default:
			j.warn("the auditor fell behind: there is no room for more before it forgets; transactions are left out until it has")
		}
	}
	switch {
	case !c.isFull():
		c.full = time.Time{}
	case c.full.IsZero():
		c.full = c.now
	case j.unanswered == 0 && c.now.Sub(c.full) >= mostFull:
		c.full = c.now
		j.output.Event(Behind{At: c.now, Reason: "the auditor fell behind: for a minute it could forget nothing"})
	}
}
