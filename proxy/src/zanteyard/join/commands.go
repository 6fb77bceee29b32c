package join

import "fmt"

// Cut records, after a truncate, how many transactions of each session are gone.
func (j *Joiner) Cut(marks []uint64) {
	j.command(func() {
		if j.unanswered > 0 {
			j.unanswered--
			j.core.roundAnswered(j.unanswered)
		}
		if !j.core.cut(marks) {
			j.warn(fmt.Sprintf("these marks belong to another audit: %v", marks))
		}
	})
}

// Describe reports what is known about transactions, each a session and a number, as an event.
func (j *Joiner) Describe(id int64, transactions [][2]uint64) {
	j.command(func() {
		j.output.Event(Transactions{At: j.core.now, ID: id, Given: j.describe(transactions)})
	})
}

// Round makes the sessions meet now.
func (j *Joiner) Round() { j.command(func() { j.wanted = true }) }

// Stop makes the sessions meet for a last round, and reports when that was written. The audit goes on until Run's
// context ends.
func (j *Joiner) Stop() { j.command(func() { j.wanted, j.stopping = true, true }) }

// Restart begins a new audit, which knows nothing of the one before.
func (j *Joiner) Restart() {
	j.restarts.Store(true)
	j.command(func() { j.again = true })
}

// WantsRestart reports whether Restart was called, and the audit ended before it began anew.
func (j *Joiner) WantsRestart() bool { return j.restarts.Load() }

// Warn reports a warning to the people who run the audit.
func (j *Joiner) Warn(text string) { j.command(func() { j.warn(text) }) }

func (j *Joiner) command(f func()) {
	select {
	case j.commands <- f:
	case <-j.done:
	}
}

// End ends the audit for a reason from elsewhere, for example that the slot was lost.
func (j *Joiner) End(err error) { j.command(func() { j.fail(err) }) }

func (j *Joiner) fail(err error) {
	if j.failed == nil {
		j.failed = err
	}
}
