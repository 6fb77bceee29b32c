package join

import (
	"context"
	"errors"
	"fmt"
	"time"
)

// answers says how the server answers the questions for the log's place, one after the other. A server that is busy, or
// whose catalog somebody has locked, is waited for: the next question gets twice as long. Nothing is verified meanwhile,
// so what was reported waits, in the inbox, which is bounded. A server that answers with errors is asked for a while.
type answers struct {
	first   time.Duration // how long the first question may take
	began   time.Time     // when the first one was asked since the last answer; zero: none is under way
	asked   time.Time     // when the last one was
	refused time.Time     // since when each of them was answered with an error; zero: not at all, or too late
	failure error         // the last one
	late    int           // how often the limit was doubled
	told    bool          // people know that there is no answer
}

const mostDoubled = 5 // a question gets at most 2^5 times as long as the first one

// limit is how long the next question may take.
func (a *answers) limit() time.Duration { return a.first << a.late }

func (a *answers) begin(now time.Time) {
	if a.asked = now; a.began.IsZero() {
		a.began = now
	}
}

// take records what became of a question, and returns what people should know of it, if anything.
func (a *answers) take(err error, late bool, now time.Time) (words string) {
	waited := now.Sub(a.began).Round(100 * time.Millisecond)
	switch {
	case err == nil:
		was := *a
		*a = answers{first: was.first, late: was.late}
		for a.late > 0 && now.Sub(was.asked) < a.limit()/4 {
			a.late--
		}
		if was.told {
			return fmt.Sprintf("the server has answered the audit, after %v", waited)
		}
		return ""
	case late:
		if a.late < mostDoubled {
			a.late++
		}
		a.refused = time.Time{}
	case a.refused.IsZero():
		a.refused = now
	}
	if a.failure = err; late && a.isSlow(now) {
		a.told = true
		return fmt.Sprintf("the server hasn't answered the audit for %v: nothing is checked until it does (%v)", waited, err)
	}
	return ""
}

// isSlow reports whether the server hasn't answered for so long that what is reported stays in the inbox.
func (a *answers) isSlow(now time.Time) bool {
	return !a.began.IsZero() && now.Sub(a.began) >= 2*a.first
}

// refusal returns the error that the server has answered with for too long, or nil.
func (a *answers) refusal(now time.Time) error {
	if a.refused.IsZero() || now.Sub(a.refused) <= patience {
		return nil
	}
	return a.failure
}

// isLate reports whether a question failed since there was no answer in time: not even one to a new connection.
func isLate(asking context.Context, err error) bool {
	var its interface{ Timeout() bool }
	return err != nil && (asking.Err() == context.DeadlineExceeded || errors.As(err, &its) && its.Timeout())
}
