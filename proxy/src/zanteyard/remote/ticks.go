package remote

import (
	"sort"
	"time"
)

// ticks are those that were received, with the times by this machine's clock.
type ticks struct {
	its []tickAt
}

type tickAt struct {
	at   time.Time
	tick int64
}

// mostTicks is how many are kept, about two minutes of them.
const mostTicks = 8192

func (t *ticks) add(at time.Time, tick int64) {
	if len(t.its) >= mostTicks {
		t.its = append(t.its[:0], t.its[len(t.its)/2:]...)
	}
	t.its = append(t.its, tickAt{at, tick})
}

// before returns the last tick that was received before a time, or 0 if unknown.
func (t *ticks) before(at time.Time) int64 {
	i := sort.Search(len(t.its), func(i int) bool { return t.its[i].at.After(at) })
	if i == 0 {
		return 0
	}
	return t.its[i-1].tick
}

func (t *ticks) forget() { t.its = nil }
