package audit

import (
	"context"
	"time"

	"zanteyard/guard"
	"zanteyard/join"
	"zanteyard/slot"
)

// patience is how long the slot may take to begin before the parent is told what it waits for, and often is how much
// later it is told again. PostgreSQL makes a slot only once all transactions that were open have ended, several times.
var patience, often = 5 * time.Second, 30 * time.Second

// tellWaiting tells the parent which transactions the slot waits for, as long as done isn't called.
func (a *Audit) tellWaiting(ctx context.Context, control *slot.Control) (done func()) {
	ctx, cancel := context.WithCancel(ctx)
	ended := make(chan struct{})
	failed := func(err error) {
		a.End(err)
		close(ended)
	}
	guard.Go("the wait for the slot", failed, func() {
		for timer := time.NewTimer(patience); ; timer.Reset(often) {
			select {
			case <-ctx.Done():
				timer.Stop()
				close(ended)
				return
			case <-timer.C:
			}
			if its := control.Open(ctx); ctx.Err() == nil {
				a.writer.Event(join.Warning{At: time.Now(),
					Text: "the audit hasn't begun yet, since the server waits until what is open has ended: " + its})
			}
		}
	})
	return func() {
		cancel()
		<-ended
	}
}
