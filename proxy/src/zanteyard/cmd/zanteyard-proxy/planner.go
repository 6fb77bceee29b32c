package main

import (
	"sync/atomic"
	"time"

	"zanteyard/guard"
	"zanteyard/plan"
	"zanteyard/session"
)

// planner makes a panic in planning a statement a statement without a plan, which is passed on unchanged.
type planner struct {
	session.Planner
	log  func(string)
	said *atomic.Int64 // when the last panic was logged, in seconds: the statement may come again and again
}

func newPlanner(of session.Planner, log func(string)) planner {
	return planner{of, log, &atomic.Int64{}}
}

// PlanIn implements session.Planner.
func (p planner) PlanIn(path, text string) (its *plan.Plan, tokens plan.Tokens) {
	guard.Do("the plan of a statement", p.failed, func() { its, tokens = p.Planner.PlanIn(path, text) })
	return its, tokens
}

func (p planner) failed(err error) {
	now := time.Now().Unix()
	if before := p.said.Load(); now-before >= 60 && p.said.CompareAndSwap(before, now) {
		p.log(err.Error() + "; such a statement isn't looked at: " + guard.Stack(err))
	}
}
