package join

import (
	"context"
	"time"

	"zanteyard/guard"
)

// seek is how long a moment is sought at which nothing is under way, before clients are held for one.
const seek = 100 * time.Millisecond

// meet continues the meeting, or begins one when it is time.
func (j *Joiner) meet(ctx context.Context, now time.Time) {
	switch j.meeting.phase {
	case apart:
		// While a round isn't answered yet, another one would only wait behind it.
		may := j.unanswered == 0 || now.Sub(j.last) > patience
		switch {
		case j.wanted || may && j.core.wantsMeeting(j.last, j.busy):
			j.comeTogether(ctx, now)
		case j.unanswered == 1 && j.core.maySoon(j.last):
			j.comeTogether(ctx, now)
			j.meeting.follows = true
		case may && j.core.wantsRound(j.rounded):
			j.checkAlone(now)
		default:
			j.sought = time.Time{}
		}
	case settling:
		if !j.meeting.isSettled && (j.core.isWritten(j.meeting.upTo) || now.Sub(j.meeting.noted) > j.meeting.waits()) {
			j.settled(now)
		}
		if j.meeting.isSettled && (!j.meeting.follows || j.unanswered == 0 || j.wanted || now.Sub(j.meeting.noted) > patience) {
			j.endMeeting()
		}
	}
}

// comeTogether begins a meeting, unless it may soon be one for which nobody has to wait.
func (j *Joiner) comeTogether(ctx context.Context, now time.Time) {
	if j.sought.IsZero() {
		j.sought = now
	}
	connections := j.core.audited()
	if now.Sub(j.sought) < seek && !j.core.isShort() {
		if underWay, _ := j.meeter.Busy(connections); underWay > 0 {
			return
		}
	}
	j.meetings++
	number := j.meetings
	j.wanted, j.last, j.sought = false, now, time.Time{}
	j.meeting = meeting{phase: together, number: number, isLast: j.stopping}
	guard.Go("a meeting", j.End, func() {
		j.meeter.Meet(ctx, connections, func(held time.Duration) {
			guard.At("a meeting's moment")
			j.inbox.Moment(number, held)
		})
	})
}

// moment handles a meeting's moment, after everything that was reported before it.
func (j *Joiner) moment(it moment) {
	if j.meeting.phase != together || j.meeting.number != it.number {
		return // it was sought for an audit before this one
	}
	guard.At("a moment")
	fences := j.core.meet(it.at)
	j.meeting.phase, j.meeting.noted, j.meeting.upTo = settling, j.core.now, j.core.numbers()
	if !j.meeting.isLast {
		j.core.until = j.meeting.upTo
	}
	j.rounded, j.core.unchecked = j.core.now, 0
	j.output.Event(Meeting{At: it.at, Fences: fences, Took: it.held})
}

// checkAlone begins a round of what was reported by now, without a meeting.
func (j *Joiner) checkAlone(now time.Time) {
	j.sought, j.rounded = time.Time{}, now
	j.core.unchecked = 0
	j.meeting = meeting{phase: settling, noted: now, upTo: j.core.numbers(), alone: true}
}

// settled notes that the meeting's round may be asked for.
func (j *Joiner) settled(now time.Time) {
	j.meeting.isSettled = true
	if !j.meeting.alone {
		j.core.prepared(now.Sub(j.last))
	}
}

// endMeeting makes the auditor check and forget.
func (j *Joiner) endMeeting() {
	guard.At("a round")
	switch {
	case j.meeting.alone:
		j.output.Event(Checking{At: j.meeting.noted})
	case j.core.isWritten(j.meeting.upTo):
		j.core.decideBeyond()
	}
	j.core.round()
	j.unanswered++
	j.core.roundAsked(j.unanswered, j.core.given(), !j.meeting.alone)
	isLast := j.meeting.isLast
	j.meeting = meeting{}
	if isLast {
		j.stopping = false
		last := j.coverageEvent(false)
		j.heard, j.hasStopped = j.earlier+last.Totals.Transactions.ended(), true
		last.Last = true
		j.core.addUnreported(&last.Totals)
		j.output.Event(last)
		j.output.Event(Stopped{At: j.core.now})
	}
}

// warn warns people, of the same thing at most once a minute.
func (j *Joiner) warn(text string) {
	now := time.Now()
	j.warned.Lock()
	defer j.warned.Unlock()
	if at, is := j.warnings[text]; is && now.Sub(at) < time.Minute {
		return
	}
	if len(j.warnings) > 100 || j.warnings == nil {
		j.warnings = map[string]time.Time{}
	}
	j.warnings[text] = now
	j.output.Event(Warning{At: now, Text: text})
}
