package join

import (
	"context"
	"errors"
	"strings"
	"testing"
	"time"

	"zanteyard/record"
)

// TestAnswers: a question that isn't answered in time gets longer the next time, and an answer that was quick enough makes
// it shorter again. Errors are told once they have gone on for a while, lateness never.
func TestAnswers(t *testing.T) {
	now := time.Unix(1000, 0)
	a := answers{first: 5 * time.Second}
	late, away := errors.New("timeout"), errors.New("away")
	for i, x := range []struct {
		takes time.Duration
		err   error
		late  bool
		limit time.Duration // of the next one
		slow  bool
		told  string
	}{
		{time.Millisecond, nil, false, 5 * time.Second, false, ""},
		{5 * time.Second, late, true, 10 * time.Second, false, ""},
		{10 * time.Second, late, true, 20 * time.Second, true, "hasn't answered the audit for 15s: nothing is checked until it does (timeout)"},
		{12 * time.Second, nil, false, 20 * time.Second, false, "has answered the audit, after 27s"},
		{12 * time.Second, nil, false, 20 * time.Second, false, ""}, // as slow as before: it isn't asked in vain again
		{3 * time.Second, nil, false, 10 * time.Second, false, ""},
		{time.Second, nil, false, 5 * time.Second, false, ""},
		{time.Second, away, false, 5 * time.Second, false, ""},
		{5 * time.Second, late, true, 10 * time.Second, false, ""},
		{time.Hour, late, true, 20 * time.Second, true, "for 1h0m6s"},
		{time.Hour, late, true, 40 * time.Second, true, "for 2h0m6s"},
		{time.Hour, late, true, 80 * time.Second, true, "for 3h0m6s"},
		{time.Hour, late, true, 160 * time.Second, true, "for 4h0m6s"},
		{time.Hour, late, true, 160 * time.Second, true, "for 5h0m6s"},
		{time.Millisecond, nil, false, 5 * time.Second, false, "has answered"},
		{time.Second, away, false, 5 * time.Second, false, ""},
	} {
		a.begin(now)
		now = now.Add(x.takes)
		told := a.take(x.err, x.late, now)
		if got := a.limit(); got != x.limit || a.isSlow(now) != x.slow || a.refusal(now) != nil {
			t.Errorf("%d: the next one gets %v, slow: %v, %v", i, got, a.isSlow(now), a.refusal(now))
		}
		if (told == "") != (x.told == "") || !strings.Contains(told, x.told) {
			t.Errorf("%d: %q is told", i, told)
		}
	}
	for a.begin(now); now.Before(a.refused.Add(patience)); now = now.Add(time.Second) {
		a.take(away, false, now)
		if a.refusal(now) != nil {
			t.Fatal("it is given up too soon")
		}
	}
	if now = now.Add(time.Second); a.refusal(now) != away {
		t.Error("errors are never told")
	}
}

// TestServerThatIsSlow: a server that doesn't answer for as long as it likes ends no audit. What is reported meanwhile
// waits, as far as there is room, and is left out beyond that, by this reason; it is offered once the server answers.
func TestServerThatIsSlow(t *testing.T) {
	opt := often
	opt.Answer = 20 * time.Millisecond
	s := newStage(t, opt)
	s.connect(1)
	s.update(1, "a")
	s.until("an offer", func() bool { return s.applications() == 1 })
	s.lock.Lock()
	s.hung = make(chan struct{})
	s.lock.Unlock()
	s.update(1, "b")
	s.until("that people are told", func() bool { return s.warnings("hasn't answered the audit for") > 2 })
	for i := 0; i < 3; i++ {
		s.update(1, "c")
	}
	wide := record.Transaction{Began: time.Now(), Reads: []record.Read{read(strings.Repeat("x", 2<<20), 7)}}
	s.lock.Lock()
	s.tell(1, wide) // there is no room for it
	s.tell(1, wide)
	if s.applications() > 1 {
		t.Error("something was offered before the server had said where its log is")
	}
	close(s.hung)
	s.hung = nil
	s.lock.Unlock()
	s.until("that all are offered", func() bool { return s.applications() == 5 })
	s.until("that people are told", func() bool { return s.warnings("the server has answered the audit, after") == 1 })
	s.cancel()
	<-s.ended
	its := s.joiner.Coverage()
	if its.Folded[unanswered] != 2 || its.Totals.Transactions.NotChecked[unanswered] != 2 || its.Lost != 0 {
		t.Errorf("left out are %v, lost %d", its.Folded, its.Lost)
	}
}

// TestBeginsSlowly: neither does a server that doesn't answer the first question.
func TestBeginsSlowly(t *testing.T) {
	opt := often
	opt.Answer = 20 * time.Millisecond
	s := newStage(t, opt)
	s.lock.Lock()
	s.hung = make(chan struct{})
	s.lock.Unlock()
	s.joiner.Restart()
	s.until("that people are told", func() bool { return s.warnings("hasn't answered the audit for") > 2 })
	s.lock.Lock()
	close(s.hung)
	s.hung = nil
	s.lock.Unlock()
	s.until("another audit", func() bool { return s.lined("open") == 2 })
}

// wait returns an error if the server doesn't answer in time.
func (s *stage) wait(ctx context.Context) error {
	s.lock.Lock()
	hung := s.hung
	s.lock.Unlock()
	if hung == nil {
		return nil
	}
	select {
	case <-hung:
		return nil
	case <-ctx.Done():
		return ctx.Err()
	}
}
