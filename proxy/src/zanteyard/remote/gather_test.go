package remote

import (
	"context"
	"testing"
	"time"
)

// TestMeetingsDontWait: a message gathers what is reported, but the answer to a meeting is sent at once.
func TestMeetingsDontWait(t *testing.T) {
	p, err := NewPost(someOptions(), "p", 1<<20, someRoom{})
	if err != nil {
		t.Fatal(err)
	}
	began := time.Now()
	p.gather(context.Background())
	if took := time.Since(began); took < gather {
		t.Errorf("it gathered for %v", took)
	}
	p.tell(item{Held: 1})
	ended := make(chan bool)
	go func() {
		defer close(ended)
		for i := 0; i < 1000; i++ { // which would take ten seconds
			p.gather(context.Background())
			p.tell(item{Held: 1})
		}
	}()
	select {
	case <-ended:
	case <-time.After(1000 * gather / 2):
		t.Error("the answers to meetings wait")
	}
}
