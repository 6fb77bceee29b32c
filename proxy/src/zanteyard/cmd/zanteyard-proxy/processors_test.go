package main

import (
	"runtime"
	"testing"
	"time"
)

func TestProcessors(t *testing.T) {
	p := processors{now: 1, most: 3}
	steps := []struct {
		used  float64
		looks int
		want  int
	}{
		{0.5, 100, 1}, // one is enough
		{0.9, 1, 2},   // one is busy
		{1.0, 100, 2}, // two have enough to do, and one wouldn't be enough
		{1.9, 1, 3},   // two are busy
		{3.0, 5, 3},   // there are no more
		{0.8, 19, 3},  // two would be enough, but not for long enough yet
		{0.8, 1, 2},   // for long enough
		{0.2, 19, 2},  // the count begins again
		{1.0, 1, 2},   // and again after a look at which one wouldn't be enough
		{0.2, 19, 2},  //
		{0.2, 1, 1},   //
		{0, 100, 1},   // never none
	}
	for i, step := range steps {
		for n := 0; n < step.looks; n++ {
			p.look(step.used)
		}
		if p.now != step.want {
			t.Fatalf("step %d: %d processors, want %d", i, p.now, step.want)
		}
	}
}

// TestWanted: a loop that waits for a processor wants more of them, as far as it is a loop that waits.
func TestWanted(t *testing.T) {
	for _, x := range []struct{ byLoops, all, queued, want float64 }{
		{0, 0, 0, 0},
		{0, 0, 5, 0}, // who has used nothing is no loop
		{0.4, 0.5, 0, 0.4},
		{0.4, 0.5, 0.5, 0.8},
		{0.4, 0.4, 0.5, 0.9},
		{0, 0.5, 0.5, 0},
	} {
		if got := wanted(x.byLoops, x.all, x.queued); got != x.want {
			t.Errorf("%v: %v", x, got)
		}
	}
}

// TestQueue: threads that share processors are queued, and only what is between two looks counts.
func TestQueue(t *testing.T) {
	if queuedTime() == 0 {
		t.Skip("the kernel doesn't tell")
	}
	threads := 2 * runtime.NumCPU()
	defer runtime.GOMAXPROCS(runtime.GOMAXPROCS(threads))
	ended := make(chan struct{})
	defer close(ended)
	for i := 0; i < threads; i++ {
		go func() {
			for {
				select {
				case <-ended:
					return
				default:
				}
			}
		}()
	}
	var q queue
	if q.since(true) != 0 || q.since(false) != 0 || q.since(true) != 0 {
		t.Error("what was before the last look counts")
	}
	sum := time.Duration(0)
	for end := time.Now().Add(time.Minute); sum < 10*time.Millisecond; sum += q.since(true) {
		if time.Now().After(end) {
			t.Fatalf("%d threads of %d processors were queued for %v", threads, runtime.NumCPU(), sum)
		}
		time.Sleep(time.Millisecond)
	}
}
