package main

import (
	"context"
	"os"
	"runtime"
	"strconv"
	"strings"
	"syscall"
	"time"

	"zanteyard/loop"
)

const (
	lookAtUse = 100 * time.Millisecond
	// If it uses more than busyPart of its processors, the program gets one more. If it uses less than calmPart of one
	// processor fewer, it gives one up: with fewer processors the same traffic takes less time, so a processor that was
	// given up isn't wanted back at once.
	busyPart, calmPart = 0.75, 0.45
	calmLooks          = 20 // in a row
)

// fewProcessors makes the program use no more processors at once than its traffic needs: one for the loop that passes
// messages on, one for everything else, more of each when these are busy, and more loops when the kernel lets theirs
// wait for a processor (wanted). While a processor is idle, Go wakes a thread for each message that arrives for a
// goroutine, which takes longer than handling it; and a second loop takes some of the messages that the first one would
// have handled together. GOMAXPROCS in the environment fixes the number of processors for goroutines, whatever the
// traffic. It returns when ctx ends.
func fewProcessors(ctx context.Context, loops *loop.Loops) {
	most := runtime.NumCPU()
	fixed := os.Getenv("GOMAXPROCS") != ""
	passing, others := processors{now: 1, most: most}, processors{now: 1, most: most}
	set := func() {
		loops.Share(passing.now) // without a descriptor for one more, the existing ones go on
		if !fixed {
			runtime.GOMAXPROCS(passing.now + others.now)
		}
		loops.Hastily(runtime.GOMAXPROCS(0) > passing.now)
	}
	set()
	tick := time.NewTicker(lookAtUse)
	defer tick.Stop()
	last, used, busy := time.Now(), processorTime(), loops.Busy()
	var queue queue
	for {
		select {
		case <-ctx.Done():
			return
		case <-tick.C:
		}
		now, taken, busyNow := time.Now(), processorTime(), loops.Busy()
		wasPassing, wasOthers := passing.now, others.now
		span, all, byLoops := float64(now.Sub(last)), float64(taken-used), float64(busyNow-busy)
		if byLoops > all { // a loop was busy, but had no processor
			byLoops = all
		}
		queued := float64(queue.since(all > looksAtQueue*span))
		passing.look(wanted(byLoops, all, queued) / span)
		others.look((all - byLoops) / span)
		if passing.now != wasPassing || others.now != wasOthers {
			set()
		}
		last, used, busy = now, taken, busyNow
	}
}

// looksAtQueue is the part of a processor that the program has to use before it looks for how long its threads were
// queued.
const looksAtQueue = 0.2

// wanted returns how much the loops would have used if their threads had had a processor whenever they could run. A
// kernel may keep many threads on few processors, though others are idle. Then a loop that sleeps until a message
// arrives gets a processor late each time, and seems to have little to do. Another loop is one more thread to be put
// elsewhere.
func wanted(byLoops, all, queued float64) float64 {
	if all <= 0 {
		return 0
	}
	return byLoops + queued*byLoops/all
}

// queue tells how long the program's threads were queued: they could run, but had no processor.
type queue struct {
	sum  time.Duration // of all threads, at the last look
	seen bool          // at the last look it was looked up
}

// since returns how long it was since the last look, if it is wanted then and now.
func (q *queue) since(wanted bool) time.Duration {
	last, seen := q.sum, q.seen
	if q.seen = wanted; wanted {
		q.sum = queuedTime()
	}
	if !wanted || !seen || q.sum < last { // a thread that has ended isn't in the sum any more
		return 0
	}
	return q.sum - last
}

// queuedTime returns how long the program's threads have been queued, 0 if the kernel doesn't tell.
func queuedTime() (sum time.Duration) {
	const tasks = "/proc/self/task"
	all, err := os.ReadDir(tasks)
	if err != nil {
		return 0
	}
	for _, one := range all {
		text, err := os.ReadFile(tasks + "/" + one.Name() + "/schedstat")
		if its := strings.Fields(string(text)); err == nil && len(its) > 1 {
			queued, _ := strconv.ParseInt(its[1], 10, 64)
			sum += time.Duration(queued)
		}
	}
	return sum
}

// processors is how many the program uses at once.
type processors struct {
	now, most int
	calm      int // consecutive looks at which one fewer would have been enough
}

// look takes the number of processors' worth of time that the program used since the last look.
func (p *processors) look(used float64) {
	switch {
	case used > busyPart*float64(p.now) && p.now < p.most:
		p.now++
		p.calm = 0
	case p.now > 1 && used < calmPart*float64(p.now-1):
		if p.calm++; p.calm == calmLooks {
			p.now--
			p.calm = 0
		}
	default:
		p.calm = 0
	}
}

// processorTime returns the processor time that all of the program's threads have taken.
func processorTime() time.Duration {
	var u syscall.Rusage
	if syscall.Getrusage(syscall.RUSAGE_SELF, &u) != nil {
		return 0
	}
	return time.Duration(u.Utime.Nano() + u.Stime.Nano())
}
