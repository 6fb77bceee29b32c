package histories

import (
	"bytes"
	"fmt"
)

// never is the place of an end that isn't in the file.
const never = 1 << 62

// An attempt is a transaction that a client began. What one that didn't commit for certain read isn't in it.
type attempt struct {
	kind           kind
	line           int // of its end, if it committed; else of its begin
	client         int32
	index          []byte
	accesses       []micro
	began, ended   int // places in the file among clients' operations, from 1
	beganAt        int64
	endedAt        int64
	isBeganTimed   bool
	isEndedTimed   bool
	tookEffect     bool
	session, place int32 // where it is offered, if it took effect
}

// A history is what clients did, in the order in which they began it.
type history struct {
	*lines
	attempts []attempt
	clients  [][]byte // each process's text
	unused   int      // reads that aren't used, of attempts that didn't commit for certain
}

type open struct {
	at    int // among the attempts
	asked *operation
}

// read matches invocations with their completions.
func read(text []byte, lists bool) (*history, error) {
	h := &history{lines: readerOf(text, lists)}
	clients := map[string]int32{}
	var inFlight []*open // by client
	latest, isTimed := int64(0), false
	for place := 1; ; place++ {
		found, err := h.operation()
		if err != nil {
			return nil, err
		}
		if found == nil {
			break
		}
		if found.isTimed {
			if isTimed && found.time < latest {
				return nil, notPlain{found.line, "the time goes backwards"}
			}
			latest, isTimed = found.time, true
		}
		client, ok := clients[string(found.process)]
		if !ok {
			client = int32(len(h.clients))
			clients[string(found.process)] = client
			h.clients, inFlight = append(h.clients, found.process), append(inFlight, nil)
		}
		begun := inFlight[client]
		if (found.kind == invoked) != (begun == nil) {
			return nil, notPlain{found.line, "a begin without an end, or an end without a begin"}
		}
		if begun == nil {
			inFlight[client] = &open{len(h.attempts), found}
			h.attempts = append(h.attempts, attempt{
				client: client, began: place, beganAt: found.time, isBeganTimed: found.isTimed,
			})
			continue
		}
		inFlight[client] = nil
		if err := h.complete(begun, found, place); err != nil {
			return nil, err
		}
	}
	for _, begun := range inFlight {
		if begun != nil {
			end := *begun.asked
			end.kind = unknown
			if err := h.complete(begun, &end, never); err != nil {
				return nil, err
			}
		}
	}
	if len(h.attempts) == 0 {
		return nil, notPlain{1, "no operation"}
	}
	return h, nil
}

func (h *history) complete(begun *open, done *operation, place int) error {
	if len(done.micros) > 0 || done.kind == committed {
		if !areSame(begun.asked.micros, done.micros) {
			return notPlain{done.line, "not the operation that was invoked"}
		}
	}
	it := &h.attempts[begun.at]
	it.kind, it.line, it.index = done.kind, done.line, done.index
	it.ended, it.endedAt, it.isEndedTimed = place, done.time, done.isTimed
	if done.kind == committed {
		it.accesses = done.micros
		return nil
	}
	it.line, it.index = begun.asked.line, begun.asked.index
	for _, one := range done.micros {
		if one.reads && !one.isNil {
			h.unused++
		}
	}
	for _, one := range begun.asked.micros {
		if !one.reads {
			it.accesses = append(it.accesses, one)
		}
	}
	if done.kind == unknown {
		it.ended, it.endedAt, it.isEndedTimed = never, 0, false
	}
	return nil
}

// areSame tells whether an operation did what was asked for, whatever it read.
func areSame(asked, done []micro) bool {
	if len(asked) != len(done) {
		return false
	}
	for i, one := range asked {
		other := done[i]
		if one.reads != other.reads || one.key != other.key || !one.reads && !bytes.Equal(one.content, other.content) {
			return false
		}
	}
	return true
}

// name is what reports call an attempt.
func (it *attempt) name() string { return fmt.Sprintf("line %d", it.line) }

// where is the rest of its name in the file.
func (h *history) where(it *attempt) string {
	if len(it.index) == 0 {
		return fmt.Sprintf("process %s", h.clients[it.client])
	}
	return fmt.Sprintf("process %s, index %s", h.clients[it.client], it.index)
}
