package session

import (
	"encoding/hex"
	"strconv"
	"strings"

	"zanteyard/plan"
	"zanteyard/wire"
)

// ask inserts the proxy's own question before a COMMIT (or PREPARE TRANSACTION): the transaction's number, if it may
// have written without reporting it, and its snapshot, if a row wasn't found, or one was passed over by a condition. It
// goes out in the same write, so it costs no round trip. It has its own Sync, since otherwise an error in it would make
// the server skip the COMMIT; that is only possible in a block (T) with nothing of the client's under way. After other
// messages of a pipeline it isn't asked, nor while nothing is audited.
func (s *Session) ask(o *output, p *plan.Plan) {
	if p.Kind != plan.Commit && p.Kind != plan.PrepareTransaction || s.trust.taken || s.tx.parted || !s.options.Auditing() {
		return
	}
	t := &s.tx
	known := t.Number != 0 || !t.wrote && !t.MayHaveWritten
	if t.asked || known && len(t.Absent) == 0 && !t.asksSnapshot() || s.status != 'T' || s.open || s.owes() {
		return
	}
	if !s.trust.asks || s.trust.doubt {
		s.trust.wanted, t.unasked = true, numberUnasked
		return
	}
	// It is prepared each time: what a trigger or a function may have put in its place isn't run.
	to := append(append(o.own(), closeAsk...), askPrepare...)
	s.queue.step('C', nil)
	s.queue.step('P', nil)
	o.buf = append(append(to, askRun...), syncMessage...)
	s.queue.again(expectation{kind: askRow})
	s.queue.push(expectation{kind: askEnd, message: 'S'})
}

// askFailed handles an error in the question, such as one caused by a cancel request that the client meant for its
// COMMIT. The error aborts the transaction, and the server will answer the COMMIT with ROLLBACK, which many drivers
// take for success. So the client gets the error instead.
func (s *Session) askFailed(m []byte) {
	s.failure = append(s.failure[:0], m...)
	s.trust.doubtful(failedToAsk)
}

// mentions reports whether a text contains a word, ignoring case.
func mentions(text, word string) bool {
	return strings.Contains(strings.ToLower(text), word)
}

func twinName(n int) string { return prefix + strconv.Itoa(n) }

const (
	mostText      = 8 << 10
	mostParameter = 256 // bytes of one
	mostOfThem    = 32  // parameters of a statement
	mostAgain     = 64 << 10
)

// texts returns the first parameters as texts, long ones shortened, and how many there are beyond those. Binary ones are
// in hexadecimal, unless their type is a whole number.
func texts(b *wire.Bind, types []byte) (all []string, more int) {
	those := b.Parameters
	if len(those) > mostOfThem {
		those, more = those[:mostOfThem], len(those)-mostOfThem
	}
	all = make([]string, len(those))
	for i, v := range those {
		isBinary := false
		switch len(b.Formats) / 2 {
		case 0:
		case 1:
			isBinary = b.Formats[1] == 1
		default:
			isBinary = 2*i+1 < len(b.Formats) && b.Formats[2*i+1] == 1
		}
		kind := 0
		if len(types) >= 6+4*i {
			kind = wire.Int32(types[2+4*i:])
		}
		all[i] = textOf(v, isBinary, kind)
	}
	return all, more
}

func textOf(v []byte, isBinary bool, kind int) string {
	switch {
	case v == nil:
		return "NULL"
	case isBinary && len(v) == 2 && (kind == 21 || kind == 0):
		return strconv.Itoa(int(int16(wire.Int16(v))))
	case isBinary && len(v) == 4 && (kind == 23 || kind == 0):
		return strconv.Itoa(wire.Int32(v))
	case isBinary && len(v) == 8 && (kind == 20 || kind == 0):
		return strconv.FormatInt(int64(wire.Int32(v))<<32|int64(uint32(wire.Int32(v[4:]))), 10)
	}
	cut := v
	if len(cut) > mostParameter {
		cut = cut[:mostParameter]
	}
	if isBinary && kind != 25 && kind != 1043 {
		return `\x` + hex.EncodeToString(cut)
	}
	return strings.ToValidUTF8(string(cut), "?")
}
