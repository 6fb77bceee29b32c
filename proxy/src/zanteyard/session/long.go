package session

import (
	"zanteyard/wire"
)

// long takes the beginning of a message that is too long to be looked at whole, and returns what to send for it: the
// rest follows as it arrives. Called with writes and state locked.
func (s *Session) long(begin []byte) []byte {
	o := &s.toServer
	o.begin(begin)
	kind := begin[0]
	if s.skipping {
		kind = 0
	}
	switch kind {
	case 'Q':
		s.begin()
		s.before(nil)
		s.runsUnseen(tooLong)
		s.queue.push(expectation{message: 'Q', on: tooLong, undo: undoStatement, previous: s.names.statements[""]})
		s.names.setStatement("", nil)
		s.open = false
	case 'P':
		s.begin()
		name, _, _ := wire.Text(begin[wire.Header:])
		st := &statement{name: string(nameTaken(name)), others: s.trust.others, unseen: tooLong.unseen}
		s.queue.push(expectation{message: 'P', on: st, name: st.name, undo: undoStatement,
			previous: s.names.statements[st.name], cleared: st.name == ""})
		s.names.setStatement(st.name, st)
		s.open = true
	case 'B':
		s.begin()
		bound, name, _, _ := wire.Names(begin)
		st := s.names.statements[string(nameTaken(name))]
		if st != nil && st.altered {
			s.original(o, st) // the formats of its columns come last, but the length, which includes them, first
		}
		its := &portal{name: portalName(bound), on: st}
		s.bindTo(its, s.names.isBeyond(its.name))
	case 'F':
		s.begin()
		s.trust.changed(unparsed)
		s.trust.runsForeign()
		s.queue.push(expectation{message: 'F', on: called})
	}
	o.pass(0, len(begin))
	return o.all()
}
