package join

import "fmt"

// model is the auditor, as far as it refuses lines by docs/FORMATS.md.
type model struct {
	sessions []modelSession
	limit    int
	rounds   int
}

type modelSession struct {
	its  []modelTxn
	mark int
}

type modelTxn struct {
	reads  [][3]int64 // key, session, number; session -1: init
	writes []int64
}

func (t modelTxn) isFence() bool {
	return len(t.reads) == 1 && len(t.writes) == 1 && t.reads[0][0] == 0 && t.writes[0] == 0
}

func (m *model) remain() int {
	n := 0
	for _, s := range m.sessions {
		n += len(s.its) - s.mark
	}
	return n
}

func (m *model) take(it []any) string {
	switch it[0] {
	case "offer":
		return m.offer(int(it[1].(float64)), int(it[2].(float64)), it[3].([]any))
	case "join":
		return m.join(int(it[1].(float64)), it[2].([]any))
	case "round":
		m.rounds++
	case "truncate":
	default:
		return "BadLine"
	}
	return ""
}

// join takes a new session that begins with a fence, which reads one that is there.
func (m *model) join(session int, its []any) string {
	if session != len(m.sessions) || session >= 256 {
		return "BadSession"
	}
	first, refusal := parse(its[0].([]any), session, 0)
	if refusal != "" || !first.isFence() || first.reads[0][1] < 0 {
		return "NotAnchored: " + refusal
	}
	if from := first.reads[0]; from[1] >= int64(session) || from[2] >= int64(len(m.sessions[from[1]].its)) {
		return "NotAnchored: that fence isn't there"
	}
	m.sessions = append(m.sessions, modelSession{})
	return m.offer(session, 0, its)
}

func (m *model) offer(session, first int, its []any) string {
	s := &m.sessions[session]
	switch {
	case len(its) == 0 || len(its) > 256:
		return "TooLong"
	case first != len(s.its):
		return fmt.Sprintf("Gap or Repeat: %d, not %d", first, len(s.its))
	case m.remain()+len(its) > m.limit:
		return "Backlog"
	}
	for i, one := range its {
		t, refusal := parse(one.([]any), session, first+i)
		if refusal != "" {
			return refusal
		}
		s.its = append(s.its, t)
	}
	return ""
}

func parse(it []any, session, number int) (modelTxn, string) {
	var t modelTxn
	if len(it) != 2 {
		return t, "BadLine"
	}
	for _, one := range it[0].([]any) {
		parts := one.([]any)
		read := [3]int64{int64(parts[0].(float64)), -1, -1}
		if parts[1] != "init" {
			read[1], read[2] = int64(parts[1].(float64)), int64(parts[2].(float64))
		}
		if n := len(t.reads); n > 0 && !less(t.reads[n-1], read) {
			return t, "BadTxn: reads don't rise"
		}
		if read[1] == int64(session) && read[2] == int64(number) {
			return t, "BadTxn: it reads from itself"
		}
		t.reads = append(t.reads, read)
	}
	for _, one := range it[1].([]any) {
		key := int64(one.(float64))
		if n := len(t.writes); n > 0 && t.writes[n-1] >= key {
			return t, "BadTxn: writes don't rise"
		}
		t.writes = append(t.writes, key)
	}
	if len(t.reads) > 256 || len(t.writes) > 256 {
		return t, "TooLong"
	}
	touches := len(t.reads) > 0 && t.reads[0][0] == 0 || len(t.writes) > 0 && t.writes[0] == 0
	if touches && !t.isFence() {
		return t, "BadFence"
	}
	return t, ""
}

func less(a, b [3]int64) bool {
	for i := range a {
		if a[i] != b[i] {
			return a[i] < b[i]
		}
	}
	return false
}

// explained reports whether some order of all transactions explains their reads, with each session's order kept. A read
// of a missing transaction counts as satisfied.
func (m *model) explained() bool {
	at := make([]int, len(m.sessions))
	last := map[int64][2]int64{}
	n := 0
	for _, s := range m.sessions {
		n += len(s.its)
	}
	return m.search(at, last, n)
}

func (m *model) search(at []int, last map[int64][2]int64, left int) bool {
	if left == 0 {
		return true
	}
	for i := range m.sessions {
		if at[i] >= len(m.sessions[i].its) {
			continue
		}
		t := m.sessions[i].its[at[i]]
		if !m.meets(t, last) {
			continue
		}
		undo := map[int64][2]int64{}
		for _, key := range t.writes {
			if was, is := last[key]; is {
				undo[key] = was
			} else {
				undo[key] = [2]int64{-1, -1}
			}
			last[key] = [2]int64{int64(i), int64(at[i])}
		}
		at[i]++
		if m.search(at, last, left-1) {
			return true
		}
		at[i]--
		for key, was := range undo {
			if was[0] < 0 {
				delete(last, key)
			} else {
				last[key] = was
			}
		}
	}
	return false
}

func (m *model) meets(t modelTxn, last map[int64][2]int64) bool {
	for _, read := range t.reads {
		was, is := last[read[0]]
		if !is {
			was = [2]int64{-1, -1}
		}
		if was != [2]int64{read[1], read[2]} {
			return false
		}
	}
	return true
}

// cycle looks for offered transactions that would have to precede one another: none, if some order explains everything.
// With snapshots it looks for such begins and commits.
func (m *model) cycle(snapshots bool) []string {
	type id [2]int64
	type event struct {
		id
		commits bool
	}
	begin := func(at id) event { return event{at, false} }
	commit := func(at id) event { return event{at, snapshots} }
	next := map[int64]map[id]id{} // by key: who wrote the version after this one
	each := func(f func(at id, t modelTxn)) {
		for s := range m.sessions {
			for n, t := range m.sessions[s].its {
				f(id{int64(s), int64(n)}, t)
			}
		}
	}
	after := map[event][]event{}
	each(func(at id, t modelTxn) {
		for _, key := range t.writes {
			if next[key] == nil {
				next[key] = map[id]id{}
			}
			for _, read := range t.reads {
				if from := (id{read[1], read[2]}); read[0] == key {
					if other, is := next[key][from]; is { // if two overwrite one version, neither can come first
						after[commit(at)] = append(after[commit(at)], commit(other))
						after[commit(other)] = append(after[commit(other)], commit(at))
					}
					next[key][from] = at
				}
			}
		}
	})
	each(func(at id, t modelTxn) {
		if snapshots {
			after[begin(at)] = append(after[begin(at)], commit(at))
		}
		if n := at[1] + 1; n < int64(len(m.sessions[at[0]].its)) {
			after[commit(at)] = append(after[commit(at)], begin(id{at[0], n}))
		}
		for _, read := range t.reads {
			from := id{read[1], read[2]}
			if read[1] >= 0 {
				after[commit(from)] = append(after[commit(from)], begin(at))
			}
			if to, is := next[read[0]][from]; is && to != at {
				after[begin(at)] = append(after[begin(at)], commit(to))
			}
		}
	})
	state := map[event]int{}
	var path []string
	var visit func(at event) bool
	visit = func(at event) bool {
		state[at] = 1
		for _, to := range after[at] {
			if state[to] == 1 || state[to] == 0 && visit(to) {
				path = append(path, fmt.Sprintf("%d.%d %v %+v", at.id[0], at.id[1], at.commits, m.sessions[at.id[0]].its[at.id[1]]))
				return true
			}
		}
		state[at] = 2
		return false
	}
	found := false
	each(func(at id, _ modelTxn) {
		found = found || state[begin(at)] == 0 && visit(begin(at)) || state[commit(at)] == 0 && visit(commit(at))
	})
	return path
}
