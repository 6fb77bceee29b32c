package remote

// numbers are those of the last messages that were heard of each watch, also of one that fell silent: what it has said
// may be played again.
type numbers struct {
	last map[string]uint64
	runs []string // as they were first heard
}

// mostRuns limits how many watches are remembered.
const mostRuns = 1000

// isNext reports whether a message is later than all that were heard of its watch, and if so remembers it.
func (n *numbers) isNext(run string, number uint64) bool {
	last, known := n.last[run]
	switch {
	case known && number <= last:
		return false
	case n.last == nil:
		n.last = map[string]uint64{}
	case !known && len(n.runs) >= mostRuns:
		delete(n.last, n.runs[0])
		n.runs = n.runs[1:]
	}
	if !known {
		n.runs = append(n.runs, run)
	}
	n.last[run] = number
	return true
}
