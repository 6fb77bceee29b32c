package histories

import "bytes"

// initial is the source of a read that found nothing.
const initial = -1

// several marks a value that was written more than once: who was read from is unknown then.
const several = -2

// A source is one read of an attempt: its key, the attempt that it read from, and what shows it. That is the attempt's
// own access; or the list that another one read, in which these elements were appended to what this one read.
type source struct {
	key      int32
	origin   int32
	access   int32 // among the attempt's own, or -1
	elements []byte
	reader   int32
}

// A chain is the longest list of a key so far in which the writer of each element is known, in whole groups. What was
// noted for it isn't noted again for a list that begins alike.
type chain struct {
	elements []byte
	last     map[int]int32 // the last element's writer, by the length of the text
	starts   map[int32]int // by writer, the length of the text before its elements
}

type sources struct {
	*history
	writers []map[string]int32  // by key: who wrote a value
	last    map[[2]int32][]byte // by attempt and key of registers: its last write
	groups  map[[2]int32][][]byte
	chains  []*chain
	of      [][]source // by attempt
	order   []int32    // the keys in the order in which they are numbered
	isKnown []bool     // by key, whether it is in there
}

// sourcesOf looks up the attempt that each read came from. A history in which one came from nobody, from several, or
// from what never took effect isn't plain.
func sourcesOf(h *history) (*sources, error) {
	s := &sources{
		history: h,
		writers: make([]map[string]int32, len(h.names)),
		last:    map[[2]int32][]byte{},
		groups:  map[[2]int32][][]byte{},
		chains:  make([]*chain, len(h.names)),
		of:      make([][]source, len(h.attempts)),
		isKnown: make([]bool, len(h.names)),
	}
	for at := range h.attempts {
		s.noteWrites(int32(at))
		h.attempts[at].tookEffect = h.attempts[at].kind == committed
	}
	for at := range h.attempts {
		if h.attempts[at].kind == committed {
			if err := s.lookUp(int32(at)); err != nil {
				return nil, err
			}
		}
	}
	return s, nil
}

func (s *sources) noteWrites(at int32) {
	accesses := s.attempts[at].accesses
	for i, one := range accesses {
		if one.reads {
			continue
		}
		s.know(one.key)
		writers := s.writers[one.key]
		if writers == nil {
			writers = map[string]int32{}
			s.writers[one.key] = writers
		}
		before, isThere := writers[string(one.content)]
		switch {
		case !isThere:
			writers[string(one.content)] = at
		case before != at || s.lists:
			writers[string(one.content)] = several
		}
		place := [2]int32{at, one.key}
		if !s.lists {
			s.last[place] = one.content
			continue
		}
		if s.groups[place] != nil {
			continue
		}
		for _, other := range accesses[i+1:] {
			if !other.reads && other.key == one.key {
				s.groups[place] = appended(accesses, one.key)
				break
			}
		}
	}
}

// appended are the elements that these accesses append to a list.
func appended(accesses []micro, key int32) (elements [][]byte) {
	for _, one := range accesses {
		if !one.reads && one.key == key {
			elements = append(elements, one.content)
		}
	}
	return elements
}

func (s *sources) know(key int32) {
	if !s.isKnown[key] {
		s.isKnown[key] = true
		s.order = append(s.order, key)
	}
}

func (s *sources) lookUp(at int32) error {
	accesses := s.attempts[at].accesses
	for i, one := range accesses {
		if !one.reads {
			continue
		}
		own, isOwn := s.ownBefore(accesses[:i], one.key)
		var err error
		if s.lists {
			err = s.list(at, int32(i), own, isOwn)
		} else {
			err = s.register(at, int32(i), own, isOwn)
		}
		if err != nil {
			return err
		}
	}
	return nil
}

// ownBefore is what these accesses leave in a key: the last value, or all that they appended.
func (s *sources) ownBefore(accesses []micro, key int32) (own []byte, isOwn bool) {
	for _, one := range accesses {
		if one.reads || one.key != key {
			continue
		}
		if s.lists && isOwn {
			own = append(append(append([]byte{}, own...), s.gap), one.content...)
		} else {
			own = one.content
		}
		isOwn = true
	}
	return own, isOwn
}

func (s *sources) odd(at int32) error {
	return notPlain{s.attempts[at].line, "a read without one source"}
}

// add notes a source, unless the same one is there.
func (s *sources) add(at int32, new source) {
	for _, old := range s.of[at] {
		if old.key == new.key && old.origin == new.origin {
			return
		}
	}
	s.of[at] = append(s.of[at], new)
}

// reads notes that an access read from there.
func (s *sources) reads(at, access, origin int32) {
	key := s.attempts[at].accesses[access].key
	s.know(key)
	s.add(at, source{key: key, origin: origin, access: access})
	if origin != initial {
		s.attempts[origin].tookEffect = true
	}
}

// writer is the one attempt that wrote a value which another one read, if it may have.
func (s *sources) writer(at, key int32, value []byte) (int32, bool) {
	found, isThere := s.writers[key][string(value)]
	return found, isThere && found != several && found != at && s.attempts[found].kind != aborted
}

func (s *sources) register(at, access int32, own []byte, isOwn bool) error {
	one := s.attempts[at].accesses[access]
	switch {
	case isOwn:
		if one.isNil || !bytes.Equal(one.content, own) {
			return s.odd(at)
		}
	case one.isNil:
		s.reads(at, access, initial)
	default:
		origin, ok := s.writer(at, one.key, one.content)
		if !ok || !bytes.Equal(s.last[[2]int32{origin, one.key}], one.content) {
			return s.odd(at)
		}
		s.reads(at, access, origin)
	}
	return nil
}

// list looks up a list, which shows the order of its writers: the writer of each element has read the key from the
// writer of the element before.
func (s *sources) list(at, access int32, own []byte, isOwn bool) error {
	one := s.attempts[at].accesses[access]
	front := one.content
	if isOwn {
		switch {
		case bytes.Equal(front, own):
			front = nil
		case bytes.HasSuffix(front, own) && len(front) > len(own) && front[len(front)-len(own)-1] == s.gap:
			front = front[:len(front)-len(own)-1]
		default:
			return s.odd(at)
		}
	}
	longest := s.chains[one.key]
	if longest == nil {
		longest = &chain{last: map[int]int32{0: initial}, starts: map[int32]int{}}
		s.chains[one.key] = longest
	}
	known := longest.common(front, s.gap)
	if start, is := longest.starts[at]; is && known > start { // it can't read its own there
		known = 0
	}
	if known == len(front) {
		s.reads(at, access, longest.last[known])
		return nil
	}
	return s.follow(at, access, longest, front, known)
}

// common is the length of what a list has in common with the chain: all of either, if they are whole groups, or none.
func (c *chain) common(front []byte, gap byte) int {
	whole := len(c.elements)
	if len(front) <= whole {
		if _, is := c.last[len(front)]; is && bytes.HasPrefix(c.elements, front) {
			return len(front)
		}
		return 0
	}
	if bytes.HasPrefix(front, c.elements) && (whole == 0 || front[whole] == gap) {
		return whole
	}
	return 0
}

// extend adds elements after the chain's last one.
func (c *chain) extend(elements []byte, writer int32, gap byte) {
	c.starts[writer] = len(c.elements)
	if len(c.elements) > 0 {
		c.elements = append(c.elements, gap)
	}
	c.elements = append(c.elements, elements...)
	c.last[len(c.elements)] = writer
}

// follow looks up what comes after so much of a list: groups of elements, each appended by one attempt.
func (s *sources) follow(at, access int32, longest *chain, front []byte, known int) error {
	key := s.attempts[at].accesses[access].key
	rest := front
	if known > 0 {
		rest = front[known+1:]
	}
	elements := bytes.Split(rest, []byte{s.gap})
	goesOn, before := known == len(longest.elements), longest.last[known]
	seen := map[int32]bool{}
	for len(elements) > 0 {
		group, origin := elements[:1], int32(0)
		origin, ok := s.writer(at, key, elements[0])
		if !ok {
			return s.odd(at)
		}
		if all := s.groups[[2]int32{origin, key}]; all != nil {
			if len(elements) < len(all) {
				return s.odd(at)
			}
			group = elements[:len(all)]
			for i, one := range all {
				if !bytes.Equal(one, group[i]) {
					return s.odd(at)
				}
			}
		}
		_, isEarlier := longest.starts[origin]
		if seen[origin] || known > 0 && isEarlier {
			return s.odd(at)
		}
		seen[origin] = true
		elements = elements[len(group):]
		text := bytes.Join(group, []byte{s.gap})
		s.attempts[origin].tookEffect = true
		s.add(origin, source{key: key, origin: before, access: -1, elements: text, reader: at})
		if goesOn {
			longest.extend(text, origin, s.gap)
		}
		before = origin
	}
	s.reads(at, access, before)
	return nil
}
