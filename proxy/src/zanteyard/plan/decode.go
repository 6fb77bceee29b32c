package plan

import (
	"encoding/binary"
	"fmt"
	"strconv"

	"zanteyard/keys"
	"zanteyard/record"
)

// Decode returns the rows that one row of a result was made from, by its hidden columns, all of them in one format. A
// group that an outer join left NULL yields none, and a list as many as it has.
func (p *Plan) Decode(values [][]byte, binary bool) ([]record.Read, error) {
	return p.AppendReads(nil, values, binary)
}

// Take takes the rows of a source that one row of a result was made from, the values of its further columns, nil for NULL, and
// whether an outer join left one out.
type Take func(source int, its []record.Read, more []*string, missing bool)

// Each calls take with the rows of each source that one row of a result was made from, and whether an outer join left one
// out. It returns false if some can't be read.
func (p *Plan) Each(values [][]byte, isBinary bool, take Take) bool {
	if len(values) != p.Hidden() {
		return false
	}
	if p.Copied {
		all, ok := p.copiedIn(values[0], isBinary)
		lists := listsOf(all)
		for i := range lists {
			ok = ok && p.Sources[i].eachListed(i, lists[i], take)
		}
		return ok
	}
	at := p.Hidden()
	for i := range p.Sources {
		at -= p.Sources[i].Hidden()
	}
	var reads []record.Read
	for i := range p.Sources {
		source := &p.Sources[i]
		group := values[at : at+source.Hidden()]
		at += source.Hidden()
		switch {
		case source.Listed:
			if list, ok := raw(group[0], isBinary); !ok || !source.eachListed(i, list, take) {
				return false
			}
		case group[0] == nil && !source.Nullable:
			return false
		case group[0] == nil:
			take(i, nil, nil, true)
		default:
			read, err := source.decode(group, isBinary)
			more, ok := source.more(group, isBinary)
			if err != nil || !ok {
				return false
			}
			take(i, append(reads[:0], read), more, false)
		}
	}
	return true
}

// eachListed does the same with a list. If an outer join may have left some of its rows out, it isn't known whether it did.
func (s *Source) eachListed(source int, list []byte, take Take) bool {
	reads, err := s.appendList(nil, list)
	if err != nil || s.Looked && !s.Nullable && len(reads) == 0 {
		return false
	}
	take(source, reads, nil, s.Nullable && (!s.Looked || len(reads) == 0))
	return true
}

// more returns the values of the columns besides the key.
func (s *Source) more(group [][]byte, isBinary bool) (all []*string, ok bool) {
	for i, typeOID := range s.More {
		value := group[2+len(s.Types)+i]
		if value == nil {
			all = append(all, nil)
			continue
		}
		text, readable := keys.FromHidden(typeOID, value, isBinary, s.Converts)
		if !readable {
			return nil, false
		}
		all = append(all, &text)
	}
	return all, true
}

// AppendReads is Decode into existing memory.
func (p *Plan) AppendReads(to []record.Read, values [][]byte, binary bool) ([]record.Read, error) {
	if len(values) != p.Hidden() {
		return to, fmt.Errorf("a row has %d hidden columns in place of %d", len(values), p.Hidden())
	}
	if p.Copied {
		return p.appendCopied(to, values[0], binary)
	}
	at := 0
	if p.TellsNumber {
		at++
	}
	if p.TellsVersion {
		at++
	}
	if p.Counts {
		at++
	}
	var failed error
	for i := range p.Sources {
		source := &p.Sources[i]
		group := values[at : at+source.Hidden()]
		at += source.Hidden()
		if source.Listed {
			list, ok := raw(group[0], binary)
			if !ok {
				failed = fmt.Errorf("a list of rows of relation %d can't be read", source.Relation)
				continue
			}
			var err error
			if to, err = source.appendList(to, list); err == ErrOtherRelation {
				return to, err
			} else if err != nil {
				failed = err
			}
			continue
		}
		if source.Nullable && group[0] == nil {
			continue
		}
		if source.RowType != 0 && !source.hasType(group[len(group)-1], binary) {
			return to, ErrOtherRelation
		}
		if group[0] == nil {
			continue
		}
		read, err := source.decode(group, binary)
		if err != nil {
			failed = err
			continue
		}
		to = append(to, read)
	}
	return to, failed
}

func (s *Source) decode(group [][]byte, binary bool) (record.Read, error) {
	version, ok := number32(group[0], binary)
	relation, ok2 := number32(group[1], binary)
	if !ok || !ok2 {
		return record.Read{}, fmt.Errorf("xmin or tableoid of relation %d can't be read", s.Relation)
	}
	var key string
	for i, typeOID := range s.Types {
		value := group[2+i]
		if value == nil {
			return record.Read{}, fmt.Errorf("a key column of relation %d is NULL", relation)
		}
		canonical, ok := keys.FromHidden(typeOID, value, binary, s.Converts)
		switch {
		case !ok:
			return record.Read{}, fmt.Errorf("a key column of relation %d of type %d can't be read", relation, typeOID)
		case i == 0:
			key = canonical
		default:
			key += "\x00" + canonical
		}
	}
	return record.Read{
		Relation: record.Relation(relation), Key: record.Key(key), Version: version, Identity: s.Identity,
	}, nil
}

// Number returns the transaction's number from a row's hidden columns, if the plan asks for it.
func (p *Plan) Number(values [][]byte, isBinary bool) (uint64, bool) {
	if !p.TellsNumber || len(values) == 0 || values[0] == nil {
		return 0, false
	}
	if isBinary {
		if len(values[0]) != 8 {
			return 0, false
		}
		return binary.BigEndian.Uint64(values[0]), true
	}
	number, err := strconv.ParseUint(string(values[0]), 10, 64)
	return number, err == nil
}

// Version returns the number of the transaction or subtransaction that wrote the row, if the plan asks for it.
func (p *Plan) Version(values [][]byte, binary bool) (uint32, bool) {
	if !p.TellsVersion || len(values) < 2 || values[1] == nil {
		return 0, false
	}
	return number32(values[1], binary)
}

func number32(value []byte, isBinary bool) (uint32, bool) {
	if isBinary {
		if len(value) != 4 {
			return 0, false
		}
		return binary.BigEndian.Uint32(value), true
	}
	if len(value) == 0 || len(value) > 10 {
		return 0, false
	}
	number := uint64(0)
	for _, c := range value {
		if c < '0' || c > '9' {
			return 0, false
		}
		number = 10*number + uint64(c-'0')
	}
	return uint32(number), number>>32 == 0
}
