package session

import (
	"strings"

	"zanteyard/plan"
	"zanteyard/record"
)

// Texts come in the client's encoding, and the slot has them in the server's. Plans that convert ask for a key's texts as
// the server stores them.

// unconverted is the encoding of a client or server for which nothing is converted.
const unconverted = "SQL_ASCII"

// Why something isn't seen.
const (
	otherEncoding = "a key with a text beyond ASCII, in another encoding than the server's"
	namesBeyond   = "names beyond ASCII, in another encoding than the server's"
)

// isPlain reports whether an encoding uses ASCII's bytes only for ASCII's characters, so that PostgreSQL's parser and the
// lexer read texts correctly. Texts in other encodings aren't looked at.
func isPlain(encoding string) bool {
	switch encoding {
	case "SJIS", "SHIFT_JIS_2004", "BIG5", "GBK", "UHC", "GB18030", "JOHAB":
		return false
	}
	return true
}

// setEncoding handles what the server reports as the client's encoding.
func (s *Session) setEncoding(name string) {
	s.charset = strings.ToUpper(name)
	s.encoding = isPlain(s.charset)
	if s.status != 0 {
		s.trust.planAnew()
	}
}

// converts reports whether the server converts texts for this client.
func (s *Session) converts() bool {
	server := s.options.Plans.Encoding()
	return server != s.charset && server != unconverted && s.charset != unconverted
}

// where returns what decides how a statement is planned: the search path, and whether plans convert.
func (s *Session) where() string {
	if s.converts() {
		return plan.Converting + s.trust.path
	}
	return s.trust.path
}

// understands reports whether names mean the same to the client as in the catalog, which has them as the server stores
// them.
func (s *Session) understands(p *plan.Plan) bool { return !p.Beyond || !s.converts() }

// comparable drops the reads whose keys may be in another encoding than the slot's: the encoding has changed since the
// statement was sent, or there was no room for a plan that converts.
func (s *Session) comparable(p *plan.Plan, reads []record.Read) []record.Read {
	if p.Converts() || s.options.Plans == nil || !s.converts() {
		return reads
	}
	kept := reads[:0]
	for _, one := range reads {
		if isASCII(string(one.Key)) {
			kept = append(kept, one)
		} else {
			s.notSeen(p.Shape, otherEncoding, true)
		}
	}
	return kept
}

// askable reports whether a key that a statement asks for is the same in the server's encoding.
func (s *Session) askable(key record.Key) bool { return !s.converts() || isASCII(string(key)) }

func isASCII(text string) bool {
	for i := 0; i < len(text); i++ {
		if text[i] >= 0x80 {
			return false
		}
	}
	return true
}
