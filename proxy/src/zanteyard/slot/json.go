package slot

import (
	"errors"
	"strconv"
	"unicode/utf16"
	"unicode/utf8"
)

// scanner reads one JSON text, as wal2json writes it, and builds nothing that isn't asked for: most of a message are
// columns outside the key.
type scanner struct {
	text []byte
	at   int
}

var errForm = errors.New("slot: a message from the slot has an unexpected form")

func (s *scanner) space() {
	for s.at < len(s.text) && (s.text[s.at] == ' ' || s.text[s.at] == '\n' || s.text[s.at] == '\t' || s.text[s.at] == '\r') {
		s.at++
	}
}

// is consumes the character if it comes next.
func (s *scanner) is(c byte) bool {
	s.space()
	if s.at < len(s.text) && s.text[s.at] == c {
		s.at++
		return true
	}
	return false
}

// raw returns the inside of a string unchanged, and whether it has escapes.
func (s *scanner) raw() (inside []byte, escapes bool, err error) {
	if !s.is('"') {
		return nil, false, errForm
	}
	from := s.at
	for s.at < len(s.text) {
		switch s.text[s.at] {
		case '"':
			s.at++
			return s.text[from : s.at-1], escapes, nil
		case '\\':
			escapes = true
			s.at++
		}
		s.at++
	}
	return nil, false, errForm
}

// name returns a string, with its escapes decoded.
func (s *scanner) name() ([]byte, error) {
	inside, escapes, err := s.raw()
	if err != nil || !escapes {
		return inside, err
	}
	return unescaped(inside)
}

// scalar returns a value as text; null means that it is null.
func (s *scanner) scalar() (text []byte, null bool, err error) {
	s.space()
	if s.at < len(s.text) && s.text[s.at] == '"' {
		text, err = s.name()
		return text, false, err
	}
	from := s.at
	for s.at < len(s.text) {
		switch s.text[s.at] {
		case ',', '}', ']', ' ':
			text = s.text[from:s.at]
			return text, string(text) == "null", nil
		case '{', '[':
			return nil, false, errForm
		}
		s.at++
	}
	return nil, false, errForm
}

// skip skips a value of any kind.
func (s *scanner) skip() error {
	for depth := 0; ; {
		s.space()
		if s.at >= len(s.text) {
			return errForm
		}
		switch s.text[s.at] {
		case '"':
			if _, _, err := s.raw(); err != nil {
				return err
			}
		case '{', '[':
			depth++
			s.at++
		case '}', ']':
			depth--
			s.at++
		case ',', ':':
			s.at++
		default:
			if _, _, err := s.scalar(); err != nil {
				return err
			}
		}
		if depth <= 0 {
			if depth < 0 {
				return errForm
			}
			return nil
		}
	}
}

// unescaped decodes the escapes of a JSON string.
func unescaped(inside []byte) ([]byte, error) {
	to := make([]byte, 0, len(inside))
	for i := 0; i < len(inside); i++ {
		if inside[i] != '\\' {
			to = append(to, inside[i])
			continue
		}
		i++
		if i >= len(inside) {
			return nil, errForm
		}
		switch inside[i] {
		case 'b':
			to = append(to, '\b')
		case 'f':
			to = append(to, '\f')
		case 'n':
			to = append(to, '\n')
		case 'r':
			to = append(to, '\r')
		case 't':
			to = append(to, '\t')
		case 'u':
			r, used, err := unit(inside[i+1:])
			if err != nil {
				return nil, err
			}
			to = utf8.AppendRune(to, r)
			i += used
		default:
			to = append(to, inside[i])
		}
	}
	return to, nil
}

// unit reads four digits, and four more if they are the first half of a surrogate pair.
func unit(text []byte) (rune, int, error) {
	first, err := hex4(text)
	if err != nil {
		return 0, 0, err
	}
	if !utf16.IsSurrogate(first) || len(text) < 10 || text[4] != '\\' || text[5] != 'u' {
		return first, 4, nil
	}
	second, err := hex4(text[6:])
	if err != nil {
		return 0, 0, err
	}
	return utf16.DecodeRune(first, second), 10, nil
}

func hex4(text []byte) (rune, error) {
	if len(text) < 4 {
		return 0, errForm
	}
	number, err := strconv.ParseUint(string(text[:4]), 16, 16)
	if err != nil {
		return 0, errForm
	}
	return rune(number), nil
}
