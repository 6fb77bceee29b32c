package histories

import "bytes"

// any passes over a value that isn't used, or not yet; the answer is whether there is one of which every reader would
// say the same. It has no escapes, no comments, and nothing that is not ASCII.
func (l *lines) any(depth int) bool {
	if depth > deepest {
		return false
	}
	switch c := l.next(); {
	case c == '"':
		return l.string()
	case c == '[':
		l.at++
		return l.many("]", depth)
	case c == '{':
		l.at++
		return l.pairs(depth)
	case c == '(' && !l.isJSON:
		l.at++
		return l.many(")", depth)
	case c == '#' && !l.isJSON && bytes.HasPrefix(l.text[l.at:], []byte("#{")):
		l.at += 2
		return l.many("}", depth)
	}
	return l.token()
}

func (l *lines) string() bool {
	for l.at++; ; l.at++ {
		c := l.next()
		if c == '"' {
			l.at++
			return true
		}
		if c < ' ' || c > '~' || c == '\\' {
			return false
		}
	}
}

// token passes over a number or a word.
func (l *lines) token() bool {
	begin := l.at
	for c := l.next(); isOfToken(c); c = l.next() {
		l.at++
	}
	text := l.text[begin:l.at]
	if !l.isJSON {
		return len(text) > 0 && len(text) <= digits
	}
	switch string(text) {
	case "null", "true", "false":
		return true
	}
	return isNumber(text)
}

func isOfToken(c byte) bool {
	return isLetter(c) || isDigit(c) || c != 0 && bytes.IndexByte([]byte("_.*+!?-:/<>=$&%'"), c) >= 0
}

// many passes over values up to this end.
func (l *lines) many(end string, depth int) bool {
	for isFirst := true; !l.takes(end); isFirst = false {
		if !isFirst && !l.apart() || !l.any(depth+1) {
			return false
		}
	}
	return true
}

// pairs passes over the pairs of a map, whose keys have to be different words.
func (l *lines) pairs(depth int) bool {
	seen := map[string]bool{}
	for isFirst := true; !l.takes("}"); isFirst = false {
		if !isFirst && !l.apart() {
			return false
		}
		begin, c := l.at, l.next()
		if c != '"' && (c != ':' || l.isJSON) || !l.any(depth+1) {
			return false
		}
		key := string(l.text[begin:l.at])
		if seen[key] || len(key) < 2 {
			return false
		}
		seen[key] = true
		if l.isJSON && !l.takes(":") || !l.isJSON && !l.takes(" ") {
			return false
		}
		l.takes(" ")
		if !l.any(depth + 1) {
			return false
		}
	}
	return true
}

// apart passes over what separates two values.
func (l *lines) apart() bool {
	begin := l.at
	if l.isJSON {
		return l.between()
	}
	for l.takes(",") || l.takes(" ") {
	}
	return l.at > begin
}
