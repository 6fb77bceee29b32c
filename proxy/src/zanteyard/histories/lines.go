// Package histories turns a history of Jepsen into a script, as the Python package does, in a tenth of the time.
//
// It takes plain histories alone: one map a line, written as Jepsen's and Elle's own writers do, in which each read came
// from a transaction that took effect. Whatever else a file may have is left to the Python package, which knows every
// case and gives each refusal its words; both give the same bytes for a plain one.
package histories

import (
	"bytes"
	"fmt"
)

// notPlain says on which line a history isn't plain, and why. It is no error of the file.
type notPlain struct {
	line int
	why  string
}

func (e notPlain) Error() string { return fmt.Sprintf("line %d: %s", e.line, e.why) }

// A micro is a micro-operation: a read, or a write of a register or to the end of a list.
type micro struct {
	reads   bool
	isNil   bool // of a read that found nothing
	key     int32
	content []byte // as the file has it: a value, or the elements of a list, without brackets
}

type kind byte // how an operation of the file ends an attempt

const (
	invoked kind = iota
	committed
	aborted
	unknown
)

var kinds = map[string]kind{"invoke": invoked, "ok": committed, "fail": aborted, "info": unknown}

// An operation is a map of a client in the file.
type operation struct {
	line    int
	kind    kind
	process []byte
	index   []byte // its text, empty if it has none
	time    int64  // in nanoseconds
	isTimed bool
	micros  []micro // empty if the value is nil
}

const (
	deepest   = 50  // levels of nested values
	mostPairs = 32  // of a map
	digits    = 100 // of a whole number
	timeTexts = 18  // digits of a time, which then fits
)

// lines reads a file's operations.
type lines struct {
	text   []byte
	at     int
	line   int
	isJSON bool
	lists  bool
	gap    byte // between the elements of a list
	write  string
	keys   map[string]int32
	names  [][]byte // of the keys, by number
}

func readerOf(text []byte, lists bool) *lines {
	l := &lines{text: text, line: 1, lists: lists, gap: ' ', write: "w", keys: map[string]int32{}}
	l.isJSON = bytes.HasPrefix(text, []byte(`{"`))
	if l.isJSON {
		l.gap = ','
	}
	if lists {
		l.write = "append"
	}
	return l
}

func (l *lines) refused(why string) error { return notPlain{l.line, why} }

// takes passes this text over, if it is next.
func (l *lines) takes(text string) bool {
	if end := l.at + len(text); end <= len(l.text) && string(l.text[l.at:end]) == text {
		l.at = end
		return true
	}
	return false
}

func (l *lines) next() byte {
	if l.at < len(l.text) {
		return l.text[l.at]
	}
	return 0
}

// operation is the next one of a client; nil at the end of the file.
func (l *lines) operation() (*operation, error) {
	for l.at < len(l.text) {
		if l.takes("\n") || l.takes("\r\n") {
			l.line++
			continue
		}
		found, err := l.mapping()
		if err != nil {
			return nil, err
		}
		l.line++
		if found != nil {
			return found, nil
		}
	}
	return nil, nil
}

// mapping reads a map and the end of its line; nil if it is the nemesis's.
func (l *lines) mapping() (*operation, error) {
	if !l.isJSON {
		l.takes("#jepsen.history.Op")
	}
	if !l.takes("{") {
		return nil, l.refused("no map")
	}
	found := operation{line: l.line}
	var names [mostPairs][]byte
	count, has := 0, fields{}
	for {
		name, ok := l.name()
		if !ok || count == mostPairs {
			return nil, l.refused("another key")
		}
		for _, other := range names[:count] {
			if bytes.Equal(other, name) {
				return nil, l.refused("a key twice")
			}
		}
		names[count] = name
		count++
		if !l.field(string(name), &found, &has) {
			return nil, l.refused("another value of " + string(name))
		}
		if l.takes("}") {
			break
		}
		if l.isJSON && l.takes(",") {
			l.takes(" ")
		} else if l.isJSON || !(l.takes(", ") || l.takes(" ")) {
			return nil, l.refused("something else between pairs")
		}
	}
	if l.at < len(l.text) && !l.takes("\n") && !l.takes("\r\n") {
		return nil, l.refused("more on the line")
	}
	if has.nemesis {
		return nil, nil
	}
	hasNone := has.isNil && (found.kind == aborted || found.kind == unknown)
	if !has.kind || !has.function || !has.process || !(has.micros || hasNone) {
		return nil, l.refused("another operation")
	}
	return &found, nil
}

// fields says what a map has had.
type fields struct {
	kind, function, process, nemesis bool
	micros, isNil                    bool // what the value is
}

// field reads the value of a key; the answer is whether it can be understood. What is no operation of a client's is
// known only when all of it has been read.
func (l *lines) field(name string, found *operation, has *fields) bool {
	begin := l.at
	if name == "value" {
		if micros, ok := l.micros(); ok {
			found.micros, has.micros = micros, true
			return true
		}
		l.at = begin
		ok := l.any(0)
		has.isNil = string(l.text[begin:l.at]) == l.nil()
		return ok
	}
	if !l.any(0) {
		return false
	}
	text := l.text[begin:l.at]
	switch name {
	case "type":
		found.kind, has.kind = kinds[l.word(text)]
	case "f":
		has.function = l.word(text) == "txn"
	case "process":
		has.nemesis = l.word(text) == "nemesis"
		has.process = isNumber(text)
		found.process = text
	case "index":
		if string(text) == l.nil() {
			return true
		}
		found.index = text
		return isNumber(text)
	case "time":
		if string(text) == l.nil() {
			return true
		}
		if !isNumber(text) || len(text) > timeTexts || text[0] == '-' {
			return false
		}
		found.time, found.isTimed = whole(text), true
	}
	return true
}

// name reads a key, and what is between it and its value.
func (l *lines) name() ([]byte, bool) {
	opening, closing := ":", " "
	if l.isJSON {
		opening, closing = `"`, `":`
	}
	if !l.takes(opening) || !isLetter(l.next()) {
		return nil, false
	}
	begin := l.at
	for isOfName(l.next()) {
		l.at++
	}
	name := l.text[begin:l.at]
	if !l.takes(closing) {
		return nil, false
	}
	if l.isJSON {
		l.takes(" ")
	}
	return name, true
}

// word is a keyword or a string without what is around it; empty if it is neither.
func (l *lines) word(text []byte) string {
	if l.isJSON && len(text) > 1 && text[0] == '"' {
		return string(text[1 : len(text)-1])
	}
	if !l.isJSON && len(text) > 0 && (text[0] == ':' || text[0] == '"') {
		// In EDN, too, a word may be a string.
		if text[0] == '"' {
			return string(text[1 : len(text)-1])
		}
		return string(text[1:])
	}
	return ""
}

func (l *lines) nil() string {
	if l.isJSON {
		return "null"
	}
	return "nil"
}

// between passes over what separates the elements of a list.
func (l *lines) between() bool {
	if !l.isJSON {
		return l.takes(" ")
	}
	if !l.takes(",") {
		return false
	}
	l.takes(" ")
	return true
}

// micros reads a list of micro-operations, at least one.
func (l *lines) micros() ([]micro, bool) {
	if !l.takes("[") {
		return nil, false
	}
	found := make([]micro, 0, 4)
	for {
		one, ok := l.micro()
		if !ok {
			return nil, false
		}
		found = append(found, one)
		if l.takes("]") {
			return found, true
		}
		if !l.between() {
			return nil, false
		}
	}
}

func (l *lines) micro() (micro, bool) {
	var found micro
	quote, end := ":", ""
	if l.isJSON {
		quote, end = `"`, `"`
	}
	if !l.takes("[" + quote) {
		return found, false
	}
	switch {
	case l.takes("r" + end):
		found.reads = true
	case !l.takes(l.write + end):
		return found, false
	}
	if !l.between() {
		return found, false
	}
	key, ok := l.scalar()
	if !ok || !l.between() {
		return found, false
	}
	found.key = l.number(key)
	switch {
	case found.reads && l.takes(l.nil()):
		found.isNil = true
	case found.reads && l.lists:
		found.content, ok = l.elements()
	default:
		found.content, ok = l.scalar()
	}
	return found, ok && l.takes("]")
}

// elements reads a list of scalars, and gives what is in its brackets, with the shortest text between two of them.
func (l *lines) elements() ([]byte, bool) {
	if !l.takes("[") {
		return nil, false
	}
	begin, isWide := l.at, false
	for !l.takes("]") {
		if l.at > begin {
			if !l.between() {
				return nil, false
			}
			isWide = isWide || l.isJSON && l.text[l.at-1] == ' '
		}
		if _, ok := l.scalar(); !ok {
			return nil, false
		}
	}
	content := l.text[begin : l.at-1]
	if isWide {
		content = bytes.ReplaceAll(content, []byte(", "), []byte(","))
	}
	return content, true
}

// scalar reads a key or value whose text distinguishes it from others.
func (l *lines) scalar() ([]byte, bool) {
	begin := l.at
	switch first := l.next(); {
	case first == '"' && l.isJSON:
		l.at++
		for isOfWord(l.next()) {
			l.at++
		}
		if !l.takes(`"`) {
			return nil, false
		}
	case first == ':' && !l.isJSON:
		l.at++
		if !isLetter(l.next()) {
			return nil, false
		}
		for isOfName(l.next()) {
			l.at++
		}
	default:
		for c := l.next(); isDigit(c) || c == '-'; c = l.next() {
			l.at++
		}
		if !isNumber(l.text[begin:l.at]) {
			return nil, false
		}
	}
	return l.text[begin:l.at], true
}

// number is a key's place among all of them.
func (l *lines) number(key []byte) int32 {
	number, ok := l.keys[string(key)]
	if !ok {
		number = int32(len(l.names))
		l.keys[string(key)] = number
		l.names = append(l.names, key)
	}
	return number
}

func isDigit(c byte) bool  { return c >= '0' && c <= '9' }
func isLetter(c byte) bool { return c >= 'A' && c <= 'Z' || c >= 'a' && c <= 'z' }

func isOfName(c byte) bool {
	return isLetter(c) || isDigit(c) || c != 0 && bytes.IndexByte([]byte("_.*+!?-"), c) >= 0
}

func isOfWord(c byte) bool {
	return isLetter(c) || isDigit(c) || c != 0 && bytes.IndexByte([]byte("_.:/+-"), c) >= 0
}

// isNumber tells whether the text is a whole number as both formats write it.
func isNumber(text []byte) bool {
	if string(text) == "0" {
		return true
	}
	rest := bytes.TrimPrefix(text, []byte("-"))
	if len(rest) == 0 || len(rest) > digits || rest[0] == '0' {
		return false
	}
	for _, c := range rest {
		if !isDigit(c) {
			return false
		}
	}
	return true
}

func whole(text []byte) int64 {
	rest := bytes.TrimPrefix(text, []byte("-"))
	number := int64(0)
	for _, c := range rest {
		number = number*10 + int64(c-'0')
	}
	if len(rest) < len(text) {
		return -number
	}
	return number
}
