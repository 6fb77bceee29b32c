package histories

import (
	"bufio"
	"bytes"
	"crypto/sha256"
	"encoding/hex"
	"fmt"
	"io"
	"os"
	"sort"
	"strconv"
)

const (
	longest      = 256     // transactions of a line, and reads or writes of a transaction
	smallLimit   = 4096    // transactions that may remain in a script of version 1
	smallCount   = 64      // its sessions
	largeLimit   = 1 << 20 // the same of version 3
	largeCount   = 256
	round        = `["round",4096,0,1,"guided"]`
	namesVersion = 1
)

// A script is what is offered of a history: the attempts of each session, in order.
type script struct {
	*sources
	sessions [][]int32
	numbers  []int32 // of the keys, from 1
	count    int
	shown    [][]byte // by session, the names of its transactions
}

// scriptOf gives each client a session. A history of fewer transactions than `least` isn't plain.
func scriptOf(s *sources, least int) (*script, error) {
	made := &script{sources: s, numbers: make([]int32, len(s.names))}
	for i, key := range s.order {
		made.numbers[key] = int32(i + 1)
	}
	sessions := make([]int32, len(s.clients)) // by client; clients are in the order in which they began something
	isUnknown := make([]bool, len(s.clients))
	for at := range s.attempts {
		it := &s.attempts[at]
		if !it.tookEffect {
			continue
		}
		if isUnknown[it.client] {
			return nil, notPlain{it.line, "a client that goes on after what has an unknown outcome"}
		}
		isUnknown[it.client] = it.kind == unknown
		sessions[it.client]++
		made.count++
	}
	for client, count := range sessions {
		if count > 0 {
			sessions[client] = int32(len(made.sessions))
			made.sessions = append(made.sessions, make([]int32, 0, count))
		}
	}
	for at := range s.attempts {
		it := &s.attempts[at]
		if it.tookEffect {
			it.session = sessions[it.client]
			it.place = int32(len(made.sessions[it.session]))
			made.sessions[it.session] = append(made.sessions[it.session], int32(at))
		}
	}
	if made.count == 0 || made.count < least || made.count > largeLimit || len(made.sessions) > largeCount {
		return nil, notPlain{1, fmt.Sprintf("%d transactions in %d sessions", made.count, len(made.sessions))}
	}
	return made, made.bounded()
}

// bounded says which transaction has more reads or writes than a line may have.
func (s *script) bounded() error {
	for _, session := range s.sessions {
		for _, at := range session {
			if len(s.of[at]) > longest || len(s.written(at)) > longest {
				return notPlain{s.attempts[at].line, "too many reads or writes"}
			}
		}
	}
	return nil
}

// written are the numbers of the keys that an attempt wrote, ascending.
func (s *script) written(at int32) []int32 {
	var found []int32
	for _, one := range s.attempts[at].accesses {
		if !one.reads {
			found = append(found, s.numbers[one.key])
		}
	}
	sort.Slice(found, func(i, j int) bool { return found[i] < found[j] })
	kept := found[:0]
	for i, number := range found {
		if i == 0 || number != found[i-1] {
			kept = append(kept, number)
		}
	}
	return kept
}

// sorted are an attempt's sources, in the order of a line: by key and then by source, the initial state first.
func (s *script) sorted(at int32) []source {
	found := append([]source{}, s.of[at]...)
	place := func(origin int32) (int32, int32) {
		if origin == initial {
			return -1, -1
		}
		return s.attempts[origin].session, s.attempts[origin].place
	}
	sort.Slice(found, func(i, j int) bool {
		if found[i].key != found[j].key {
			return s.numbers[found[i].key] < s.numbers[found[j].key]
		}
		session, number := place(found[i].origin)
		otherSession, otherNumber := place(found[j].origin)
		return session < otherSession || session == otherSession && number < otherNumber
	})
	return found
}

// read appends a read as in a line: [5,0,1], or [5,"init"].
func (s *script) read(to []byte, one source) []byte {
	to = strconv.AppendInt(append(to, '['), int64(s.numbers[one.key]), 10)
	if one.origin == initial {
		return append(to, `,"init"]`...)
	}
	origin := &s.attempts[one.origin]
	to = strconv.AppendInt(append(to, ','), int64(origin.session), 10)
	to = strconv.AppendInt(append(to, ','), int64(origin.place), 10)
	return append(to, ']')
}

// transaction appends an attempt as in a line, and its names.
func (s *script) transaction(line, names []byte, at int32) ([]byte, []byte) {
	it := &s.attempts[at]
	outcome := "committed"
	if it.kind == unknown {
		outcome = "unknown"
	}
	names = append(names, fmt.Sprintf(`["%s","%s",[`, it.name(), outcome)...)
	line = append(line, "[["...)
	for i, one := range s.sorted(at) {
		if i > 0 {
			line, names = append(line, ','), append(names, ',')
		}
		line = s.read(line, one)
		names = s.read(append(names, '['), one)
		names = append(s.quoted(append(names, ','), s.source(it, one)), ']')
	}
	written := s.written(at)
	if len(s.of[at]) > 0 && len(written) > 0 {
		names = append(names, ',')
	}
	line = append(line, "],["...)
	for i, number := range written {
		if i > 0 {
			line, names = append(line, ','), append(names, ',')
		}
		line = strconv.AppendInt(line, int64(number), 10)
		names = append(strconv.AppendInt(append(names, "[["...), int64(number), 10), "],"...)
		names = append(s.quoted(names, s.writes(it, number)), ']')
	}
	names = append(names, `],"`...)
	return append(line, "]]"...), append(append(names, s.where(it)...), `"]`...)
}

// source is the file's text of what shows a read.
func (s *script) source(it *attempt, one source) []byte {
	if one.access >= 0 {
		return s.text(it.accesses[one.access])
	}
	elements := bytes.ReplaceAll(one.elements, []byte{s.gap}, []byte(" "))
	return []byte(fmt.Sprintf("appended %s after that, as %s read", elements, s.attempts[one.reader].name()))
}

// writes is the file's text of an attempt's writes of the key with this number.
func (s *script) writes(it *attempt, number int32) (text []byte) {
	for _, one := range it.accesses {
		if !one.reads && s.numbers[one.key] == number {
			if text != nil {
				text = append(text, ' ')
			}
			text = append(text, s.text(one)...)
		}
	}
	return text
}

// text is a micro-operation as the file has it.
func (s *script) text(one micro) []byte {
	quote, end, between := ":", "", " "
	if s.isJSON {
		quote, end, between = `"`, `"`, ", "
	}
	word := s.write
	if one.reads {
		word = "r"
	}
	text := append(make([]byte, 0, 64), "["+quote+word+end+between...)
	text = append(append(text, s.names[one.key]...), between...)
	switch {
	case one.isNil:
		text = append(text, s.nil()...)
	case one.reads && s.lists:
		text = append(text, '[')
		text = append(text, bytes.ReplaceAll(one.content, []byte{s.gap}, []byte(between))...)
		text = append(text, ']')
	default:
		text = append(text, one.content...)
	}
	return append(text, ']')
}

// quoted appends a JSON string. Nothing in a plain history needs an escape but a quotation mark.
func (s *script) quoted(to, text []byte) []byte {
	to = append(to, '"')
	for _, c := range text {
		if c == '"' {
			to = append(to, '\\')
		}
		to = append(to, c)
	}
	return append(to, '"')
}

// writeLines writes the script itself, and keeps the names for writeNames.
func (s *script) writeLines(to io.Writer) error {
	form := ""
	if s.count > smallLimit || len(s.sessions) > smallCount {
		form = ",3"
	}
	if _, err := fmt.Fprintf(to, "[\"open\",%d,%d%s]\n", len(s.sessions), s.count, form); err != nil {
		return err
	}
	s.shown = make([][]byte, len(s.sessions))
	var line []byte
	for session, attempts := range s.sessions {
		names := make([]byte, 0, 256*len(attempts))
		for begin := 0; begin < len(attempts); begin += longest {
			line = append(line[:0], fmt.Sprintf(`["offer",%d,%d,[`, session, begin)...)
			for i, at := range attempts[begin:min(begin+longest, len(attempts))] {
				if i > 0 {
					line = append(line, ',')
				}
				if begin+i > 0 {
					names = append(names, ',')
				}
				line, names = s.transaction(line, names, at)
			}
			if _, err := to.Write(append(line, "]]\n"...)); err != nil {
				return err
			}
		}
		s.shown[session] = names
	}
	_, err := io.WriteString(to, round+"\n")
	return err
}

func min(a, b int) int {
	if a < b {
		return a
	}
	return b
}

// writeNames writes the names of a script with this SHA-256.
func (s *script) writeNames(to io.Writer, sum, form string, asksTime bool) error {
	text := []byte(fmt.Sprintf(`{"version":%d,"script":"%s","form":"%s","asks_time":%t,"timed":[],"has_pauses":false,"keys":[`,
		namesVersion, sum, form, asksTime))
	for i, key := range s.order {
		if i > 0 {
			text = append(text, ',')
		}
		text = strconv.AppendInt(append(text, '['), int64(i+1), 10)
		text = append(s.quoted(append(text, ','), s.names[key]), ']')
	}
	text = append(text, `],"absent":[],"transactions":[`...)
	for session, names := range s.shown {
		if session > 0 {
			text = append(text, ',')
		}
		if _, err := to.Write(append(text, '[')); err != nil {
			return err
		}
		if _, err := to.Write(names); err != nil {
			return err
		}
		text = append(text[:0], ']')
	}
	_, err := to.Write(append(text, "]}\n"...))
	return err
}

// writeTimes writes when the transactions ran: in nanoseconds if that is known of all, else as places in the file.
func (s *script) writeTimes(to io.Writer) error {
	isTold := true
	for _, session := range s.sessions {
		for _, at := range session {
			it := &s.attempts[at]
			isTold = isTold && it.isBeganTimed && (it.isEndedTimed || it.ended == never)
		}
	}
	unit := "places"
	if isTold {
		unit = "ns"
	}
	text := []byte(fmt.Sprintf("[\"times\",\"%s\"]\n", unit))
	for session, attempts := range s.sessions {
		for begin := 0; begin < len(attempts); begin += longest {
			text = append(text, fmt.Sprintf("[%d,%d,[", session, begin)...)
			for i, at := range attempts[begin:min(begin+longest, len(attempts))] {
				if i > 0 {
					text = append(text, ',')
				}
				it := &s.attempts[at]
				began, ended := int64(it.began), int64(it.ended)
				if isTold {
					began, ended = it.beganAt, it.endedAt
				}
				text = append(strconv.AppendInt(append(text, '['), began, 10), ',')
				if it.ended == never {
					text = append(text, "null]"...)
				} else {
					text = append(strconv.AppendInt(text, ended, 10), ']')
				}
			}
			text = append(text, "]]\n"...)
			if _, err := to.Write(text); err != nil {
				return err
			}
			text = text[:0]
		}
	}
	return nil
}

// Counts is what was done with a history.
type Counts struct {
	Transactions int `json:"transactions"`
	Sessions     int `json:"sessions"`
	Aborted      int `json:"aborted"`       // attempts that failed
	Unknown      int `json:"unknown"`       // attempts with an unknown outcome
	UnknownTaken int `json:"unknown_taken"` // those of them that somebody read from
	Unused       int `json:"unused"`        // reads of both
}

func (s *script) counts() Counts {
	found := Counts{Transactions: s.count, Sessions: len(s.sessions), Unused: s.unused}
	for at := range s.attempts {
		switch it := &s.attempts[at]; it.kind {
		case aborted:
			found.Aborted++
		case unknown:
			found.Unknown++
			if it.tookEffect {
				found.UnknownTaken++
			}
		}
	}
	return found
}

// create writes a file that only this user may read, and gives its SHA-256.
func create(path string, write func(io.Writer) error) (sum string, err error) {
	file, err := os.OpenFile(path, os.O_WRONLY|os.O_CREATE|os.O_TRUNC, 0o600)
	if err != nil {
		return "", err
	}
	digest := sha256.New()
	buffered := bufio.NewWriterSize(io.MultiWriter(file, digest), 1<<20)
	if err = write(buffered); err == nil {
		err = buffered.Flush()
	}
	if closed := file.Close(); err == nil {
		err = closed
	}
	return hex.EncodeToString(digest.Sum(nil)), err
}
