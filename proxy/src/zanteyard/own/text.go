package own

import (
	"fmt"
	"strconv"
	"strings"
)

// Text is SQL that the audit sends by itself. The constructors below are the only way to make one, and their first
// argument has to be a constant: a test finds and parses all of them, and refuses a name that isn't qualified.
type Text struct{ sql string }

func (t Text) String() string { return t.sql }

// SQL is for the audit's own connections. Each %s of the form stands for a part.
func SQL(form string, parts ...Part) Text { return fill(form, parts) }

// Guest is for a client's connection, whose search path is the client's: operators have to be qualified too.
func Guest(form string, parts ...Part) Text { return fill(form, parts) }

// Command is for a replication connection's own commands, which aren't SQL.
func Command(form string, parts ...Part) Text { return fill(form, parts) }

// Planned is a text of package plan, whose own test parses what it makes.
func Planned(text string) Text { return Text{text} }

func fill(form string, parts []Part) Text {
	if len(parts) == 0 {
		return Text{form}
	}
	texts := make([]any, len(parts))
	for i, part := range parts {
		texts[i] = part.text()
	}
	return Text{fmt.Sprintf(form, texts...)}
}

// Part is what a text contains besides its constant form.
type Part interface{ text() string }

// Name is an identifier: its parts are quoted, and joined with dots.
type Name []string

func (n Name) String() string { return n.text() }

func (n Name) text() string {
	all := make([]string, len(n))
	for i, part := range n {
		all[i] = `"` + strings.ReplaceAll(part, `"`, `""`) + `"`
	}
	return strings.Join(all, ".")
}

// Literal is a string that means the same with any setting of standard_conforming_strings.
type Literal string

func (l Literal) text() string {
	text := strings.ReplaceAll(string(l), "'", "''")
	if strings.Contains(text, `\`) {
		return " E'" + strings.ReplaceAll(text, `\`, `\\`) + "'"
	}
	return "'" + text + "'"
}

// Literals is a list of strings, for an ARRAY.
type Literals []string

func (l Literals) text() string {
	all := make([]string, len(l))
	for i, one := range l {
		all[i] = Literal(one).text()
	}
	return strings.Join(all, ",")
}

// Number is a whole number.
type Number uint64

func (n Number) text() string { return strconv.FormatUint(uint64(n), 10) }

// Word is one of a command's own words, such as a plugin's name or a place in the log.
type Word string

func (w Word) text() string {
	for _, c := range w {
		if c != '_' && c != '/' && c != ' ' && (c < '0' || c > '9') && (c < 'a' || c > 'z') && (c < 'A' || c > 'Z') {
			return Name{string(w)}.text()
		}
	}
	return string(w)
}
