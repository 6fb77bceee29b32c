package main

import (
	"fmt"
	"io"
	"strings"
	"unicode"
)

// shown returns a text on one line in which each character is visible: line breaks, terminal codes, marks of direction
// and the like, which texts from servers, clients and file names can contain, become escapes.
func shown(text string) string {
	var out strings.Builder
	for i, r := range text {
		switch {
		case r == unicode.ReplacementChar && !strings.HasPrefix(text[i:], string(unicode.ReplacementChar)):
			fmt.Fprintf(&out, `\x%02x`, text[i]) // a byte that isn't UTF-8
		case unicode.IsPrint(r):
			out.WriteRune(r)
		case unicode.Is(unicode.Zs, r):
			out.WriteByte(' ')
		case r < 1<<8:
			fmt.Fprintf(&out, `\x%02x`, r)
		case r < 1<<16:
			fmt.Fprintf(&out, `\u%04x`, r)
		default:
			fmt.Fprintf(&out, `\U%08x`, r)
		}
	}
	return out.String()
}

// shownLog writes each text as one line, shown. A log writes each record in one call.
type shownLog struct{ to io.Writer }

func (l shownLog) Write(record []byte) (int, error) {
	if _, err := io.WriteString(l.to, shown(strings.TrimSuffix(string(record), "\n"))+"\n"); err != nil {
		return 0, err
	}
	return len(record), nil
}
