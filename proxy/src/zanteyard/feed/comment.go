package feed

import (
	"net/url"
	"strconv"
	"strings"
)

// comment reads a statement's last comment in the form of sqlcommenter, /*key='value',key='value'*/, with
// percent-encoded keys and values. It returns nil if there is none.
func comment(text string) map[string]string {
	for end := len(text); ; {
		end = strings.LastIndex(text[:end], "*/")
		if end < 0 {
			return nil
		}
		begin := strings.LastIndex(text[:end], "/*")
		if begin < 0 {
			return nil
		}
		if tags := tagsOf(text[begin+2 : end]); len(tags) > 0 {
			return tags
		}
		end = begin
	}
}

func tagsOf(text string) map[string]string {
	tags := map[string]string{}
	for rest := strings.TrimSpace(text); rest != ""; {
		key, after, found := strings.Cut(rest, "='")
		if !found {
			return nil
		}
		value, more, found := untilQuote(after)
		if !found {
			return nil
		}
		name, err := url.PathUnescape(strings.TrimSpace(key))
		if err != nil || name == "" || strings.ContainsAny(name, " '\"\n") {
			return nil
		}
		plain, err := url.PathUnescape(value)
		if err != nil {
			return nil
		}
		tags[name] = plain
		more = strings.TrimSpace(more)
		if more != "" && !strings.HasPrefix(more, ",") {
			return nil
		}
		rest = strings.TrimSpace(strings.TrimPrefix(more, ","))
	}
	return tags
}

// untilQuote splits off a value up to its quote; a quote inside it is preceded by a backslash.
func untilQuote(text string) (value, rest string, found bool) {
	var to strings.Builder
	for i := 0; i < len(text); i++ {
		switch {
		case text[i] == '\'':
			return to.String(), text[i+1:], true
		case text[i] == '\\' && i+1 < len(text):
			i++
			to.WriteByte(text[i])
		default:
			to.WriteByte(text[i])
		}
	}
	return "", "", false
}

func wholeNumber(text string) (uint64, bool) {
	number, err := strconv.ParseUint(text, 10, 31)
	return number, err == nil
}

// Origin returns a comment in sqlcommenter's form with the file and line that a statement's own comment names, or "" if
// it names none.
func Origin(text string) string {
	var its []string
	tags := comment(text)
	for _, key := range []string{"file", "line", "lineno"} {
		if value, is := tags[key]; is {
			its = append(its, key+"='"+strings.ReplaceAll(url.PathEscape(value), "'", "%27")+"'")
		}
	}
	if its == nil {
		return ""
	}
	return " /*" + strings.Join(its, ",") + "*/"
}
