package plan

import (
	"net/url"
	"strings"
)

// Comment reads a statement's comments in the form of sqlcommenter: /*key='value',key='value'*/, each key and value
// encoded as in a URL. Later pairs replace earlier ones. It returns nil if the statement has none.
func Comment(text string) map[string]string {
	var found map[string]string
	scan := scanner{text: text}
	for at := 0; at < len(text); {
		c := text[at]
		end := at + 1
		if (c == '-' || c == '/') && end < len(text) {
			end = comment(text, at)
			if end > at && c == '/' {
				for key, value := range pairs(strings.TrimSpace(text[at+2 : end-2])) {
					if found == nil {
						found = map[string]string{}
					}
					found[key] = value
				}
			}
			if end == at {
				end, _ = scan.next(at, c, classes[c])
			}
		} else if classes[c]&spaceByte == 0 {
			end, _ = scan.next(at, c, classes[c])
		}
		if end <= at {
			return found
		}
		at = end
	}
	return found
}

// pairs reads key='value' pairs, and returns nil if there is anything else.
func pairs(inside string) map[string]string {
	all := map[string]string{}
	for inside != "" {
		name, rest, ok := strings.Cut(inside, "='")
		if !ok {
			return nil
		}
		end := closing(rest)
		if end < 0 {
			return nil
		}
		key, err := url.PathUnescape(strings.TrimSpace(name))
		if err != nil || key == "" || strings.ContainsAny(key, "'*") {
			return nil
		}
		value, err := url.PathUnescape(strings.ReplaceAll(rest[:end], `\'`, "'"))
		if err != nil {
			return nil
		}
		all[key] = value
		inside = strings.TrimSpace(rest[end+1:])
		if inside != "" {
			if inside[0] != ',' {
				return nil
			}
			inside = strings.TrimSpace(inside[1:])
		}
	}
	return all
}

// closing finds the quote that ends a value.
func closing(text string) int {
	for i := 0; i < len(text); i++ {
		switch text[i] {
		case '\\':
			i++
		case '\'':
			return i
		}
	}
	return -1
}
