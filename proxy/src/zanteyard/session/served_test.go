package session

import (
	"strings"
	"testing"

	"github.com/jackc/pgproto3/v2"
)

// TestLongTexts: a loop plans no long text itself, for which all its clients would wait.
func TestLongTexts(t *testing.T) {
	long := strings.Repeat("x", mostPlanned)
	for name, one := range map[string]struct {
		all  []pgproto3.FrontendMessage
		want bool
	}{
		"short ones":        {[]pgproto3.FrontendMessage{&pgproto3.Query{String: "SELECT 1"}, &pgproto3.Sync{}}, false},
		"a Query":           {[]pgproto3.FrontendMessage{&pgproto3.Query{String: long}}, true},
		"a Parse behind":    {[]pgproto3.FrontendMessage{&pgproto3.Sync{}, &pgproto3.Parse{Query: long}, &pgproto3.Sync{}}, true},
		"a long parameter":  {[]pgproto3.FrontendMessage{&pgproto3.Bind{Parameters: [][]byte{[]byte(long)}}, &pgproto3.Sync{}}, false},
		"one behind that":   {[]pgproto3.FrontendMessage{&pgproto3.Bind{Parameters: [][]byte{[]byte(long)}}, &pgproto3.Query{String: long}}, true},
		"rows of a COPY":    {[]pgproto3.FrontendMessage{&pgproto3.CopyData{Data: []byte(long)}}, false},
		"many short Parses": {manyParses(300), false},
	} {
		var batch []byte
		for _, m := range one.all {
			batch = m.Encode(batch)
		}
		if got := hasLong(batch); got != one.want {
			t.Errorf("%s: %v", name, got)
		}
	}
}

func manyParses(n int) (all []pgproto3.FrontendMessage) {
	for i := 0; i < n; i++ {
		all = append(all, &pgproto3.Parse{Query: "SELECT 1"})
	}
	return all
}
