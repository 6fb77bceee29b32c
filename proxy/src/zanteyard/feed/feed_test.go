package feed

import (
	"bytes"
	"encoding/json"
	"errors"
	"fmt"
	"reflect"
	"strings"
	"testing"
	"time"

	"zanteyard/join"
	"zanteyard/record"
)

// obeyed records commands as text.
type obeyed struct{ its []string }

func (o *obeyed) Cut(marks []uint64) { o.its = append(o.its, fmt.Sprint("cut ", marks)) }
func (o *obeyed) Describe(id int64, t [][2]uint64) {
	o.its = append(o.its, fmt.Sprint("describe ", id, t))
}
func (o *obeyed) Round()           { o.its = append(o.its, "round") }
func (o *obeyed) Restart()         { o.its = append(o.its, "restart") }
func (o *obeyed) Stop()            { o.its = append(o.its, "stop") }
func (o *obeyed) Warn(text string) { o.its = append(o.its, "warn "+text) }

func TestCommands(t *testing.T) {
	var o obeyed
	err := Read(strings.NewReader(`{"command":"cut","marks":[1,2]}
{"command":"describe","id":7,"transactions":[[3,17],[0,0]]}
{"command":"round"}

{"command":"restart"}
{"command":"dance"}
nothing
{"command":"cut","marks":[`+strings.Repeat("1,", mostOfCommand)+`1]}
{"command":"stop"}`), &o)
	if err != nil {
		t.Error(err)
	}
	want := []string{"cut [1 2]", "describe 7 [[3 17] [0 0]]", "round", "restart", `warn unknown command "dance"`, "", "warn a command is too long", "stop", "stop"}
	if len(o.its) != len(want) {
		t.Fatalf("%q", o.its)
	}
	for i := range want {
		if want[i] == "" && strings.HasPrefix(o.its[i], "warn can't read a command") {
			continue
		}
		if o.its[i] != want[i] {
			t.Errorf("%q, and not %q", o.its[i], want[i])
		}
	}
}

func TestComments(t *testing.T) {
	for text, want := range map[string]map[string]string{
		"SELECT 1": nil,
		"SELECT 1 /*file='shop%2Forders.py',line='41'*/":           {"file": "shop/orders.py", "line": "41"},
		"SELECT 1 /* a remark */":                                  nil,
		"/*a='1'*/ SELECT 1 /* b */":                               {"a": "1"},
		`SELECT 1 /*a='it\'s%20so', b='x'*/`:                       {"a": "it's so", "b": "x"},
		"SELECT '/*a=''1''*/'":                                     nil,
		"SELECT 1 /*a='1' b='2'*/":                                 nil,
		"SELECT 1 /*a='%zz'*/":                                     nil,
		"SELECT */ 1 /*":                                           nil,
		"SELECT 1 /*a='1'*/ /*route='%2Fbuy',controller='index'*/": {"route": "/buy", "controller": "index"},
	} {
		if got := comment(text); len(got) != len(want) || len(want) > 0 && !reflect.DeepEqual(got, want) {
			t.Errorf("%s: %v, and not %v", text, got, want)
		}
	}
}

func TestOrigin(t *testing.T) {
	for text, want := range map[string]string{
		"SELECT 1 /*file='it%27s%2A%2F.py',line='41',route='x'*/": " /*file='it%27s%2A%2F.py',line='41'*/",
		"SELECT 1 /*route='x'*/":                                  "",
		"SELECT 1 /*lineno='7'*/":                                 " /*lineno='7'*/",
	} {
		if got := Origin(text); got != want {
			t.Errorf("%s: %s, and not %s", text, got, want)
		}
	}
}

func TestEvents(t *testing.T) {
	at := time.Unix(1764220800, 125_000_000)
	for _, one := range []struct {
		it   join.Event
		want string
	}{
		{join.Meeting{At: at, Fences: 12, Took: 8400 * time.Microsecond}, `{"event":"meeting","at":1764220800.125,"fences":12,"milliseconds":8.4}`},
		{join.Warning{At: at, Text: "a < b"}, `{"event":"warning","at":1764220800.125,"text":"a < b"}`},
		{join.Stopped{At: at}, `{"event":"stopped","at":1764220800.125}`},
		{join.Restarted{At: at}, `{"event":"restarted","at":1764220800.125}`},
		{join.Transactions{At: at, ID: 7, Given: []join.Description{{Session: 1, Number: 2}}},
			`{"event":"transactions","at":1764220800.125,"id":7,"transactions":[{"known":false,"number":2,"session":1}]}`},
	} {
		got, err := encode(one.it)
		if err != nil || string(got) != one.want {
			t.Errorf("%s (%v), and not %s", got, err, one.want)
		}
	}
}

func TestDescription(t *testing.T) {
	text, err := encode(join.Transactions{Given: []join.Description{{
		Session: 3, Number: 17, Known: true, From: record.Connection{Number: 12, ApplicationName: "shop", Address: "10.0.0.7:51234"},
		Its: record.Transaction{Level: record.Serializable, Number: 1<<32 + 734, Statements: []record.Statement{
			{Text: "SELECT 1 /*file='a.py',line='41',route='x'*/", Unseen: []record.Unseen{{Shape: "s", Reason: "an aggregate"}}},
			{Text: "SELECT $1", Parameters: []string{"5"}},
		}},
		Reads:  []join.KeyRead{{Key: 5, Initial: true, By: 2}, {Key: 7, Session: 2, Number: 11}},
		Writes: []uint64{5}, Rows: []join.Row{{Key: 5, Table: "public.accounts", Row: "5, checking", Columns: []string{"id", "kind"}}},
	}}})
	if err != nil {
		t.Fatal(err)
	}
	var got struct {
		Transactions []map[string]any
	}
	if err := json.Unmarshal(text, &got); err != nil {
		t.Fatal(err)
	}
	want := `map[address:10.0.0.7:51234 application_name:shop began:0 connection:12 database: ended:0 fence:false ` +
		`keys:[map[columns:[id kind] key:5 row:5, checking table:public.accounts]] known:true level:serializable number:17 proxy: read_by:[1 <nil>] reads:[[5 init] [7 2 11]] ` +
		`rolled_back:false session:3 statements:[map[at:0 comment:map[route:x] file:a.py line:41 parameters:<nil> ` +
		`text:SELECT 1 /*file='a.py',line='41',route='x'*/ unseen:[an aggregate]] map[at:0 parameters:[5] text:SELECT $1]] ` +
		`statements_dropped:0 user: writes:[5] xid:734]`
	if len(got.Transactions) != 1 || fmt.Sprint(got.Transactions[0]) != want {
		t.Errorf("%v\nand not\n%s", got.Transactions, want)
	}
}

// failing takes some bytes, and then no more.
type failing struct{ left int }

func (f *failing) Write(text []byte) (int, error) {
	if f.left -= len(text); f.left < 0 {
		return 0, errors.New("full")
	}
	return len(text), nil
}

func TestWriter(t *testing.T) {
	var to bytes.Buffer
	w := NewWriter(&to)
	done := make(chan error)
	go func() { done <- w.Run() }()
	w.Line([]byte(`["open",8,131072,3]`))
	w.Event(join.Stopped{At: time.Unix(1, 0)})
	w.Close()
	if err := <-done; err != nil || to.String() != "[\"open\",8,131072,3]\n{\"event\":\"stopped\",\"at\":1}\n" {
		t.Errorf("%q (%v)", to.String(), err)
	}
	w = NewWriter(&failing{left: 10})
	go func() { done <- w.Run() }()
	w.Line(make([]byte, 100))
	if err := <-done; err == nil {
		t.Error("a stream that fails isn't told")
	}
	w.Line(make([]byte, 100))
	if w.waiting() != 0 {
		t.Error("lines are held for a stream that has failed")
	}
}
