package histories

import (
	"bytes"
	"os"
	"path/filepath"
	"strings"
	"testing"
)

const (
	begun   = `{:type :invoke, :f :txn, :value [[:append 1 1]], :process 0, :time 1, :index 0}` + "\n"
	ended   = `{:type :ok, :f :txn, :value [[:append 1 1]], :process 0, :time 2, :index 1}` + "\n"
	asked   = `{:type :invoke, :f :txn, :value [[:r 1 nil] [:r 2 nil]], :process 1, :time 3, :index 2}` + "\n"
	found   = `{:type :ok, :f :txn, :value [[:r 1 [1]] [:r 2 []]], :process 1, :time 4, :index 3}` + "\n"
	offered = `["open",2,2]` + "\n" +
		`["offer",0,0,[[[[1,"init"]],[1]]]]` + "\n" +
		`["offer",1,0,[[[[1,0,0],[2,"init"]],[]]]]` + "\n" +
		`["round",4096,0,1,"guided"]` + "\n"
	times = `["times","ns"]` + "\n" + "[0,0,[[1,2]]]\n[1,0,[[3,4]]]\n"
	texts = `,"form":"jepsen-lists","asks_time":false,"timed":[],"has_pauses":false,"keys":[[1,"1"],[2,"2"]],"absent":[],` +
		`"transactions":[[["line 2","committed",[[[1,"init"],"appended 1 after that, as line 4 read"],[[1],"[:append 1 1]"]],` +
		`"process 0, index 1"]],[["line 4","committed",[[[1,0,0],"[:r 1 [1]]"],[[2,"init"],"[:r 2 []]"]],"process 1, index 3"]]]}` + "\n"
)

func ran(t *testing.T, history string) (status int, out string, files map[string]string) {
	t.Helper()
	folder := t.TempDir()
	var said, errors bytes.Buffer
	status = Run([]string{"jepsen-lists", filepath.Join(folder, "script")}, strings.NewReader(history), &said, &errors)
	entries, err := os.ReadDir(folder)
	if err != nil {
		t.Fatal(err)
	}
	files = map[string]string{}
	for _, entry := range entries {
		text, err := os.ReadFile(filepath.Join(folder, entry.Name()))
		if err != nil {
			t.Fatal(err)
		}
		files[entry.Name()] = string(text)
	}
	return status, said.String(), files
}

func TestPlainHistory(t *testing.T) {
	status, out, files := ran(t, begun+ended+asked+found)
	if status != done || files["script"] != offered || files["script.times"] != times {
		t.Errorf("status %d\n%s%s", status, files["script"], files["script.times"])
	}
	if names := files["script.names"]; !strings.HasSuffix(names, texts) {
		t.Errorf("names:\n%s", names)
	}
	const counts = `{"transactions":2,"sessions":2,"aborted":0,"unknown":0,"unknown_taken":0,"unused":0}` + "\n"
	if out != counts {
		t.Errorf("counts: %s", out)
	}
}

// What isn't plain is left to another reader, and no file is begun.
func TestLeftOver(t *testing.T) {
	for _, history := range []string{
		"",
		begun + ended + asked,              // the first one's list isn't read: its place is unknown, but that is plain
		begun + ended + asked + found[:20], // cut off
		begun + ended + found,              // an end without a begin
		begun + begun,                      // two at a time
		strings.ToUpper(begun),             // another word
		strings.Replace(begun+ended+asked+found, "[1]", "[7]", 1),       // written by nobody
		strings.Replace(begun+ended, ":ok", ":fail", 1) + asked + found, // written by what failed
	} {
		status, _, files := ran(t, history)
		isPlain := history == begun+ended+asked
		if isPlain != (status == done) || !isPlain && (status != leftOver || len(files) > 0) {
			t.Errorf("status %d, %d files of\n%s", status, len(files), history)
		}
	}
	if status := Run([]string{"polysi", "x"}, strings.NewReader(""), &bytes.Buffer{}, &bytes.Buffer{}); status != misused {
		t.Errorf("status %d of another form", status)
	}
	if status := Run([]string{"jepsen-lists", "/nowhere/x"}, strings.NewReader(begun+ended), &bytes.Buffer{}, &bytes.Buffer{}); status != failed {
		t.Errorf("status %d of a folder that isn't there", status)
	}
}
