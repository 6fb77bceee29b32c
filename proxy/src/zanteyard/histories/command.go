package histories

import (
	"encoding/json"
	"flag"
	"fmt"
	"io"
)

// Statuses with which the command ends.
const (
	done     = 0
	failed   = 1 // a file can't be read or written
	misused  = 2
	leftOver = 3 // the history isn't plain: nothing was written
)

// Run is the command `zanteyard-proxy import [-strict] [-least N] FORM SCRIPT`. It reads a history from its input, writes SCRIPT
// with its names and times, and prints counts as a JSON object. `zanteyard import` and `zanteyard check` call it for
// large files. It returns its exit status.
func Run(args []string, in io.Reader, out, errors io.Writer) int {
	set := flag.NewFlagSet("zanteyard-proxy import", flag.ContinueOnError)
	set.SetOutput(errors)
	strict := set.Bool("strict", false, "the script will be checked for real-time order")
	least := set.Int("least", 0, "the smallest `number` of transactions: the Python package numbers fewer ones' keys otherwise")
	if set.Parse(args) != nil {
		return misused
	}
	form, script := set.Arg(0), set.Arg(1)
	lists := form == "jepsen-lists"
	if set.NArg() != 2 || !lists && form != "jepsen-registers" {
		fmt.Fprintln(errors, "usage: zanteyard-proxy import [-strict] [-least N] jepsen-lists|jepsen-registers SCRIPT < HISTORY")
		return misused
	}
	text, err := io.ReadAll(in)
	if err == nil {
		var counts Counts
		if counts, err = write(text, lists, *strict, *least, form, script); err == nil {
			err = json.NewEncoder(out).Encode(counts)
		}
	}
	if err == nil {
		return done
	}
	fmt.Fprintln(errors, err)
	if _, is := err.(notPlain); is {
		return leftOver
	}
	return failed
}

// write turns a plain history into a script. Nothing is written of one that isn't plain.
func write(text []byte, lists, asksTime bool, least int, form, path string) (Counts, error) {
	attempted, err := read(text, lists)
	if err != nil {
		return Counts{}, err
	}
	found, err := sourcesOf(attempted)
	if err != nil {
		return Counts{}, err
	}
	made, err := scriptOf(found, least)
	if err != nil {
		return Counts{}, err
	}
	sum, err := create(path, made.writeLines)
	if err != nil {
		return Counts{}, err
	}
	names := func(to io.Writer) error { return made.writeNames(to, sum, form, asksTime) }
	if _, err = create(path+".names", names); err != nil {
		return Counts{}, err
	}
	_, err = create(path+".times", made.writeTimes)
	return made.counts(), err
}
