package session

import (
	"fmt"
	"testing"

	"github.com/jackc/pgproto3/v2"

	"zanteyard/record"
)

// TestLevels: the level that is told is the one that the server had, in each way to set it, or unknown.
func TestLevels(t *testing.T) {
	needServer(t)
	sql(t, fill+`CREATE OR REPLACE FUNCTION sets() RETURNS void LANGUAGE plpgsql AS
		'BEGIN SET default_transaction_isolation = ''serializable''; END'`)
	definitions_.Changed()
	const read, absent, begin, commit = "SELECT v FROM t WHERE id = 3", "SELECT v FROM t WHERE id = 1000", "BEGIN", "COMMIT"
	block := func(before ...string) []string {
		return append(before, begin, read, absent, "SHOW transaction_isolation", commit)
	}
	in := func(first ...string) []string {
		return append(first, read, absent, "SHOW transaction_isolation", commit)
	}
	const serializable = "SET SESSION CHARACTERISTICS AS TRANSACTION ISOLATION LEVEL SERIALIZABLE"
	for _, x := range []struct {
		name  string
		texts []string
		level record.Level // what it has to be told as, even if it isn't asked for
	}{
		{"nothing", block(), record.ReadCommitted},
		{"BEGIN", in("BEGIN ISOLATION LEVEL SERIALIZABLE"), record.Serializable},
		{"START TRANSACTION", in("START TRANSACTION READ WRITE, ISOLATION LEVEL REPEATABLE READ"), record.RepeatableRead},
		{"SET TRANSACTION", in(begin, "SET TRANSACTION ISOLATION LEVEL SERIALIZABLE"), record.Serializable},
		{"transaction_isolation", in(begin, "SET transaction_isolation TO 'repeatable read'"), record.RepeatableRead},
		{"transaction_isolation, LOCAL", in(begin, "SET LOCAL transaction_isolation = serializable"), record.Serializable},
		{"transaction_isolation, in a text that isn't read", in(begin, `SET transaction_isolation TO "serializable"`), record.UnknownLevel},
		{"set_config", in(begin, "SELECT set_config('transaction_isolation', 'serializable', true)"), record.UnknownLevel},
		{"SESSION CHARACTERISTICS", block(serializable), record.Serializable},
		{"default", block("SET default_transaction_isolation = 'SERIALIZABLE'"), record.Serializable},
		{"default, a word", block("SET SESSION default_transaction_isolation TO serializable;"), record.Serializable},
		{"default by set_config", block("SELECT set_config('default_transaction_isolation', 'serializable', false)"), record.UnknownLevel},
		{"default, LOCAL", block("SET LOCAL default_transaction_isolation = 'serializable'"), record.ReadCommitted},
		{"default, undone", block(begin, serializable, "ROLLBACK"), record.ReadCommitted},
		{"default, committed", block(begin, serializable, commit), record.Serializable},
		{"default in the transaction", in(begin, serializable), record.ReadCommitted},
		{"default, undone by a savepoint", block(begin, "SAVEPOINT a", serializable, "ROLLBACK TO a", commit), record.UnknownLevel},
		{"default, reset", block(serializable, "RESET default_transaction_isolation"), record.UnknownLevel},
		{"all reset", block(serializable, "RESET ALL"), record.UnknownLevel},
		{"all discarded", block(serializable, "DISCARD ALL"), record.UnknownLevel},
		{"by a function", block("SELECT sets()"), record.UnknownLevel},
		{"COMMIT AND CHAIN", in("BEGIN ISOLATION LEVEL REPEATABLE READ", read, "COMMIT AND CHAIN"), record.RepeatableRead},
		{"ROLLBACK AND CHAIN", in("BEGIN ISOLATION LEVEL SERIALIZABLE", read, "ROLLBACK AND CHAIN"), record.Serializable},
		{"one text", []string{serializable + "; BEGIN; " + read, absent, "SHOW transaction_isolation", commit}, record.Serializable},
	} {
		x := x
		for _, way := range []string{"queries", "extended", "one pipeline"} {
			t.Run(x.name+", "+way, func(t *testing.T) {
				p := through(t, "postgres", nil)
				p.warm(read, "BEGIN ISOLATION LEVEL SERIALIZABLE", absent, commit)
				isLevel := ""
				for at, text := range x.texts {
					var answers [][]byte
					switch {
					case way == "extended" && x.name != "one text":
						answers = p.do(extended(text, nil))
					case way == "one pipeline" && x.name != "one text":
						p.send(encoded(&pgproto3.Parse{Query: text}, &pgproto3.Bind{}, &pgproto3.Execute{}, &pgproto3.Sync{}))
						if at+1 < len(x.texts) {
							continue
						}
						for range x.texts {
							answers = append(answers, p.until('Z')...)
						}
					default:
						answers = p.query(text)
					}
					for _, m := range answers {
						for _, name := range []string{"serializable", "repeatable read", "read committed"} {
							if m[0] == 'D' && len(m) == 5+2+4+len(name) && string(m[11:]) == name {
								isLevel = name
							}
						}
					}
				}
				p.settle()
				its := p.sink.take()
				if len(its) == 0 && x.level == record.UnknownLevel {
					return // nothing was read that could be told
				} else if len(its) == 0 {
					t.Fatalf("nothing is told, left out: %q", p.sink.unseen)
				}
				it := its[len(its)-1]
				if isLevel == "" && it.Outcome == record.Aborted {
					return // the server refused to set it
				}
				if it.Level != record.UnknownLevel && it.Level != levelNamed(isLevel) {
					t.Errorf("told with the level %d, and it was %s", it.Level, isLevel)
				}
				if it.Level == record.UnknownLevel && x.level != record.UnknownLevel {
					t.Errorf("the level isn't told, and it was %s", isLevel)
				}
				if way == "queries" && levelNamed(isLevel) != record.ReadCommitted && x.level != record.UnknownLevel &&
					fmt.Sprint(it.Absent) == "[]" {
					t.Errorf("the absent row isn't told, at %s: left out %q", isLevel, p.sink.unseen)
				}
			})
		}
	}
}

// TestLevelOfRole: a level that comes with the connection is asked for before it is told.
func TestLevelOfRole(t *testing.T) {
	needServer(t)
	sql(t, fill+"ALTER ROLE limited SET default_transaction_isolation = 'repeatable read'")
	defer sql(t, "ALTER ROLE limited RESET default_transaction_isolation")
	p := through(t, "limited", func(o *Options) { o.Shared = nil })
	const read = "SELECT a, b, v FROM u WHERE a = 1 AND b = 'b1'"
	for i := 0; i < 3; i++ {
		p.query(read)
		p.settle()
	}
	told := map[record.Level]int{}
	for _, it := range p.sink.take() {
		told[it.Level]++
	}
	if told[record.RepeatableRead] == 0 || told[record.ReadCommitted]+told[record.Serializable] > 0 {
		t.Errorf("told by level: %v", told)
	}
}
