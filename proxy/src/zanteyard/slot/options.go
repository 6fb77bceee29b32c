// Package slot reads a replication slot: which transactions were committed, in order, and which rows each of them
// wrote, by primary key. Its second connection (Control) answers the joiner's questions to the server.
package slot

import (
	"errors"
	"strconv"
	"strings"

	"zanteyard/catalog"
	"zanteyard/record"
)

// Plugin is a server's output plugin, which writes what a slot reports.
type Plugin string

// The two that can be read. Wal2json reports where a commit record begins, by which its subtransactions can be looked
// up; test_decoding is part of PostgreSQL.
const (
	Wal2json     Plugin = "wal2json"
	TestDecoding Plugin = "test_decoding"
)

// Options say how to make and read a slot.
type Options struct {
	// Source is a connection string for package address. The role needs REPLICATION.
	Source string
	// Settings are set on both connections, so that Canonical understands the texts of values.
	Settings map[string]string
	// Name is the slot's name. A slot that isn't permanent ends with its connection, and then keeps nothing on the
	// server's disk.
	Name      string
	Permanent bool
	// Plugin is the one to use; if empty, wal2json if it is installed, otherwise test_decoding.
	Plugin Plugin
	// Asked selects the tables to audit: changes of others are only counted, not reported.
	Asked catalog.Filter
	// Values reports whether the values of a table's rows are wanted: somebody asks for them by a condition. It is given
	// the topmost partitioned table of a partition. nil: no values are ever wanted.
	Values func(record.Relation) bool
	// Marked is called with the number of the mark (package own) that the slot's connection holds, before it waits for
	// anything. It may be nil.
	Marked func(mark int64)
	// Remade is called when operators, casts, schemas or roles were seen to have been made, changed or dropped, before a Place
	// says so. It may be nil.
	Remade func()
	// Canonical returns the canonical text of a key column's value, as the slot writes it.
	Canonical func(typeOID uint32, text string) (string, bool)
	// Show converts a canonical text to one for people.
	Show func(typeOID uint32, canonical string) string
	// Redacts leaves clients' constants out of texts for people.
	Redacts bool
}

// Receiver takes what the slot reports, in order. An error ends the reading.
type Receiver interface {
	Commit(record.Commit) error
	// Advance says that every commit before this place in the log has been reported.
	Advance(place uint64) error
}

// Errors of Open and Read.
var (
	ErrNoPlugin = errors.New("slot: neither wal2json nor test_decoding is installed on the server")
	ErrBlocked  = errors.New("slot: the slot waits for a transaction that was already open")
	ErrEnded    = errors.New("slot: the server ended the replication")
	ErrBehind   = errors.New("slot: it fell so far behind that the server was about to drop its WAL")
)

// parsePlace parses a place in the log, as PostgreSQL writes it.
func parsePlace(text string) (uint64, bool) {
	high, low, found := strings.Cut(text, "/")
	if !found {
		return 0, false
	}
	a, err := strconv.ParseUint(high, 16, 32)
	if err != nil {
		return 0, false
	}
	b, err := strconv.ParseUint(low, 16, 32)
	return a<<32 | b, err == nil
}

func placeText(place uint64) string {
	return strings.ToUpper(strconv.FormatUint(place>>32, 16) + "/" + strconv.FormatUint(place&(1<<32-1), 16))
}
