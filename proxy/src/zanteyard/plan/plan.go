// Package plan determines what the proxy does with a statement: which hidden columns it adds, and what it can't see. A
// plan inserts text next to some tokens of a statement and leaves every other byte unchanged. It depends on the
// statement's text without constants and comments, and on the catalog; it isn't used on a connection before it has been
// tried there (Trial).
//
// Texts are read with standard_conforming_strings on, in an encoding that uses ASCII's bytes for nothing else. A session
// for which that isn't so must send its statements unchanged, and one whose encoding isn't the server's those with names
// beyond ASCII (Beyond).
package plan

import (
	"sync/atomic"

	"zanteyard/keys"
	"zanteyard/record"
)

// Kind says what a statement does to its transaction and its prepared statements.
type Kind uint8

// The kinds of statements that a session distinguishes.
const (
	Other Kind = iota
	Select
	Write // INSERT, UPDATE, DELETE, MERGE, including those inside WITH
	Begin // BEGIN, START TRANSACTION
	Commit
	Rollback
	PrepareTransaction
	Savepoint
	RollbackTo
	Release
	Set        // SET, RESET, set_config of something that names and rights depend on. It may be undone at the end of the transaction
	DiscardAll // DISCARD ALL, DEALLOCATE ALL: the proxy's own statements are gone too
	Definition // DDL and anything else that may change what names mean
	// TemporaryDefinition is DDL that changes temporary objects alone: what names mean on its own connection.
	TemporaryDefinition
	Declare // DECLARE CURSOR: Inner is the plan of its query
	Fetch   // FETCH, MOVE: Name is the cursor's
	CloseCursor
	Prepare // SQL's PREPARE: Inner is the plan of its statement
	Execute // SQL's EXECUTE: Name is the statement's
	Deallocate
	Copy
	Several // more than one statement in one message: Parts are their plans, in order
	Empty
)

// Parts are what decides, besides the definitions, what names mean on a connection and what its transactions may do.
type Parts uint8

// The parts.
const (
	User      Parts = 1 << iota // and its role
	Settings                    // the search path and row_security
	Level                       // that transactions begin at
	Temporary                   // objects
)

// Source is a table for whose rows' versions a plan asks: a group of hidden columns, which are xmin, tableoid and then
// the key's columns in the order of the primary key. They come as text or bytea (package keys), so that a prepared
// statement survives a change of their types.
type Source struct {
	Relation record.Relation
	Identity record.Identity // of the table's key
	Converts bool            // texts come in the server's encoding, as bytea
	Types    []uint32        // types of the key's columns in the table, as package catalog resolves them
	// More are the types of columns besides the key, on whose values it depends what the statement asks other tables for. They
	// come behind the key.
	More []uint32
	Name string // by which the statement knows the table, as condition.Side has it
	// Nullable means that an outer join may leave the whole group NULL: then no row was read.
	Nullable bool
	// Listed means that the group is one column: a list of the table's rows that an aggregate was made of.
	Listed bool
	// Looked means that it is a list of the one row that was looked up, and a column of the type of the table's rows.
	Looked bool
	// RowType is the type of the relation's rows, which a list has for each of its rows, and else the group's last column; 0
	// if they don't have it, since the result's description shows the relation (IsOver).
	RowType uint32
}

// Hidden returns the number of columns in the group.
func (s Source) Hidden() int {
	switch {
	case s.Looked:
		return 2
	case s.Listed:
		return 1
	case s.RowType != 0:
		return 3 + len(s.Types) + len(s.More)
	}
	return 2 + len(s.Types) + len(s.More)
}

// Plan is what is done with all statements of one normalized text. It never changes after it is made.
type Plan struct {
	Kind Kind
	// Shape is the statement without constants and comments, shortened, for counts that people read.
	Shape string
	// Generation is the catalog's, as counted by Cache.Generation: a plan of an older one must not be used any more.
	Generation uint64
	// Sources are the groups of hidden columns, in order, after the statement's own columns and those that TellsNumber and
	// TellsVersion add. Empty if no rows are seen.
	Sources []Source
	// AddsReturning means that the statement has no RETURNING clause: everything that it returns is the proxy's.
	AddsReturning bool
	// TellsNumber means that the first hidden column is pg_current_xact_id_if_assigned().
	TellsNumber bool
	// TellsVersion means that the next hidden column is the xmin of the row that the statement wrote: the number of the
	// transaction or of a subtransaction.
	TellsVersion bool
	// Counts means that the first hidden column is how many rows an aggregate was made of. Some of Sources list them.
	Counts bool
	// Copied means that the only hidden column of the first row lists the rows of all Sources that the statement was made of;
	// it is NULL in the others.
	Copied bool
	// MayWriteUnseen means that the statement may write without returning a number: a function, COPY, MERGE, a view, an
	// UPDATE of any number of rows.
	MayWriteUnseen bool
	// MayCommit means that the statement may end the transaction that it runs in, and begin others, unless that is a block:
	// a procedure, DO, VACUUM and the like.
	MayCommit bool
	// MayLevel means that transactions may begin at another level afterwards, because of a function.
	MayLevel bool
	// ChangesNames means, for any kind, that names and rights may have another meaning afterwards.
	ChangesNames bool
	// Settings means that the statement changes names and rights by settings alone, which a connection's signature has:
	// SET, RESET, set_config.
	Settings bool
	// Calls means that the statement calls a function or an operator that isn't the server's own, and may do more than
	// compute a value.
	Calls bool
	// Volatile means that a function or an operator in the statement may do more than compute a value from the snapshot, which
	// may outlast a rollback: take a number of a sequence or a lock of the session.
	Volatile bool
	// Foreign means that the statement may run what others have made, which may run any statement: functions that aren't
	// the server's own or written in C, also those of triggers, views, policies, defaults and the like. FETCH and EXECUTE
	// may, if what they run does.
	Foreign bool
	// Resets are the parts of a connection's state that the statement sets to what they were when the connection began, and
	// all that it does to names and rights.
	Resets Parts
	// Beyond means that names in the statement, or in what is added to it, have characters beyond ASCII. They are in the
	// server's encoding.
	Beyond bool
	// Unknown means that the text couldn't be parsed, or was too long: it may be any number of statements of any kind.
	Unknown bool
	// Unseen are the reasons why reads or writes of the statement are left out.
	Unseen []record.Unseen
	// Asked means that the statement asks for one row of Sources[0] by its whole primary key, which AskedKey returns.
	Asked bool
	// Widens means that the hidden columns make rows wider that are sorted, joined or grouped.
	Widens bool
	// Looks means that an index may have all that the statement asks of a table, which the hidden columns have to look up.
	Looks bool
	// Ordered means that the answer may depend on how the server reads rows, if hidden columns list them or make it look
	// into tables: then its plans with the hidden columns and without them must have the same form.
	Ordered bool
	// ByKey means that a statement asks for the rows of one table by its whole primary key, whatever else it asks.
	ByKey bool
	// NotFollowed says why what a statement asks tables for by a condition isn't followed; "" if it is, or asks for nothing,
	// or no condition is followed at all.
	NotFollowed string
	// Level is what BEGIN or SET TRANSACTION sets; UnknownLevel if they leave it unchanged.
	Level record.Level
	// SetsLevel means that the transaction's level is set by name, to a value in the text.
	SetsLevel bool
	// SetsDefault means that the level is set that later transactions begin at: to DefaultLevel or, if that is
	// UnknownLevel, to a value in the text.
	SetsDefault  bool
	DefaultLevel record.Level
	// TakesSnapshot means SET TRANSACTION SNAPSHOT: from then on the transaction reads from an older snapshot.
	TakesSnapshot bool
	Holds         bool   // DECLARE: the cursor is WITH HOLD
	Chain         bool   // COMMIT or ROLLBACK begins the next transaction at once
	All           bool   // CLOSE ALL
	Name          string // of a cursor, prepared statement or savepoint, for kinds that have one
	Inner         *Plan
	// Parts are the plans of several statements, in the text for which the plan was made. For another text, Tokens.Parts
	// has them.
	Parts []*Plan

	shared     *Plan       // the one that statements with other cursors' names have, if it is another one
	insertions []insertion // in the text's order
	asked      []askedPart
	follow     *follow
	positions  []position
	misplaced  *Plan // the same without an insertion, for texts whose positions forbid it
	custom     *Plan // the same for texts in which set_config sets nothing but settings that names don't depend on
	configs    []int // the tokens of their names
	apart      bool  // its text's lists mustn't be collapsed: another key has its plan
	labels     []int // the tokens of constants that get the type of their columns
	sample     string
	inserted   []Inserted    // into it
	looksUp    bool          // some of Sources are looked up by their keys
	plain      span          // the part of it that is the statement as it is, if Copied
	merged     []int         // then: how many of Sources each part has that is asked for once more
	rests      *atomic.Int64 // until when it isn't used, in nanoseconds; nil if it never rests
	relations  []relation
	target     uint32       // the relation whose row's version TellsVersion has
	ranges     []tokenRange // of Parts
}

// adds reports whether the plan adds hidden columns to a statement's text.
func (p *Plan) adds() bool { return len(p.insertions) > 0 }

// added returns all that it adds.
func (p *Plan) added() string {
	all := ""
	for _, one := range p.insertions {
		all += one.text
		for _, its := range one.copies {
			all += its.tail
		}
	}
	return all
}

type tokenRange struct{ from, to int }

// insertion is text that is inserted into a statement, before or after a token. Copies of parts of the statement may follow.
type insertion struct {
	text   string
	token  int
	behind bool
	alone  bool // only if the token stands for one constant, and not for several of a list
	copies []copied
}

// copied is a part of a statement that is copied, and what follows it.
type copied struct {
	tokens tokenRange
	tail   string
}

// position is a constant that means a column by its position, as in ORDER BY 1: it must not come to mean a hidden one.
type position struct {
	token, columns int
}

// relation is a table that a plan names, as it has to be on a connection where the plan is used.
type relation struct {
	name    string // as in the statement, quoted
	oid     uint32
	columns []int16 // of the key, by number; all of them and the system columns have to be readable
	whole   bool    // all columns have to be
	named   bool    // the name alone matters
}

// Hidden returns the number of hidden columns after those of the statement.
func (p *Plan) Hidden() int {
	if p.Copied {
		return 1
	}
	hidden := 0
	if p.TellsNumber {
		hidden++
	}
	if p.TellsVersion {
		hidden++
	}
	if p.Counts {
		hidden++
	}
	for _, s := range p.Sources {
		hidden += s.Hidden()
	}
	return hidden
}

// HiddenTypes returns the types of the hidden columns, by object identifier, as a description of the result has them.
func (p *Plan) HiddenTypes() []uint32 {
	const xid8, xid, oid, int8, bytea = 5069, 28, 26, 20, 17
	if p.Copied {
		return []uint32{bytea}
	}
	var types []uint32
	if p.TellsNumber {
		types = append(types, xid8)
	}
	if p.TellsVersion {
		types = append(types, xid)
	}
	if p.Counts {
		types = append(types, int8)
	}
	for _, s := range p.Sources {
		if s.Listed {
			if types = append(types, bytea); s.Looked {
				types = append(types, s.RowType)
			}
			continue
		}
		types = append(types, xid, oid)
		for _, typeOID := range s.Types {
			types = append(types, keys.ExpressionType(typeOID, s.Converts))
		}
		for _, typeOID := range s.More {
			types = append(types, keys.ExpressionType(typeOID, s.Converts))
		}
		if s.RowType != 0 {
			types = append(types, oid)
		}
	}
	return types
}

// Converts reports whether all keys' texts come in the server's encoding, or none of them is a text.
func (p *Plan) Converts() bool {
	for _, s := range p.Sources {
		if !s.Converts && s.hasText() {
			return false
		}
	}
	return true
}

func (s Source) hasText() bool {
	for _, typeOID := range append(s.Types[:len(s.Types):len(s.Types)], s.More...) {
		if keys.IsText(typeOID) {
			return true
		}
	}
	return false
}

// Touches reports whether the statement may read or write a table.
func (p *Plan) Touches() bool {
	return p.Kind == Write || p.Kind == Copy || p.MayWriteUnseen || len(p.Sources) > 0 || len(p.Unseen) > 0
}

// leaveOut counts reads that the plan doesn't see, each reason once.
func (p *Plan) leaveOut(reason string) { p.unseen(reason, false) }

func (p *Plan) unseen(reason string, writes bool) {
	for _, u := range p.Unseen {
		if u.Reason == reason && u.Writes == writes {
			return
		}
	}
	p.Unseen = append(p.Unseen, record.Unseen{Shape: p.Shape, Reason: reason, Writes: writes})
}
