package session

import (
	"github.com/jackc/pgproto3/v2"

	"zanteyard/catalog"
	"zanteyard/own"
)

// The names of the proxy's own statements and portals begin with this. They are named because the unnamed ones are the
// client's, and a simple Query would drop those too.
const (
	reserved = "zanteyard" // and a point, or an underscore where SQL has the name
	prefix   = reserved + "."
)

const (
	askName       = prefix + "ask"
	signatureName = prefix + "signature"
	impatientName = prefix + "impatient"
	trialName     = prefix + "trial"
	privilegeName = prefix + "privilege"
	prepareName   = prefix + "prepare"
	savepointName = prefix + "savepoint"
	costName      = prefix + "cost"
)

var (
	// The transaction's number, its snapshot and its level, asked before COMMIT.
	askText = own.Guest("SELECT pg_catalog.pg_current_xact_id_if_assigned(), pg_catalog.pg_current_snapshot(), " +
		"pg_catalog.current_setting('transaction_isolation')")

	// A trial that would wait for a lock fails instead, so no client waits for the trial. The setting ends with the
	// transaction, which is that of the trial's messages up to their Sync. So does the other one, by which plans that are
	// compared don't depend on parameters.
	impatientText = own.Guest("SELECT pg_catalog.set_config('lock_timeout', '20ms', true), " +
		"pg_catalog.set_config('plan_cache_mode', 'force_generic_plan', true)")

	// In a block, a trial is undone: an error in it isn't the block's, and it leaves no lock and no savepoint.
	savepointText  = own.Guest(`SAVEPOINT "zanteyard.trial"`)
	rollbackToText = own.Guest(`ROLLBACK TO SAVEPOINT "zanteyard.trial"`)
	releaseText    = own.Guest(`RELEASE SAVEPOINT "zanteyard.trial"`)
)

const (
	// Everything that decides what a name means on a connection and what its user may do, in one text: if it is the same
	// as before, or as on another connection, then what was tried still means the same. It ends with an empty string if
	// there are no temporary objects, which are those that depend on the schema for them. The second column is the level that transactions begin at, the third the search path
	// (catalog.PathSQL), the fourth the backend's process, the fifth says whether it is the audited server (mark.go): it
	// was started when that one was, and a lock that nobody could share is the audit's. If there is none, the one that is taken instead ends with the transaction.
	signatureForm = "SELECT pg_catalog.json_build_array(pg_catalog.current_setting('search_path'), " +
		"pg_catalog.current_setting('row_security'), current_user, session_user, pg_catalog.current_setting('role'), " +
		"CASE WHEN pg_catalog.pg_my_temp_schema() OPERATOR(pg_catalog.=) 0::pg_catalog.oid THEN '' ELSE coalesce((" +
		"SELECT pg_catalog.string_agg(pg_catalog.concat_ws(' ', classid, objid), ',' ORDER BY classid, objid) " +
		"FROM pg_catalog.pg_depend WHERE refclassid OPERATOR(pg_catalog.=) 'pg_catalog.pg_namespace'::pg_catalog.regclass " +
		"AND refobjid OPERATOR(pg_catalog.=) pg_catalog.pg_my_temp_schema()), '') END)::pg_catalog.text, " +
		"pg_catalog.current_setting('default_transaction_isolation'), (" + catalog.PathSQL + "), " +
		"pg_catalog.pg_backend_pid(), CASE WHEN pg_catalog.pg_is_in_recovery() OR " + own.StartedSQL +
		" OPERATOR(pg_catalog.<>) %s::pg_catalog.int8 THEN false ELSE NOT pg_catalog.pg_try_advisory_xact_lock_shared(%s::pg_catalog.int8) END"
)

func encoded(messages ...pgproto3.FrontendMessage) []byte {
	var b []byte
	for _, m := range messages {
		b = m.Encode(b)
	}
	return b
}

// prepared returns the message that prepares a statement of the proxy's own.
func prepared(name string, text own.Text) []byte {
	return encoded(&pgproto3.Parse{Name: name, Query: text.String()})
}

// again returns the messages that run a statement prepared under its own name.
func again(name string) []byte {
	return encoded(&pgproto3.Bind{DestinationPortal: name, PreparedStatement: name}, &pgproto3.Execute{Portal: name},
		&pgproto3.Close{ObjectType: 'P', Name: name})
}

// once returns the messages that prepare a statement, run it and forget it. If an earlier attempt failed, the statement
// may still be there.
func once(name string, text own.Text) []byte {
	forget := encoded(&pgproto3.Close{ObjectType: 'S', Name: name})
	b := append(forget, prepared(name, text)...)
	return append(append(b, again(name)...), forget...)
}

var (
	syncMessage = encoded(&pgproto3.Sync{})
	askPrepare  = prepared(askName, askText)
	askRun      = again(askName)
	impatient   = once(impatientName, impatientText)
	savepoint   = once(savepointName, savepointText)
	rollbackTo  = once(savepointName, rollbackToText)
	release     = once(savepointName, releaseText)
	closeAsk    = encoded(&pgproto3.Close{ObjectType: 'S', Name: askName})

	describeTrial = encoded(&pgproto3.Describe{ObjectType: 'S', Name: trialName})
	closeTrial    = encoded(&pgproto3.Close{ObjectType: 'S', Name: trialName})
)

// step appends the expectation of a message for which only a failure matters.
func (q *queue) step(message byte, u *use) {
	q.push(expectation{kind: silent, message: message, use: u})
}

// again appends the expectations for the messages of again.
func (q *queue) again(row expectation) {
	q.step('B', row.use)
	row.message = 'E'
	q.push(row)
	q.step('C', row.use)
}

// once appends the expectations for the messages of once.
func (q *queue) once(row expectation) {
	q.step('C', row.use)
	q.step('P', row.use)
	q.again(row)
	q.step('C', row.use)
}
