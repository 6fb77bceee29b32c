package slot

import (
	"context"
	"time"

	"zanteyard/own"
)

// standstill is for how long everything may stand still, as on a machine that is suspended, without an end of the audit.
// The server ends the slot's connection if it has heard nothing for wal_sender_timeout, a minute by default, and its own
// standstill counts. It keeps its log that long for a proxy that has vanished without a word.
const standstill = 5 * time.Minute

var setPatient = own.SQL("SELECT pg_catalog.set_config(s.name, %s::pg_catalog.text, false) FROM pg_catalog.pg_settings s "+
	"WHERE s.name = 'wal_sender_timeout' AND s.context = 'user' AND s.setting::pg_catalog.int8 BETWEEN 1 AND %s",
	own.Number(standstill.Milliseconds()), own.Number(standstill.Milliseconds()))

// patient makes the server wait for the slot's reader, unless it waits longer anyway, or only its settings say how long
// (before version 12).
func (r *Reader) patient(ctx context.Context) error {
	_, err := own.Ask(ctx, r.conn, setPatient)
	return err
}
