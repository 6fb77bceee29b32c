package own

import (
	"context"
	"crypto/rand"
	"encoding/binary"
	"errors"
	"strconv"

	"github.com/jackc/pgconn"
)

// A mark is an advisory lock with a random number, which a connection of the audit's own holds. Whoever sees it is
// connected to the same database of the same server: a standby or another database doesn't have it. On a copy of the
// server somebody may take a lock with the same number. So the number's lower half says when the server was started.

// ErrElsewhere says that a connection isn't to the server that has the mark.
var ErrElsewhere = errors.New("own: this connection is to another server than the one whose log is read: the name leads to " +
	"several servers")

// StartedSQL is when the server was started, in microseconds, by its lower 32 bits. Every role may ask for it.
const StartedSQL = "((pg_catalog.date_part('epoch', pg_catalog.pg_postmaster_start_time()) OPERATOR(pg_catalog.*) " +
	"1000000::pg_catalog.float8)::pg_catalog.int8 OPERATOR(pg_catalog.&) 4294967295::pg_catalog.int8)"

// Started is what StartedSQL returns on the server that has the mark.
func Started(mark int64) uint32 { return uint32(mark) }

// SetMark takes such a lock, for as long as the connection lasts, and returns its number, which is never 0.
func SetMark(ctx context.Context, conn *pgconn.PgConn) (int64, error) {
	text, err := One(ctx, conn, SQL("SELECT "+StartedSQL))
	if err != nil {
		return 0, err
	}
	started, err := strconv.ParseUint(text, 10, 32)
	if err != nil {
		return 0, err
	}
	var drawn [4]byte
	if _, err := rand.Read(drawn[:]); err != nil {
		return 0, err
	}
	number := int64(binary.BigEndian.Uint32(drawn[:])>>1|1)<<32 | int64(started)
	_, err = Ask(ctx, conn, SQL("SELECT pg_catalog.pg_advisory_lock(%s)", Number(number)))
	return number, err
}

// MarkSQL counts the marks with this number in the connection's database: none if the server was started at another time
// than the one that has the mark.
func MarkSQL(number int64) Text {
	return SQL("SELECT pg_catalog.count(*) FROM pg_catalog.pg_locks WHERE locktype = 'advisory' AND granted "+
		"AND classid = %s AND objid = %s AND objsubid = 1 AND database = "+
		"(SELECT oid FROM pg_catalog.pg_database WHERE datname = pg_catalog.current_database()) AND %s = "+StartedSQL,
		Number(uint32(number>>32)), Number(uint32(number)), Number(Started(number)))
}

// SeesMark reports whether a connection is to the server that has the mark.
func SeesMark(ctx context.Context, conn *pgconn.PgConn, number int64) (bool, error) {
	text, err := One(ctx, conn, MarkSQL(number))
	return text == "1", err
}
