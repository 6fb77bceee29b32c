package slot

import (
	"context"
	"errors"
	"strconv"
	"strings"

	"zanteyard/join"
	"zanteyard/own"
)

// Health is the state of a slot.
type Health struct {
	Kept uint64 // bytes of the log that the server keeps for it
	Lost bool   // the server has dropped what the slot needs, or is about to (max_slot_wal_keep_size)
}

// Health asks for the state of a slot.
func (c *Control) Health(ctx context.Context, name string) (Health, error) {
	rows, err := c.ask(ctx, own.SQL("SELECT coalesce(wal_status, ''), "+
		"coalesce(pg_catalog.pg_wal_lsn_diff(pg_catalog.pg_current_wal_lsn(), restart_lsn)::pg_catalog.int8, 0) "+
		"FROM pg_catalog.pg_replication_slots WHERE slot_name = %s", own.Literal(name)))
	if err != nil {
		return Health{}, err
	}
	if len(rows) == 0 {
		return Health{Lost: true}, nil
	}
	kept, err := strconv.ParseInt(rows[0][1], 10, 64)
	if err != nil {
		return Health{}, err
	}
	if kept < 0 {
		kept = 0
	}
	return Health{Kept: uint64(kept), Lost: rows[0][0] == "lost" || rows[0][0] == "unreserved"}, nil
}

// Started returns what the feed reports when an audit begins, as far as the server knows it.
func (c *Control) Started(ctx context.Context) (join.Started, error) {
	rows, err := c.ask(ctx, own.SQL("SELECT pg_catalog.current_database(), pg_catalog.current_setting('server_version'), "+
		"pg_catalog.current_setting('max_slot_wal_keep_size', true)"))
	if err != nil {
		return join.Started{}, err
	}
	if len(rows) != 1 || len(rows[0]) != 3 {
		return join.Started{}, errors.New("the server doesn't identify itself")
	}
	its := join.Started{Database: rows[0][0], Server: rows[0][1]}
	if c.options.Permanent && (rows[0][2] == "-1" || rows[0][2] == "") {
		its.Warnings = append(its.Warnings, "the slot is permanent, and max_slot_wal_keep_size isn't set: "+
			"while nobody reads the slot, the server keeps its log, until its disk is full")
	}
	all := c.tables.list()
	names := make([][2]string, len(all))
	for i, one := range all {
		names[i] = [2]string{one.Schema, one.Name}
		if len(one.Key) == 0 && !one.unasked {
			its.Warnings = append(its.Warnings, "the table "+one.Schema+"."+one.Name+" has no primary key: it isn't seen")
		}
	}
	for _, one := range c.options.Asked.Idle(names) {
		its.Warnings = append(its.Warnings, "no table is meant by "+one+" of --tables")
	}
	return its, nil
}

// Open describes the transactions that a new slot waits for, in words by which a person can find them. The name of a
// prepared one is a client's constant.
func (c *Control) Open(ctx context.Context) string {
	rows, err := c.ask(ctx, own.SQL("SELECT 'the session with pid ' || pid, '', xact_start "+
		"FROM pg_catalog.pg_stat_activity WHERE backend_xid IS NOT NULL AND pid <> pg_catalog.pg_backend_pid() UNION ALL "+
		"SELECT 'the prepared transaction ' || transaction, pg_catalog.quote_literal(gid), prepared "+
		"FROM pg_catalog.pg_prepared_xacts LIMIT 5"))
	if err != nil || len(rows) == 0 {
		return "no details are known"
	}
	its := make([]string, len(rows))
	for i, row := range rows {
		its[i] = row[0] + ", since " + row[2]
		if row[1] != "" && !c.options.Redacts {
			its[i] = row[0] + ", " + row[1] + ", since " + row[2]
		}
	}
	return strings.Join(its, "; ")
}
