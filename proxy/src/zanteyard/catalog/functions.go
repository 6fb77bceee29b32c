package catalog

import "strings"

// Function is what a call of a function with this name may do. Which of several functions of that name is called isn't
// known before the server has resolved the arguments' types, so each property holds if it holds for any of them.
type Function struct {
	Aggregate bool // or, without OVER, it makes one row of many
	Always    bool // each function of that name is an aggregate
	Window    bool
	Set       bool // it returns any number of rows
	Reads     bool // it may read tables
	Writes    bool // it may write
	Made      bool // it isn't the server's own, and may do more than compute a value
	Names     bool // it may change the meaning of names: SET search_path, SET ROLE, temporary tables
	Foreign   bool // it isn't the server's own, nor written in C, so it may run any statement
	Steady    bool // it returns the same for the same arguments throughout a statement, and does nothing else
}

// functions are those of one name: the server's own, and those of other schemas.
type functions struct {
	own, other Function
	isOwn      bool
	isOther    bool
}

// Function says what a call of a function with this name may do. An unknown function may do anything.
func (c *Catalog) Function(schema, name string) Function {
	found, ok := c.functions[name]
	if !ok || schema == "pg_catalog" && !found.isOwn || schema != "" && schema != "pg_catalog" && !found.isOther {
		return Function{Reads: true, Writes: true, Names: true, Set: true, Made: true, Foreign: true}
	}
	switch schema {
	case "pg_catalog":
		return found.own
	case "":
		return Function{
			Aggregate: found.own.Aggregate || found.other.Aggregate,
			Always:    (found.own.Always || !found.isOwn) && (found.other.Always || !found.isOther),
			Window:    found.own.Window || found.other.Window,
			Set:       found.own.Set || found.other.Set,
			Reads:     found.own.Reads || found.other.Reads,
			Writes:    found.own.Writes || found.other.Writes,
			Names:     found.own.Names || found.other.Names,
			Made:      found.other.Made,
			Foreign:   found.other.Foreign,
		}
	}
	return found.other
}

// Steady says that a call of a function with this name is surely of the server's own, which returns the same for the same
// arguments throughout a statement, and does nothing else.
func (c *Catalog) Steady(schema, name string) bool {
	found, ok := c.functions[name]
	return ok && found.isOwn && found.own.Steady && (schema == "pg_catalog" || schema == "" && !found.isOther)
}

// MadeByOthers reports whether there is a function of this name that isn't the server's own, nor written in C.
func (c *Catalog) MadeByOthers(name string) bool {
	found, ok := c.functions[name]
	return ok && found.isOther && found.other.Foreign
}

// PureOperator says that no operator of this name calls a function that may read or write tables.
func (c *Catalog) PureOperator(name string) bool { return !c.operators[name].impure }

// SetOperator says that an operator of this name may return any number of rows.
func (c *Catalog) SetOperator(name string) bool { return c.operators[name].set }

// operator is what the functions of operators with one name may do.
type operator struct{ impure, set bool }

// Called returns what t.name may call, if t has no column of this name.
func (c *Catalog) Called(name string) Function {
	if _, known := c.functions[name]; !known {
		return Function{}
	}
	return c.Function("", name)
}

func (c *Catalog) takeFunction(row []string) error {
	if err := width(row, 11); err != nil {
		return err
	}
	c.Levels = c.Levels || row[7] == "true"
	name, own := row[0], row[1] == "pg_catalog"
	f := Function{Aggregate: row[2] == "true", Window: row[3] == "true", Set: row[4] == "true",
		Always: row[9] == "true"}
	pure := row[5] == "true"
	f.Steady = pure
	if own {
		f.Reads = readsTables(name)
		f.Writes = !pure && row[10] != "true" && !harmless(name) || f.Reads
		f.Names = name == "set_config"
	} else {
		f.Reads, f.Writes, f.Made, f.Names = !pure, !pure, !pure, row[6] == "true"
		f.Foreign = row[8] == "true"
	}
	all, ok := c.functions[name]
	if !ok {
		all = &functions{}
		c.functions[name] = all
	}
	if own {
		all.own, all.isOwn = f, true
		return nil
	}
	all.other.Aggregate = all.other.Aggregate || f.Aggregate
	all.other.Always = f.Always && (all.other.Always || !all.isOther)
	all.other.Window = all.other.Window || f.Window
	all.other.Set = all.other.Set || f.Set
	all.other.Reads = all.other.Reads || f.Reads
	all.other.Writes = all.other.Writes || f.Writes
	all.other.Names = all.other.Names || f.Names
	all.other.Foreign = all.other.Foreign || f.Foreign
	all.other.Made = all.other.Made || f.Made
	all.isOther = true
	return nil
}

func (c *Catalog) takeOperator(row []string) error {
	if err := width(row, 3); err != nil {
		return err
	}
	c.operators[row[0]] = operator{set: row[1] == "true", impure: row[2] != "true"}
	return nil
}

// readsTables names the server's own functions that run a query or read a table given as an argument.
func readsTables(name string) bool {
	for _, part := range []string{"query_to_xml", "table_to_xml", "schema_to_xml", "database_to_xml", "cursor_to_xml"} {
		if strings.HasPrefix(name, part) {
			return true
		}
	}
	return name == "ts_stat" || name == "ts_rewrite"
}

// harmless names the server's own functions that are volatile and write no table.
func harmless(name string) bool {
	switch name {
	case "random", "setseed", "clock_timestamp", "timeofday", "gen_random_uuid", "nextval", "currval", "lastval", "setval",
		"pg_sleep", "pg_sleep_for", "pg_sleep_until", "pg_notify", "pg_export_snapshot", "set_config",
		"pg_current_xact_id", "pg_current_xact_id_if_assigned", "txid_current", "txid_current_if_assigned",
		"pg_cancel_backend", "pg_terminate_backend", "pg_reload_conf", "pg_is_in_recovery", "pg_current_wal_lsn",
		"pg_current_wal_insert_lsn", "pg_relation_size", "pg_table_size", "pg_total_relation_size", "pg_indexes_size",
		"pg_database_size", "pg_tablespace_size", "pg_lock_status", "pg_prepared_statement", "pg_cursor",
		"pg_show_all_file_settings", "pg_stat_clear_snapshot", "pg_stat_force_next_flush", "pg_blocking_pids":
		return true
	}
	return strings.HasPrefix(name, "pg_advisory_") || strings.HasPrefix(name, "pg_try_advisory_") ||
		strings.HasPrefix(name, "pg_stat_get_")
}
