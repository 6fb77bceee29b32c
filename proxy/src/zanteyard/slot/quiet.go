package slot

import (
	"bytes"
	"context"
	"errors"
	"strings"
	"sync/atomic"

	"zanteyard/own"
	"zanteyard/record"
)

// In place of an updated or deleted row of a table without a replica identity, wal2json raises a warning. It comes as a
// notice, by which the row is counted. It would also be written to the server's log, unless the connection's
// log_min_messages forbids it. A role that may not set that has the slot leave such tables out.

var isQuiet = own.SQL("SELECT pg_catalog.current_setting('log_min_messages') IN ('error', 'log', 'fatal', 'panic'), " +
	"pg_catalog.current_setting('is_superuser') = 'on', " +
	"pg_catalog.current_setting('server_version_num')::pg_catalog.int4 >= 150000")

// Before PostgreSQL 15 there is no such privilege.
var mayQuiet = own.SQL("SELECT pg_catalog.has_parameter_privilege('log_min_messages', 'SET')")

var setQuiet = own.SQL("SET log_min_messages = 'error'")

// quiet keeps warnings of the slot's connection out of the server's log, and reports whether it could.
func (r *Reader) quiet(ctx context.Context) (bool, error) {
	rows, err := own.Ask(ctx, r.conn, isQuiet)
	if err != nil {
		return false, err
	}
	if len(rows) != 1 || len(rows[0]) != 3 {
		return false, errForm
	}
	is, may, hasPrivileges := rows[0][0] == "t", rows[0][1] == "t", rows[0][2] == "t"
	if is {
		return true, nil
	}
	if !may && hasPrivileges {
		answer, err := own.One(ctx, r.conn, mayQuiet)
		if err != nil {
			return false, err
		}
		may = answer == "t"
	}
	if !may {
		return false, nil
	}
	_, err = own.Ask(ctx, r.conn, setQuiet)
	return err == nil, err
}

// begins is the command that begins the replication with wal2json.
func (r *Reader) begins() own.Text {
	name, from := own.Name{r.options.Name}, own.Word(r.from)
	if r.loud {
		if names := r.tables.hide(); len(names) > 0 {
			return own.Command("START_REPLICATION SLOT %s LOGICAL %s ("+wal2jsonOptions+`, "filter-tables" %s)`, name, from,
				own.Literal(strings.Join(names, ",")))
		}
	}
	return own.Command("START_REPLICATION SLOT %s LOGICAL %s ("+wal2jsonOptions+")", name, from)
}

// mostHidden limits the tables that the slot leaves out: it looks at all of their names at each row.
const mostHidden = 200

// hide returns the names of tables whose changed rows the log doesn't identify. The slot is to leave them out: from then
// on they may not become tables that are audited.
func (t *Tables) hide() (names []string) {
	t.lock.Lock()
	defer t.lock.Unlock()
	t.hidden = map[[2]string]bool{}
	for _, one := range t.by {
		if one.identified || !isPlain(one.Schema) || !isPlain(one.Name) || len(names) >= mostHidden {
			continue
		}
		names = append(names, one.Schema+"."+one.Name)
		t.hidden[[2]string{one.Schema, one.Name}] = true
		t.use(one)
	}
	return names
}

// isPlain reports whether a name has no character that means something in the option's text.
func isPlain(name string) bool {
	for _, c := range []byte(name) {
		if c != '_' && (c < '0' || c > '9') && (c < 'a' || c > 'z') && (c < 'A' || c > 'Z') {
			return false
		}
	}
	return name != ""
}

// ErrHidden ends an audit: the slot leaves out a table that can be audited by now.
var ErrHidden = errors.New("slot: a table has got a primary key, or another name: another audit has to begin for it to be seen")

// appears looks for tables that are hidden though their changed rows are identified. Called with lock held.
func (t *Tables) appears() {
	for name := range t.hidden {
		if its := t.byName[name[0]][name[1]]; its != nil && its.identified {
			atomic.StoreUint32(&t.appeared, 1)
		}
	}
}

// hides returns ErrHidden if a table is hidden that must not be.
func (t *Tables) hides() error {
	if atomic.LoadUint32(&t.appeared) == 1 {
		return ErrHidden
	}
	return nil
}

// warned counts the row that a warning of wal2json stands for.
func (w *wal2json) warned(body []byte) {
	text := textOf(body)
	at := strings.Index(text, ` in table "`)
	if !strings.HasPrefix(text, "no tuple ") && !strings.HasPrefix(text, "no old tuple ") || at < 0 || text[len(text)-1] != '"' {
		return
	}
	w.open.touched = true
	w.open.keyless++
	name := []byte(text[at+len(` in table "`) : len(text)-1])
	const between = `"."`
	for i := 0; ; {
		n := bytes.Index(name[i:], []byte(between))
		if n < 0 {
			w.tables.unknown(name, nil)
			w.open.gap(record.NoRelation)
			return
		}
		i += n
		if its := w.tables.named(name[:i], name[i+len(between):]); its != nil {
			if !w.tables.leaves(its) {
				w.tables.without(its, noKeyLog)
			}
			if len(its.Key) > 0 { // it may be asked for by a condition
				w.open.gap(its.Root)
			}
			return
		}
		i += len(between)
	}
}
