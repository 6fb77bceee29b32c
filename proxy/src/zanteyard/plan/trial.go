package plan

import (
	"regexp"
	"strconv"
	"strings"
)

// System columns, by number.
const (
	xminNumber     = -2
	tableoidNumber = -6
)

// calledNames matches the functions that hidden columns call.
var calledNames = regexp.MustCompile(`pg_catalog\.([a-z0-9_]+)\(`)

// functions returns the names of what hidden columns call, by name or as an operator: the server's owner may have taken
// any of these from others.
func (p *Plan) functions() (all []string) {
	all = append(all, "pg_current_xact_id_if_assigned") // of the proxy's own questions, too
	for _, call := range calledNames.FindAllStringSubmatch(p.added(), -1) {
		if !contains(all, call[1]) {
			all = append(all, call[1])
		}
	}
	if p.Lists() || p.Inner != nil && p.Inner.Lists() {
		all = append(all, "timestamptz_lt", "timestamptz_pl_interval", "int84le", "int4le", "int84eq")
	}
	if p.looksUp {
		all = append(all, equalities...)
	}
	if p.ReadsMore() {
		all = append(all, "textne")
	}
	return all
}

// privileges returns a SELECT of one boolean: each name means the relation that it was taken for, its hidden columns may
// be read, and the functions may be called. A column that isn't there any more yields NULL.
func privileges(relations []relation, functions []string) string {
	var out strings.Builder
	out.WriteString("SELECT coalesce(NOT EXISTS (SELECT FROM pg_catalog.pg_proc WHERE " +
		"pronamespace OPERATOR(pg_catalog.=) 'pg_catalog'::pg_catalog.regnamespace::pg_catalog.oid AND " +
		"proname OPERATOR(pg_catalog.=) ANY ('{" + strings.Join(functions, ",") + "}'::pg_catalog.name[]) AND " +
		"NOT pg_catalog.has_function_privilege(oid, 'EXECUTE'))")
	done := map[string]bool{}
	for _, r := range relations {
		condition := r.condition()
		if !done[condition] {
			out.WriteString(condition)
		}
		done[condition] = true
	}
	out.WriteString(", false)")
	return out.String()
}

func (r relation) condition() string {
	oid := strconv.FormatUint(uint64(r.oid), 10)
	condition := " AND pg_catalog.to_regclass(" + literal(r.name) + ")::pg_catalog.oid OPERATOR(pg_catalog.=) " + oid
	if r.named {
		return condition
	}
	for _, number := range append([]int16{xminNumber, tableoidNumber}, r.columns...) {
		condition += " AND pg_catalog.has_column_privilege(" + oid + "::pg_catalog.oid, (" +
			strconv.Itoa(int(number)) + ")::pg_catalog.int2, 'SELECT')"
	}
	if r.whole {
		condition += r.mayReadAll()
	}
	return condition
}

// literal writes a string that means the same with any setting of standard_conforming_strings.
func literal(text string) string {
	text = strings.ReplaceAll(text, "'", "''")
	if strings.Contains(text, `\`) {
		return " E'" + strings.ReplaceAll(text, `\`, `\\`) + "'"
	}
	return "'" + text + "'"
}
