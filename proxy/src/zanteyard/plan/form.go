package plan

import (
	"encoding/json"
	"regexp"
	"sort"
	"strings"

	"zanteyard/catalog"
	"zanteyard/keys"
)

// The order in which rows are read shows in an answer: in the order of its rows, in what an array of them has, in the last
// digit of a sum. So a statement that is read by another plan with the hidden columns may answer otherwise. Its plans are
// compared, unless the order can't show.

// planned is a node of a plan, as EXPLAIN writes it in JSON.
type planned struct {
	Type      string    `json:"Node Type"`
	Strategy  string    `json:"Strategy"`
	Join      string    `json:"Join Type"`
	Place     string    `json:"Parent Relationship"`
	Relation  string    `json:"Relation Name"`
	Alias     string    `json:"Alias"`
	Index     string    `json:"Index Name"`
	Direction string    `json:"Scan Direction"`
	Command   string    `json:"Command"`
	Rows      float64   `json:"Plan Rows"`
	Width     float64   `json:"Plan Width"`
	Plans     []planned `json:"Plans"`
	// Of scans, the conditions by which they find rows, and those that they try on each.
	IndexCond string `json:"Index Cond"`
	Recheck   string `json:"Recheck Cond"`
	Filter    string `json:"Filter"`
	OneTime   string `json:"One-Time Filter"`
}

// around returns the plan of the statement that copies are made of, and those of the copies, from the plan of the statement
// around it.
func (n *planned) around() (statement *planned, copies []*planned) {
	if n.Type != "WindowAgg" {
		return nil, nil
	}
	for i := range n.Plans {
		switch its := &n.Plans[i]; {
		case its.Place == "InitPlan":
			copies = append(copies, its)
		case its.Place == "Outer" && statement == nil:
			statement = its
		default:
			return nil, nil
		}
	}
	if statement != nil && statement.Type == "Subquery Scan" && statement.Alias == alias && len(statement.Plans) == 1 {
		statement = &statement.Plans[0]
	}
	return statement, copies
}

// What is hashed or sorted is split into batches if it takes more memory than the server allows, by default 4 MiB. Wider rows
// take more. In which order rows come then is in no plan.
const (
	mostHeld = 1 << 20 // bytes, as the server expects: it may expect too few
	overhead = 24      // bytes of a row
)

// large reports whether a part of a plan may hold so many rows that they are split.
func (n *planned) large() bool {
	switch {
	case n.Type == "Hash", n.Type == "Sort", n.Type == "Incremental Sort", n.Type == "Aggregate" && n.Strategy != "Plain" && n.Strategy != "Sorted":
		if n.Rows*(n.Width+overhead) > mostHeld {
			return true
		}
	}
	for i := range n.Plans {
		if n.Plans[i].large() {
			return true
		}
	}
	return false
}

// Form returns what the answer to Explained says of how rows are read: in the same form they are read in the same order,
// and the same tables are read whole. A scan of an index alone has the form of one that looks into the table. If the order
// doesn't matter, the form is only which tables are read whole: at serializable these are locked. "" if the answer can't
// be read, or doesn't say in which order rows are read.
func (p *Plan) Form(answer []byte, hidden bool) string {
	var all []struct {
		Plan *planned
	}
	if json.Unmarshal(answer, &all) != nil || len(all) != 1 || all[0].Plan == nil {
		return ""
	}
	if p.Copied {
		all[0].Plan.rename()
		return all[0].Plan.copiedForm(hidden, len(p.merged))
	}
	if p.looksUp && all[0].Plan.withoutLookups() {
		return ""
	}
	if p.ComparedByForm() && !p.Ordered {
		whole := all[0].Plan.whole(nil)
		sort.Strings(whole)
		return "whole: " + strings.Join(whole, ", ")
	}
	if all[0].Plan.large() {
		return ""
	}
	var out strings.Builder
	all[0].Plan.write(&out)
	return out.String()
}

// copiedForm is the form of a statement that is asked once more, or of itself: no row of it is wider.
func (n *planned) copiedForm(hidden bool, parts int) string {
	if hidden {
		statement, copies := n.around()
		if statement == nil || len(copies) != parts || !statement.readsAll() || !sameScans(statement, copies) {
			return ""
		}
		n = statement
		n.Place = ""
	}
	var out strings.Builder
	n.write(&out)
	return out.String()
}

// sameScans reports whether copies find rows as the statement does: in the same tables, by the same indexes and conditions.
// Otherwise it might meet rows that the statement doesn't, since the server may move a condition of the statement's to where
// the copy has none. At serializable it would lock what the statement doesn't.
func sameScans(statement *planned, copies []*planned) bool {
	its, others := statement.scans(nil), []string(nil)
	for _, one := range copies {
		others = one.scans(others)
	}
	sort.Strings(its)
	sort.Strings(others)
	return strings.Join(its, "\n") == strings.Join(others, "\n")
}

// scans appends what a plan reads, and how it finds that.
func (n *planned) scans(to []string) []string {
	if n.Relation != "" || n.Index != "" || n.OneTime != "" {
		conditions := strings.Join([]string{n.IndexCond, n.Recheck, n.Filter, n.OneTime}, "|")
		kind := strings.Replace(n.Type, "Index Only Scan", "Index Scan", 1)
		to = append(to, strings.Join([]string{kind, n.Relation, n.Alias, n.Index, unnumbered.ReplaceAllString(conditions, "$1$2")}, "|"))
	}
	for i := range n.Plans {
		to = n.Plans[i].scans(to)
	}
	return to
}

// unnumbered matches the numbers by which the server tells apart equal names, and parts of a plan.
var unnumbered = regexp.MustCompile(`_[0-9]+("?\.)|\b(SubPlan |InitPlan )[0-9]+|\$[0-9]+`)

// readsAll reports whether a plan has read all that it reads before it has its first row. Otherwise a client that takes only
// some rows would have others locked by the copy, at serializable.
func (n *planned) readsAll() bool {
	switch {
	case n.Type == "Sort", n.Type == "Aggregate" && n.Strategy != "Sorted", n.Type == "SetOp" && n.Strategy == "Hashed", n.OneTime != "":
		return true
	case n.Relation != "" || n.Index != "":
		return false
	}
	outer := (*planned)(nil)
	for i := range n.Plans {
		switch its := &n.Plans[i]; its.Place {
		case "Outer", "Subquery":
			outer = its
		case "InitPlan", "SubPlan":
		default:
			return false
		}
	}
	return outer == nil || outer.readsAll()
}

// rename takes off what the server puts behind a name that several tables of a statement have.
func (n *planned) rename() {
	n.Alias = baseName(n.Alias)
	for i := range n.Plans {
		n.Plans[i].rename()
	}
}

func baseName(name string) string {
	if at := strings.LastIndexByte(name, '_'); at > 0 && strings.Trim(name[at+1:], "0123456789") == "" {
		return name[:at]
	}
	return name
}

// whole appends the tables that are read whole.
func (n *planned) whole(to []string) []string {
	if n.Relation != "" && !strings.HasPrefix(n.Type, "Index") && !strings.HasPrefix(n.Type, "Bitmap") && n.Type != "Tid Scan" {
		to = append(to, n.Relation+" "+n.Alias)
	}
	for i := range n.Plans {
		to = n.Plans[i].whole(to)
	}
	return to
}

// sortsGroups reports whether ORDER BY has each column that a query groups by, and each value of these has one form: then
// the order of the groups is certain, and what is shown of them. Otherwise both may depend on how large the server expects
// the groups to be, with what is listed of them.
func (m *maker) sortsGroups(body node, f *fromClause) bool {
	for _, group := range body.list("groupClause") {
		found := false
		for _, item := range body.list("sortClause") {
			_, sort := only(item)
			by, known := sortsWhat(sort["node"], body.list("targetList"))
			found = found || known && alike(group, by)
		}
		if column, ok := m.columnOf(group, f); !found || !ok || !hasOneForm(column) {
			return false
		}
	}
	return true
}

// hasOneForm reports whether a column's values that are equal are the same, to the byte.
func hasOneForm(column catalog.Column) bool {
	switch column.Base {
	case keys.Int2, keys.Int4, keys.Int8, keys.Bool, keys.UUID, keys.Date, keys.Timestamp, keys.Timestamptz, keys.Oid, keys.Bytea:
		return true
	case keys.Text, keys.Varchar, keys.Name:
		return column.Collation == catalog.Bytewise || column.Collation == catalog.Deterministic
	case keys.Bpchar: // of which the server fills up all values to one length
		return column.Length > 0 && (column.Collation == catalog.Bytewise || column.Collation == catalog.Deterministic)
	}
	return column.Type == keys.Enum
}

func (n *planned) write(out *strings.Builder) {
	if n.Type == "Subquery Scan" && len(n.Plans) == 1 { // it only computes columns, and isn't there if it computes none
		below := n.Plans[0]
		below.Place = n.Place
		below.write(out)
		return
	}
	kind := n.Type
	if kind == "Index Only Scan" {
		kind = "Index Scan"
	}
	for _, word := range []string{kind, n.Strategy, n.Join, n.Place, n.Relation, n.Alias, n.Index, n.Direction, n.Command} {
		out.WriteString(word)
		out.WriteByte('|')
	}
	out.WriteByte('(')
	for i := range n.Plans {
		n.Plans[i].write(out)
	}
	out.WriteByte(')')
}

// ordered reports whether the order in which a query's rows are read may show in its answer.
func (m *maker) ordered(body node, f *fromClause) bool {
	if body.has("distinctClause") || body.has("windowClause") || body.has("groupClause") && !m.sortsGroups(body, f) {
		return true
	}
	shows := false
	grouped := body.list("groupClause")
	visit([]any{body["targetList"], body["havingClause"]}, func(kind string, its node) bool {
		switch kind {
		case "ColumnRef":
			for _, group := range grouped { // the groups' order is certain
				_, column := only(group)
				if alike(column, its) {
					return false
				}
			}
			shows = true
		case "SubLink", "SQLValueFunction":
			shows = true
		case "FuncCall":
			if m.orderless(its, f) {
				return false
			}
			shows = true
		}
		return !shows
	})
	return shows
}

// sortsRows reports whether ORDER BY has the whole key of a query's only table: then the order of its rows is certain. A
// name without a table's may be that of a result's column, as in SELECT id::text .. ORDER BY id.
func (m *maker) sortsRows(body node, f *fromClause) bool {
	for _, field := range []string{"distinctClause", "windowClause", "groupClause"} {
		if body.has(field) {
			return false
		}
	}
	if f.items != 1 || len(f.found) != 1 {
		return false
	}
	renames := false
	for _, item := range body.list("targetList") {
		_, target := only(item)
		renames = renames || target.has("name") || target.as("val", "ColumnRef") == nil
	}
	sorted := map[string]bool{}
	for _, item := range body.list("sortClause") {
		_, sort := only(item)
		by := sort.as("node", "ColumnRef")
		column, ok := m.columnOf(sort["node"], f)
		if ok && by != nil && !sort.has("useOp") && (!renames || len(by.list("fields")) > 1) {
			sorted[column.Name] = true
		}
	}
	for _, column := range f.found[0].table.Key {
		if !sorted[column.Name] {
			return false
		}
	}
	return true
}

// orderless reports whether a call is of an aggregate whose result is the same in any order.
func (m *maker) orderless(call node, f *fromClause) bool {
	name := names(call.list("funcname"))
	if len(name) == 0 || call.has("over") || !m.function(call).Always || m.function(call).Made {
		return false
	}
	args := call.list("args")
	if name[len(name)-1] == "count" {
		return len(args) == 0 || m.isColumn(args[0], f) != 0
	}
	if len(args) != 1 {
		return false
	}
	switch name[len(name)-1] {
	case "sum", "avg":
		switch m.isColumn(args[0], f) {
		case keys.Int2, keys.Int4, keys.Int8:
			return true
		case keys.Numeric:
			return !call.flag("agg_distinct") // which of 1.0 and 1.00 is left depends on their order
		}
	case "min", "max":
		switch m.isColumn(args[0], f) {
		case keys.Int2, keys.Int4, keys.Int8, keys.Date, keys.Timestamp, keys.Timestamptz:
			return true
		}
	}
	return false
}

// isColumn returns the type of the column that an expression is, of a table in FROM; 0 if it is none, or of several.
func (m *maker) isColumn(expression any, f *fromClause) uint32 {
	column, _ := m.columnOf(expression, f)
	return column.Type
}

func (m *maker) columnOf(expression any, f *fromClause) (catalog.Column, bool) {
	_, column, is := m.itemOf(expression, f)
	return column, is
}

// itemOf returns the column that an expression is, of a table in FROM, and that table.
func (m *maker) itemOf(expression any, f *fromClause) (of *item, found catalog.Column, is bool) {
	kind, body := only(expression)
	if kind != "ColumnRef" || f.items > len(f.found) {
		return nil, found, false
	}
	fields := names(body.list("fields"))
	for _, it := range f.found {
		_, all, hit := f.column(reference{fields: fields}, it)
		if (hit || all) && (is || all) {
			return nil, catalog.Column{}, false
		}
		if hit {
			of = it
			found, is = it.table.Column(fields[len(fields)-1])
		}
	}
	return of, found, is
}
