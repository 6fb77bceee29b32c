package plan

import (
	"strings"

	"zanteyard/record"
)

// plan determines what a statement is, and analyses those that read or write rows.
func (m *maker) plan(stmt statement) *Plan {
	p, foreign := m.planned(stmt), m.foreign(stmt.tree)
	for _, its := range []*Plan{p, p.Inner, p.misplaced} {
		if its != nil {
			its.Foreign = foreign
		}
	}
	return p
}

func (m *maker) planned(stmt statement) *Plan {
	name, body := only(stmt.tree)
	p := &Plan{Shape: m.shape}
	switch name {
	case "SelectStmt", "InsertStmt", "UpdateStmt", "DeleteStmt", "MergeStmt":
		return m.query(stmt, name, body, stmt.from)
	case "DeclareCursorStmt":
		const hold = 0x20 // CURSOR_OPT_HOLD
		p.Holds = body.number("options")&hold != 0
		return m.wrapped(p, stmt, Declare, body.text("portalname"), body, "FOR")
	case "PrepareStmt":
		return m.wrapped(p, stmt, Prepare, body.text("name"), body, "AS")
	case "TransactionStmt":
		transaction(p, body)
	case "VariableSetStmt":
		setting(p, body)
	case "DiscardStmt":
		switch body.text("target") {
		case "DISCARD_ALL":
			p.Kind, p.ChangesNames, p.MayCommit = DiscardAll, true, true
			p.Resets = User | Settings | Level | Temporary
		case "DISCARD_TEMP":
			p.Kind, p.ChangesNames, p.Resets = TemporaryDefinition, true, Temporary
		}
	case "DeallocateStmt":
		p.Kind, p.Name = Deallocate, body.text("name")
		if p.Name == "" {
			p.Kind = DiscardAll
		}
	case "FetchStmt":
		p.Kind, p.Name = Fetch, body.text("portalname")
	case "ClosePortalStmt":
		p.Kind, p.Name = CloseCursor, body.text("portalname")
		p.All = p.Name == ""
	case "ExecuteStmt":
		p.Kind, p.Name = Execute, body.text("name")
		m.calls(p, body)
	case "CopyStmt":
		m.copies(p, body)
	default:
		m.other(p, name, body)
	}
	return p
}

// other handles statements that the proxy never changes.
func (m *maker) other(p *Plan, name string, body node) {
	switch name {
	case "VariableShowStmt", "LockStmt", "NotifyStmt", "ListenStmt", "UnlistenStmt", "CheckPointStmt", "ConstraintsSetStmt":
	case "VacuumStmt", "ClusterStmt", "ReindexStmt":
		p.MayCommit = true
	case "ExplainStmt":
		m.explain(p, body)
	case "TruncateStmt":
		p.Kind, p.MayWriteUnseen = Write, true
	case "CallStmt":
		p.MayWriteUnseen, p.MayCommit = true, true
		p.leaveOut("a procedure")
		m.calls(p, node{"FuncCall": body["funccall"]})
	case "DoStmt":
		p.MayWriteUnseen, p.ChangesNames, p.MayCommit = true, true, true
		p.leaveOut("DO")
	default:
		p.Kind, p.MayWriteUnseen, p.ChangesNames, p.MayCommit = Definition, true, true, true
		if name == "CreateTableAsStmt" {
			p.leaveOut("a table created from a query")
		}
		if m.makesTemporary(name, body) {
			p.Kind = TemporaryDefinition
		}
	}
}

// makesTemporary reports whether a statement makes a temporary table, and nothing else: no table that others see gets a
// child, and no function runs that may do more.
func (m *maker) makesTemporary(name string, body node) bool {
	var relation node
	switch name {
	case "CreateStmt":
		if body.has("inhRelations") {
			return false
		}
		relation = body.node("relation")
	case "CreateTableAsStmt":
		does := &Plan{}
		if m.calls(does, body); does.MayWriteUnseen || does.ChangesNames || does.MayLevel || writesWithin(body) {
			return false
		}
		relation = body.node("into").node("rel")
	}
	return relation.text("relpersistence") == "t"
}

// explain: EXPLAIN runs its query only with ANALYZE.
func (m *maker) explain(p *Plan, body node) {
	analyze := false
	for _, option := range body.list("options") {
		_, o := only(option)
		analyze = analyze || strings.EqualFold(o.text("defname"), "analyze")
	}
	if !analyze {
		return
	}
	p.leaveOut("EXPLAIN ANALYZE")
	if kind, _ := only(body["query"]); kind != "SelectStmt" {
		p.MayWriteUnseen = true
	}
	m.calls(p, body)
	p.MayWriteUnseen = p.MayWriteUnseen || writesWithin(body)
}

func (m *maker) copies(p *Plan, body node) {
	p.Kind = Copy
	if body.flag("is_from") {
		p.MayWriteUnseen = true
		return
	}
	p.leaveOut("COPY TO")
	m.calls(p, body)
	p.MayWriteUnseen = p.MayWriteUnseen || writesWithin(body)
}

func transaction(p *Plan, body node) {
	p.Chain = body.flag("chain")
	switch body.text("kind") {
	case "TRANS_STMT_BEGIN", "TRANS_STMT_START":
		p.Kind, p.Level = Begin, levelOf(body.list("options"))
	case "TRANS_STMT_COMMIT":
		p.Kind = Commit
	case "TRANS_STMT_ROLLBACK":
		p.Kind = Rollback
	case "TRANS_STMT_PREPARE":
		p.Kind = PrepareTransaction // its name is a constant, which isn't part of the plan
	case "TRANS_STMT_SAVEPOINT":
		p.Kind, p.Name = Savepoint, body.text("savepoint_name")
	case "TRANS_STMT_ROLLBACK_TO":
		p.Kind, p.Name = RollbackTo, body.text("savepoint_name")
	case "TRANS_STMT_RELEASE":
		p.Kind, p.Name = Release, body.text("savepoint_name")
	}
}

func levelOf(options []any) record.Level {
	for _, option := range options {
		_, o := only(option)
		if o.text("defname") != "transaction_isolation" {
			continue
		}
		switch o.as("arg", "A_Const").node("sval").text("sval") {
		case "serializable":
			return record.Serializable
		case "repeatable read":
			return record.RepeatableRead
		case "read committed", "read uncommitted":
			return record.ReadCommitted
		}
	}
	return record.UnknownLevel
}

// setting handles SET and RESET. Names and rights depend on search_path and the role.
func setting(p *Plan, body node) {
	switch name := strings.ToLower(body.text("name")); name {
	case "transaction":
		p.Level = levelOf(body.list("args"))
	case "session characteristics":
		p.DefaultLevel = levelOf(body.list("args"))
		p.SetsDefault = p.DefaultLevel != record.UnknownLevel
	case "transaction_isolation":
		p.SetsLevel = true
	case "default_transaction_isolation":
		switch {
		case body.flag("is_local"): // it ends before another transaction begins
		case body.text("kind") == "VAR_SET_VALUE":
			p.SetsDefault = true
		default: // to what it is then has to be asked
			p.Kind, p.ChangesNames, p.Settings = Set, true, true
		}
	case "transaction snapshot":
		p.TakesSnapshot = true
	case "search_path", "role", "session_authorization", "client_encoding":
		p.Kind, p.ChangesNames, p.Settings = Set, true, true
		if kind := body.text("kind"); name == "session_authorization" && !body.flag("is_local") &&
			(kind == "VAR_RESET" || kind == "VAR_SET_DEFAULT") {
			p.Resets = User
		}
	default:
		if body.text("kind") == "VAR_RESET_ALL" {
			p.Kind, p.ChangesNames, p.Settings, p.Resets = Set, true, true, Settings|Level
		}
	}
}

// wrapped plans a statement around a query that begins after a keyword.
func (m *maker) wrapped(p *Plan, stmt statement, kind Kind, name string, body node, keyword string) *Plan {
	p.Kind, p.Name = kind, name
	inner, query := only(body["query"])
	start := -1
	for i := stmt.from; i < stmt.to; i++ {
		if m.depths[i] == 0 && m.is(i, keyword) {
			start = i + 1
			break
		}
	}
	if start < 0 || query == nil {
		return p
	}
	switch inner {
	case "SelectStmt", "InsertStmt", "UpdateStmt", "DeleteStmt", "MergeStmt":
	default:
		p.Inner = &Plan{Shape: m.shape}
		m.other(p.Inner, inner, query)
		return p
	}
	m.cursor, m.prepared = kind == Declare, kind == Prepare
	p.Inner = m.query(stmt, inner, query, start)
	p.insertions, p.Inner.insertions = p.Inner.insertions, nil
	p.positions, p.Inner.positions = p.Inner.positions, nil
	p.sample, p.inserted, p.relations = p.Inner.sample, p.Inner.inserted, p.Inner.relations
	p.Inner.sample, p.Inner.relations = "", nil
	p.Inner.Asked, p.Inner.asked = false, nil // its parameters come later
	if p.Inner.misplaced != nil {
		p.misplaced = &Plan{Kind: p.Kind, Shape: p.Shape, Name: p.Name, Holds: p.Holds, Inner: p.Inner.misplaced}
		p.Inner.misplaced = nil
	}
	return p
}

// writesWithin reports whether a part of a statement writes: a part of WITH.
func writesWithin(value any) bool {
	found := false
	visit(value, func(kind string, _ node) bool {
		switch kind {
		case "InsertStmt", "UpdateStmt", "DeleteStmt", "MergeStmt":
			found = true
		}
		return !found
	})
	return found
}

// aFunctionReads is why something that isn't in a statement's text may be unseen.
const aFunctionReads = "what a function reads"

// calls checks what a statement's functions and operators may do.
func (m *maker) calls(p *Plan, value any) {
	visit(value, func(kind string, body node) bool {
		switch kind {
		case "FuncCall":
			name := names(body.list("funcname"))
			schema := ""
			if len(name) > 1 {
				schema = name[len(name)-2]
			}
			if len(name) == 0 {
				break
			}
			f := m.catalog.Function(schema, name[len(name)-1])
			if f.Reads {
				p.leaveOut(aFunctionReads)
			}
			p.MayWriteUnseen = p.MayWriteUnseen || f.Writes
			p.ChangesNames = p.ChangesNames || f.Names
			p.Calls = p.Calls || f.Made
			p.Volatile = p.Volatile || !m.catalog.Steady(schema, name[len(name)-1])
			if name[len(name)-1] == "set_config" && !f.Made {
				m.configs = append(m.configs, m.nameOf(body))
			} else {
				m.renames = m.renames || f.Names
			}
			p.MayLevel = p.MayLevel || m.catalog.Levels && f.Made
			if name[len(name)-1] == "set_config" && p.Kind == Select {
				p.Kind = Set
			}
		case "A_Expr":
			name := names(body.list("name"))
			if len(name) > 0 && !m.catalog.PureOperator(name[len(name)-1]) {
				p.leaveOut(aFunctionReads)
				p.MayWriteUnseen, p.Calls, p.Volatile = true, true, true
			}
		}
		return true
	})
}

// nameOf returns the token of the constant that is a call's first argument, or nowhere.
func (m *maker) nameOf(call node) int {
	args := call.list("args")
	if len(args) == 0 {
		return nowhere
	}
	kind, body := only(args[0])
	if kind != "A_Const" {
		return nowhere
	}
	return m.tokenAt(body.number("location"))
}

// customs makes the plan for the same text with other constants: a setting whose name has a dot is an extension's, or
// the application's own, and changes nothing that names refer to.
func (m *maker) customs(p *Plan) {
	if p.Kind != Set || len(m.configs) == 0 || m.renames {
		return
	}
	p.Settings = true
	for _, at := range m.configs {
		if at < 0 || m.tokens[at].kind != stringToken {
			return
		}
	}
	its := *p
	its.Kind, its.ChangesNames, its.Settings = Select, false, false
	p.custom, p.configs = &its, m.configs
}

// setsCustom reports whether all names that set_config sets have a dot.
func (p *Plan) setsCustom(text string, tokens []token) bool {
	for _, at := range p.configs {
		name, ok := constant(text[tokens[at].start:tokens[at].end], false)
		if at+1 < len(tokens) && tokens[at+1].kind == stringToken || !ok || !strings.Contains(string(name), ".") {
			return false
		}
	}
	return true
}
