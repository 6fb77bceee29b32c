package condition

// tree is a node of PostgreSQL's parse tree, as encoding/json reads what pg_query writes: its fields by name. A field
// whose value is zero is missing.
type tree map[string]any

func asTree(value any) tree {
	switch v := value.(type) {
	case tree:
		return v
	case map[string]any:
		return v
	}
	return nil
}

// open returns what a node with one field is, and its content: {"ColumnRef": {..}}.
func open(value any) (string, tree) {
	for kind, body := range asTree(value) {
		return kind, asTree(body)
	}
	return "", nil
}

func (t tree) tree(name string) tree      { return asTree(t[name]) }
func (t tree) list(name string) []any     { l, _ := t[name].([]any); return l }
func (t tree) text(name string) string    { s, _ := t[name].(string); return s }
func (t tree) flag(name string) bool      { b, _ := t[name].(bool); return b }
func (t tree) has(name string) bool       { _, ok := t[name]; return ok }
func (t tree) number(name string) int     { f, _ := t[name].(float64); return int(f) }
func (t tree) names(name string) []string { return namesOf(t.list(name)) }

// namesOf returns the strings of a list of String nodes; a star is "*".
func namesOf(list []any) []string {
	all := make([]string, 0, len(list))
	for _, item := range list {
		switch kind, body := open(item); kind {
		case "String":
			all = append(all, body.text("sval"))
		case "A_Star":
			all = append(all, "*")
		}
	}
	return all
}
