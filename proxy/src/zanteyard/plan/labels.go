package plan

import (
	"strings"

	"zanteyard/condition"
)

// A constant that is compared with an enumeration's column is sent with the column's type, so that it is certain that the
// server compares labels (condition.Label). The server makes the constant of it when it plans the statement: the plan is the
// same, and so are the errors. For a parameter it would be another plan.

// typesLabels makes the constants that are labels of enumerations have their columns' types.
func (m *maker) typesLabels(p *Plan) {
	if p.follow == nil || !p.adds() || p.Kind != Select || p.Copied || m.cursor || m.prepared {
		return
	}
	first := p.insertions[0].token
	for _, one := range p.insertions {
		if one.token < first {
			first = one.token
		}
	}
	columns := map[int]string{}
	var all []int
	for _, label := range p.follow.labels() {
		token := m.tokenAt(label.At)
		if token <= first || !strings.HasPrefix(m.word(token), "'") || token+1 < len(m.tokens) && m.tokens[token+1].kind == stringToken {
			return
		}
		if columns[token] == "" {
			all = append(all, token)
		}
		var names []string
		for _, name := range label.Column {
			names = append(names, quote(name))
		}
		columns[token] = strings.Join(names, ".")
	}
	for _, token := range all {
		p.insertions = append(p.insertions, insertion{text: labelBegins, token: token, alone: true},
			insertion{text: ", " + columns[token] + ")", token: token, behind: true, alone: true})
	}
	p.labels = all
}

func (f *follow) labels() (all []condition.Label) {
	for i := range f.sides {
		forms := []*condition.Form{f.sides[i].form, f.sides[i].alone}
		if f.sides[i].checked != nil {
			forms = append(forms, f.sides[i].checked.form)
		}
		for _, form := range forms {
			if form != nil {
				all = append(all, form.Labels...)
			}
		}
	}
	return all
}

const labelBegins = "COALESCE("

// withoutTypes takes the types of labels off a rewritten statement's tree. It returns false if they aren't there.
func (p *Plan) withoutTypes(tree node, inserted []Inserted) bool {
	begins := map[int]bool{}
	for i, one := range p.insertions {
		if one.alone && !one.behind {
			begins[inserted[i].At] = true
		}
	}
	found := len(begins) - withoutTypes(map[string]any(tree), begins)
	return found == 0
}

func withoutTypes(value any, begins map[int]bool) (found int) {
	take := func(value any) any {
		kind, its := only(value)
		args := its.list("args")
		if kind != "CoalesceExpr" || len(args) != 2 || !begins[its.number("location")] {
			found += withoutTypes(value, begins)
			return value
		}
		found++
		return args[0]
	}
	switch v := value.(type) {
	case map[string]any:
		for name, below := range v {
			v[name] = take(below)
		}
	case node:
		return withoutTypes(map[string]any(v), begins)
	case []any:
		for i, below := range v {
			v[i] = take(below)
		}
	}
	return found
}
