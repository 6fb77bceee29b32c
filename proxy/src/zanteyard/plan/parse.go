package plan

/*
#cgo LDFLAGS: -lpg_query
#include <stdlib.h>
#include <pg_query.h>
*/
import "C"

import (
	"encoding/json"
	"errors"
	"fmt"
	"unsafe"
)

// node is a node of PostgreSQL's parse tree: its fields by name, as in pg_query.proto. A field whose value is zero is
// missing.
type node map[string]any

// parse returns the statements of a text.
func parse(text string) ([]node, error) {
	c := C.CString(text)
	defer C.free(unsafe.Pointer(c))
	result := C.pg_query_parse(c)
	defer C.pg_query_free_parse_result(result)
	if result.error != nil {
		return nil, errors.New(C.GoString(result.error.message))
	}
	var tree struct{ Stmts []node }
	if err := json.Unmarshal([]byte(C.GoString(result.parse_tree)), &tree); err != nil {
		return nil, fmt.Errorf("reading the parse tree: %w", err)
	}
	for _, stmt := range tree.Stmts {
		if isDeeper(map[string]any(stmt), mostLevels) {
			return nil, errDeep
		}
	}
	return tree.Stmts, nil
}

// mostLevels is how many nodes and lists of a parse tree may be in one another. A statement of 200 NOT has as many: what is
// looked up at each level of a deeper one may be all that is below it.
const mostLevels = 600

var errDeep = errors.New("the statement is too deeply nested")

// isDeeper reports whether a value has more levels.
func isDeeper(value any, than int) bool {
	switch v := value.(type) {
	case map[string]any:
		for _, below := range v {
			if isDeeper(below, than-1) {
				return true
			}
		}
	case []any:
		for _, below := range v {
			if isDeeper(below, than-1) {
				return true
			}
		}
	}
	return than < 0
}

// Parse returns the statements of a text, each as one node of the parse tree: {"SelectStmt": {..}}.
func Parse(text string) ([]map[string]any, error) {
	stmts, err := parse(text)
	all := make([]map[string]any, len(stmts))
	for i, stmt := range stmts {
		all[i] = stmt.node("stmt")
	}
	return all, err
}

// asNode converts a value as encoding/json returns it.
func asNode(value any) node {
	switch v := value.(type) {
	case node:
		return v
	case map[string]any:
		return v
	}
	return nil
}

// only opens a node with one field that says what it is: {"RangeVar": {..}}.
func only(value any) (string, node) {
	for name, body := range asNode(value) {
		return name, asNode(body)
	}
	return "", nil
}

func (n node) node(name string) node  { return asNode(n[name]) }
func (n node) list(name string) []any { l, _ := n[name].([]any); return l }
func (n node) text(name string) string {
	s, _ := n[name].(string)
	return s
}
func (n node) flag(name string) bool { b, _ := n[name].(bool); return b }
func (n node) number(name string) int {
	f, _ := n[name].(float64)
	return int(f)
}
func (n node) has(name string) bool { _, ok := n[name]; return ok }

// as returns a field's content, if it is a node of the kind.
func (n node) as(field, kind string) node {
	name, body := only(n[field])
	if name != kind {
		return nil
	}
	return body
}

// names returns the strings of a list of String nodes; a star is "*".
func names(list []any) []string {
	all := make([]string, 0, len(list))
	for _, item := range list {
		switch kind, body := only(item); kind {
		case "String":
			all = append(all, body.text("sval"))
		case "A_Star":
			all = append(all, "*")
		}
	}
	return all
}

// visit calls f with each node under a value, from the top; it goes below a node if f returns true.
func visit(value any, f func(kind string, body node) bool) {
	switch v := value.(type) {
	case node:
		visit(map[string]any(v), f)
	case map[string]any:
		for name, below := range v {
			if body, ok := below.(map[string]any); ok && name[0] >= 'A' && name[0] <= 'Z' && !f(name, body) {
				continue
			}
			visit(below, f)
		}
	case []any:
		for _, below := range v {
			visit(below, f)
		}
	}
}

// alike compares two trees, ignoring positions in the text.
func alike(one, other any) bool {
	switch a := one.(type) {
	case node:
		return alike(map[string]any(a), other)
	case map[string]any:
		b := asNode(other)
		if b == nil {
			return false
		}
		for name, value := range a {
			if !isPlace(name) && !alike(value, b[name]) {
				return false
			}
		}
		for name := range b {
			if _, ok := a[name]; !ok && !isPlace(name) {
				return false
			}
		}
		return true
	case []any:
		b, ok := other.([]any)
		if !ok || len(a) != len(b) {
			return false
		}
		for i := range a {
			if !alike(a[i], b[i]) {
				return false
			}
		}
		return true
	}
	return one == other
}

func isPlace(name string) bool {
	return name == "location" || name == "stmt_location" || name == "stmt_len"
}
