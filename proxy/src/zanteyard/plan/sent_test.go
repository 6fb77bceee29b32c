package plan

import (
	"fmt"
	"go/ast"
	"go/parser"
	gotoken "go/token"
	"os"
	"path/filepath"
	"strconv"
	"strings"
	"testing"

	"zanteyard/catalog"
	"zanteyard/keys"
	"zanteyard/own"
)

// The tests below hold the rule of package own: no text that the audit sends by itself, and nothing that it adds to a
// client's statement, has a name that somebody else could give another meaning.

// unqualified returns what a text leaves to the search path. On a client's connection that includes operators; on the
// audit's own the path is pg_catalog.
func unqualified(trees []node, guest bool) []string {
	var found []string
	tell := func(what string, name []string) {
		if len(name) < 2 || name[0] != "pg_catalog" {
			found = append(found, what+" "+strings.Join(name, "."))
		}
	}
	ctes := map[string]bool{}
	for _, tree := range trees {
		visit(tree, func(kind string, body node) bool {
			if kind == "CommonTableExpr" {
				ctes[body.text("ctename")] = true
			}
			return true
		})
		visit(tree, func(kind string, body node) bool {
			switch kind {
			case "FuncCall":
				tell("function", names(body.list("funcname")))
			case "TypeCast":
				tell("type", names(body.node("typeName").list("names")))
			case "RangeVar":
				if !ctes[body.text("relname")] || body.text("schemaname") != "" {
					tell("table", []string{body.text("schemaname"), body.text("relname")})
				}
			case "A_Expr":
				if guest || len(names(body.list("name"))) > 1 {
					tell("operator", names(body.list("name")))
				}
				switch kind := body.text("kind"); {
				case !guest, kind == "AEXPR_OP", kind == "AEXPR_OP_ANY":
				default:
					found = append(found, "an operator without a name ("+kind+")")
				}
			case "SubLink":
				if guest && body.has("testexpr") {
					found = append(found, "an operator without a name (IN)")
				}
			case "CaseExpr":
				if guest && body.has("arg") {
					found = append(found, "an operator without a name (CASE x WHEN)")
				}
			case "JoinExpr":
				if guest && (body.flag("isNatural") || body.has("usingClause")) {
					found = append(found, "an operator without a name (USING)")
				}
			case "SortBy":
				if body.has("useOp") {
					tell("operator", names(body.list("useOp")))
				}
			case "ColumnDef":
				tell("type", names(body.node("typeName").list("names")))
			case "CollateClause":
				found = append(found, kind)
			}
			return true
		})
	}
	return found
}

// sources are all files of the proxy but the tests, by package.
func sources(t *testing.T) map[string]map[string]*ast.File {
	t.Helper()
	all := map[string]map[string]*ast.File{}
	err := filepath.Walk("..", func(path string, info os.FileInfo, err error) error {
		if err != nil || info.IsDir() || !strings.HasSuffix(path, ".go") || strings.HasSuffix(path, "_test.go") {
			return err
		}
		file, err := parser.ParseFile(files, path, nil, 0)
		if err != nil {
			return err
		}
		name := filepath.Base(filepath.Dir(path))
		if all[name] == nil {
			all[name] = map[string]*ast.File{}
		}
		all[name][path] = file
		return nil
	})
	if err != nil || len(all) < 15 {
		t.Fatal(len(all), err)
	}
	return all
}

var files = gotoken.NewFileSet()

// constants evaluates expressions that are constant strings.
type constants struct {
	all     map[string]map[string]*ast.File
	folder  string
	nesting int
}

func (c constants) value(e ast.Expr) (string, bool) {
	if c.nesting++; c.nesting > 20 {
		return "", false
	}
	switch e := e.(type) {
	case *ast.BasicLit:
		text, err := strconv.Unquote(e.Value)
		return text, e.Kind == gotoken.STRING && err == nil
	case *ast.ParenExpr:
		return c.value(e.X)
	case *ast.BinaryExpr:
		one, ok := c.value(e.X)
		other, too := c.value(e.Y)
		return one + other, ok && too && e.Op == gotoken.ADD
	case *ast.Ident:
		return c.named(c.folder, e.Name)
	case *ast.SelectorExpr:
		if x, is := e.X.(*ast.Ident); is {
			return c.named(x.Name, e.Sel.Name)
		}
	}
	return "", false
}

// named is the value of a package's constant.
func (c constants) named(folder, name string) (string, bool) {
	for _, file := range c.all[folder] {
		for _, one := range file.Decls {
			its, is := one.(*ast.GenDecl)
			if !is || its.Tok != gotoken.CONST {
				continue
			}
			for _, spec := range its.Specs {
				value := spec.(*ast.ValueSpec)
				for i, its := range value.Names {
					if its.Name == name && i < len(value.Values) {
						c.folder = folder
						return c.value(value.Values[i])
					}
				}
			}
		}
	}
	return "", false
}

// calls are the calls of functions of a package, by name, with where they are.
func calls(file *ast.File, of string, f func(name string, call *ast.CallExpr)) {
	ast.Inspect(file, func(n ast.Node) bool {
		if call, is := n.(*ast.CallExpr); is {
			if s, is := call.Fun.(*ast.SelectorExpr); is {
				if x, is := s.X.(*ast.Ident); is && x.Name == of {
					f(s.Sel.Name, call)
				}
			}
		}
		return true
	})
}

// sample stands for a part of a text that isn't constant.
func sample(e ast.Expr) string {
	kind := ""
	switch e := e.(type) {
	case *ast.CallExpr:
		if s, is := e.Fun.(*ast.SelectorExpr); is {
			kind = s.Sel.Name
		}
	case *ast.CompositeLit:
		if s, is := e.Type.(*ast.SelectorExpr); is {
			kind = s.Sel.Name
		}
	case *ast.Ident:
		kind = e.Name
	}
	switch kind {
	case "Number":
		return "7"
	case "Literal", "texts":
		return "'x'"
	case "name": // the function of an extension, in the schema that pg_depend leads to: slot/control.go
		return "pg_catalog.found_by_its_extension"
	}
	return ""
}

// TestOwnTexts finds each text that is sent, in the sources.
func TestOwnTexts(t *testing.T) {
	all := sources(t)
	found := 0
	for folder, its := range all {
		for path, file := range its {
			calls(file, "own", func(name string, call *ast.CallExpr) {
				at := files.Position(call.Pos())
				where := fmt.Sprintf("%s:%d", path, at.Line)
				switch name {
				case "SQL", "Guest", "Command":
				case "Planned": // what a plan made, or a client's own statement with it: the next test
					if folder != "session" {
						t.Errorf("%s: only sessions send what is planned", where)
					}
					return
				default:
					return
				}
				text, ok := constants{all: all, folder: folder}.value(call.Args[0])
				if !ok {
					t.Errorf("%s: the text isn't constant", where)
					return
				}
				found++
				if name == "Command" {
					if !strings.HasPrefix(text, "CREATE_REPLICATION_SLOT ") && !strings.HasPrefix(text, "START_REPLICATION ") {
						t.Errorf("%s: %q isn't a command of replication", where, text)
					}
					return
				}
				for _, part := range call.Args[1:] {
					its := sample(part)
					if its == "" {
						t.Errorf("%s: what replaces a %%s isn't known", where)
					}
					text = strings.Replace(text, "%s", its, 1)
				}
				trees, err := parse(text)
				if err != nil {
					t.Errorf("%s: %v: %s", where, err, text)
				}
				for _, one := range unqualified(trees, name == "Guest") {
					t.Errorf("%s: %s isn't qualified: %s", where, one, text)
				}
			})
		}
	}
	if found < 20 {
		t.Errorf("only %d texts were found", found)
	}
}

// TestOnlyOwnTexts: nothing is sent to the server in another way than by the texts that the test above finds, and no
// connection of the audit's own is made without package own.
func TestOnlyOwnTexts(t *testing.T) {
	senders := map[string][]string{ // by method or type: where it may be used
		"Connect": {"own"}, "ConnectConfig": {"own"}, "Exec": {"own"}, "ExecParams": {"own"}, "ExecPrepared": {"own"},
		"ExecBatch": {"own"}, "CopyFrom": {}, "CopyTo": {}, "Query": {}, "Parse": {"session/own.go"},
	}
	packages := map[string]bool{"pgconn": true, "pgproto3": true}
	for folder, its := range sources(t) {
		if folder == "cluster" || folder == "drivers" {
			continue // for tests
		}
		for path, file := range its {
			ast.Inspect(file, func(n ast.Node) bool {
				s, is := n.(*ast.SelectorExpr)
				if !is {
					return true
				}
				x, _ := s.X.(*ast.Ident)
				where, known := senders[s.Sel.Name]
				ofPackage := x != nil && packages[x.Name]
				if !known || !ofPackage && (s.Sel.Name == "Query" || s.Sel.Name == "Parse" || s.Sel.Name == "Connect") {
					return true
				}
				for _, one := range where {
					if one == folder || strings.HasSuffix(path, one) {
						return true
					}
				}
				t.Errorf("%s: %s is used outside of package own", files.Position(s.Pos()), s.Sel.Name)
				return true
			})
		}
	}
}

// TestAddedTexts: what a plan adds to a statement, and the question that it asks first, have no name that a client's
// search path could give another meaning, for each type of key and for names made to deceive.
func TestAddedTexts(t *testing.T) {
	hostile := []string{`a`, `"`, `'`, `x"; DROP TABLE t; --`, `\`, `pg_catalog.count(`, `a.b`, `é`, `$1`}
	all := 0
	for _, kind := range knownTypes() {
		for i, column := range hostile {
			c := kindOf(t, hostile[len(hostile)-1-i], column, kind)
			cache := NewCache(c)
			table := quote(hostile[len(hostile)-1-i])
			for _, text := range []string{
				"SELECT v FROM " + table, "SELECT x.v FROM " + table + " x, " + table + " y ORDER BY 1",
				"SELECT v FROM " + table + " WHERE " + quote(column) + " = '1'", "UPDATE " + table + " SET v = 1",
				"INSERT INTO " + table + " (v) VALUES (1)", "DELETE FROM " + table + " RETURNING v",
				"UPDATE " + table + " x SET v = 1 FROM " + table + " y RETURNING x.v",
				"DELETE FROM " + table + " x USING " + table + " y RETURNING x.v",
				"SELECT count(*) FROM " + table, "SELECT v, count(*) FROM " + table + " GROUP BY v ORDER BY v",
				"SELECT DISTINCT v FROM " + table + " ORDER BY v",
				"SELECT DISTINCT x.v, y.v AS w FROM " + table + " x JOIN " + table + " y ON x.v = y.v ORDER BY x.v, w",
				"SELECT v FROM " + table + " FOR UPDATE", "DECLARE c CURSOR FOR SELECT v FROM " + table,
			} {
				for _, path := range []string{"", Converting} {
					p, tokens := cache.PlanIn(path, text)
					rewritten, inserted := p.Rewrite(text, tokens)
					if inserted == nil {
						continue
					}
					all++
					for _, its := range inserted {
						check(t, text, "SELECT x"+separated(rewritten[its.At:its.At+its.Length]))
					}
					check(t, text, p.Trial().Privileges)
				}
			}
		}
	}
	if all < 300 {
		t.Errorf("only %d statements got something added", all)
	}
}

// separated makes an insertion a list of more columns.
func separated(insertion string) string {
	trimmed := strings.TrimSpace(insertion)
	trimmed = strings.TrimSpace(strings.TrimPrefix(strings.TrimPrefix(trimmed, "RETURNING"), ","))
	return ", " + strings.TrimSuffix(trimmed, ",")
}

func check(t *testing.T, of, text string) {
	t.Helper()
	trees, err := parse(text)
	if err != nil || len(trees) != 1 {
		t.Fatalf("%s: %d statements, %v: %s", of, len(trees), err, text)
	}
	looked := lookedUp(trees[0])
	visit(trees[0], func(kind string, body node) bool {
		isRow := false // x.* is a row of x, or an error
		for _, field := range body.list("fields") {
			its, _ := only(field)
			isRow = its == "A_Star"
		}
		if fields := names(body.list("fields")); kind == "ColumnRef" && len(fields) > 1 && !isRow && !looked[fields[len(fields)-1]] {
			t.Errorf("%s: %s may become a call: %s", of, strings.Join(fields, "."), text)
		}
		return true
	})
	for _, one := range unqualified(trees, true) {
		t.Errorf("%s: %s isn't qualified: %s", of, one, text)
	}
}

// lookedUp returns the columns that a text also looks up by their names alone, in queries of the client's tables that are
// never run, and takes these queries out of the tree. They may have nothing else in them.
func lookedUp(tree node) map[string]bool {
	looked := map[string]bool{}
	visit(tree, func(kind string, body node) bool {
		args := body.list("args")
		if kind != "BoolExpr" || body.text("boolop") != "AND_EXPR" || len(args) != 2 {
			return true
		}
		if constant, _ := only(args[0]); constant != "TypeCast" && constant != "A_Const" { // as they write false
			return true
		}
		_, outer := only(args[1])
		_, query := only(outer["subselect"])
		walls := map[string]int{"xmin": 2, "tableoid": 2}
		for _, from := range query.list("fromClause") {
			_, table := only(from)
			if table.text("schemaname") != "pg_catalog" || table.text("relname") != "pg_am" {
				return true
			}
			for _, name := range names(table.node("alias").list("colnames")) {
				walls[name]++
			}
		}
		for _, exists := range conjuncts(query["whereClause"]) {
			_, link := only(exists)
			_, inner := only(link["subselect"])
			if link.text("subLinkType") != "EXISTS_SUBLINK" || len(inner.list("fromClause")) != 1 || inner.has("whereClause") {
				return true
			}
			for _, target := range inner.list("targetList") {
				_, its := only(target)
				fields := names(its.as("val", "ColumnRef").list("fields"))
				if len(fields) != 1 || walls[fields[0]] != 2 {
					return true
				}
				looked[fields[0]] = true
			}
		}
		delete(body, "args")
		return true
	})
	return looked
}

// kindOf is a catalog with one table, whose key is one column.
func kindOf(t *testing.T, table, column string, kind uint32) *catalog.Catalog {
	t.Helper()
	c, err := catalog.Load(ctx(), func(text own.Text) ([][]string, error) {
		its := text.String()
		switch {
		case strings.HasPrefix(its, "SELECT pg_catalog.getdatabaseencoding"):
			return [][]string{{"UTF8"}}, nil
		case strings.Contains(its, "c.relrowsecurity"):
			return [][]string{{"20000", "public", table, "r", "p", "heap", "d", "false", "false", "20000", "0", "20002"}}, nil
		case strings.Contains(its, "i.indnkeyatts"):
			return [][]string{{"20000", "true", "false", "1", "1", "btree", "20001 1", "true", "true"}}, nil
		case strings.Contains(its, "a.attnum::"):
			return [][]string{{"20000", "1", column, fmt.Sprint(kind)}, {"20000", "2", "v", "23"}}, nil
		case strings.Contains(its, "m.attrelid"):
			return [][]string{{"20000", "1", fmt.Sprint(kind), "d", "false", "false", "0"}, {"20000", "2", "23", "", "false", "false", "0"}}, nil
		case strings.Contains(its, "typbasetype") && kind == keys.Enum:
			return [][]string{{fmt.Sprint(kind), "e", "0", "mood"}}, nil
		}
		return nil, nil
	})
	if err != nil {
		t.Fatal(err)
	}
	return c
}

// knownTypes are the types that a key may have.
func knownTypes() []uint32 {
	var all []uint32
	for kind := uint32(1); kind < 10000; kind++ {
		if keys.Known(kind) {
			all = append(all, kind)
		}
	}
	return all
}
