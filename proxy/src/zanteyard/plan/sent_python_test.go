package plan

import (
	"encoding/json"
	"os/exec"
	"strings"
	"testing"
)

// read parses the Python package's modules of a pattern, and evaluates their constants.
const read = `
import ast, glob, json, os, re
paths = sorted(glob.glob("../../../../python/zanteyard/%s", recursive=True))
trees = {os.path.basename(path)[:-3]: ast.parse(open(path).read()) for path in paths}

def constants(tree):
    found = {}
    for one in tree.body:
        if isinstance(one, ast.Assign) and isinstance(one.targets[0], ast.Name):
            found[one.targets[0].id] = one.value
        elif isinstance(one, ast.Assign) and isinstance(one.targets[0], ast.Tuple) and isinstance(one.value, ast.Tuple):
            found.update({its.id: value for its, value in zip(one.targets[0].elts, one.value.elts)})
        elif isinstance(one, ast.ImportFrom) and one.level == 1 and one.module in trees:
            others = constants(trees[one.module])
            values = {its.asname or its.name: value(others[its.name], others) for its in one.names if its.name in others}
            found.update({its: ast.Constant(text) for its, text in values.items() if text is not None})
    return found

def value(node, known):
    if isinstance(node, ast.Constant):
        return str(node.value)
    if isinstance(node, ast.JoinedStr):
        parts = [value(it.value if isinstance(it, ast.FormattedValue) else it, known) for it in node.values]
        return None if None in parts else "".join(parts)
    if isinstance(node, ast.Name) and node.id in known:
        return value(known[node.id], known)
    if isinstance(node, ast.BinOp) and isinstance(node.op, ast.Sub):
        return str(int(value(node.left, known)) - int(value(node.right, known)))
    return None

found = []
`

// collect prints each text that the Python package sends by its own connection to a server. A text that isn't made of
// constants alone is an error: it is "".
const collect = `
for name, tree in trees.items():
    known = constants(tree)
    for node in ast.walk(tree):
        if isinstance(node, ast.Call) and isinstance(node.func, ast.Attribute):
            on = node.func.value
            if node.func.attr in ("run", "one") and isinstance(on, ast.Name) and on.id == "database":
                found.append((f"{name}.py:{node.lineno}", value(node.args[0], known) or ""))
            elif node.func.attr in ("execute", "executemany", "cursor", "copy_expert") and name != "_database":
                found.append((f"{name}.py:{node.lineno}", ""))
print(json.dumps(found))
`

// TestPythonTexts finds each text that the Python package sends to a server that is to be audited.
func TestPythonTexts(t *testing.T) {
	checkPython(t, "watch/**/*.py", collect, false, 15)
}

// collectStores prints each statement that a store in PostgreSQL sends. Its connection has the application's search
// path, so operators have to be qualified too. What its functions send is a constant of the module, or a text of theirs
// that is printed as well; the table is the user's.
const collectStores = `
sends = {"execute", "send", "ask", "row", "answer", "outcome_told", "row_of", "with_table"}
fragments = {"text", "before + text.format(table=self.table)", "its[0]", "with_table(text, self.table)"}
for name, tree in trees.items():
    known = constants(tree)
    texts = {f"{name}.py: {its}": value(node, known) for its, node in known.items()}
    for function in ast.walk(tree):
        if not isinstance(function, (ast.FunctionDef, ast.Lambda)):
            continue
        for node in ast.walk(function):
            if isinstance(node, (ast.Constant, ast.JoinedStr)):
                texts[f"{name}.py:{node.lineno}"] = value(node, known)
            if not isinstance(node, ast.Call):
                continue
            called = node.func.attr if isinstance(node.func, ast.Attribute) else getattr(node.func, "id", "")
            if called in sends:
                first = node.args[1 if called in ("answer", "outcome_told", "row_of") else 0]
                while isinstance(first, ast.Call) and isinstance(first.func, ast.Attribute):
                    first = first.func.value  # of .format and .replace
                if isinstance(first, ast.Call):
                    first = first.args[0]  # of with_table
                if value(first, known) is None and ast.unparse(first) not in fragments:
                    found.append((f"{name}.py:{node.lineno}", ""))
    for where, text in texts.items():
        if text and re.match("(SELECT|INSERT|UPDATE|DELETE|WITH|CREATE|SET) ", text):
            for old, new in (("{table}", "pg_catalog.t"), ("{literal}", "'x'")):
                text = text.replace(old, new)
            kept = value(ast.Name("KEPT"), constants(trees["postgres"]))
            for its in ("%s", kept) if "{value}" in text else ("",):
                found.append((where, text.replace("{value}", its)))
print(json.dumps(found))
`

// TestStoresTexts: nothing that somebody else made is called by a store's own statements, whatever the search path is.
func TestStoresTexts(t *testing.T) {
	checkPython(t, "stores/*postgres*.py", collectStores, true, 20)
}

// checkPython parses the texts that a script finds in the Python package, at least so many.
func checkPython(t *testing.T, pattern, script string, guest bool, least int) {
	t.Helper()
	python, err := exec.LookPath("python3")
	if err != nil {
		t.Skip(err)
	}
	out, err := exec.Command(python, "-c", strings.Replace(read, "%s", pattern, 1)+script).Output()
	if err != nil {
		t.Fatal(err)
	}
	var found [][2]string
	if err := json.Unmarshal(out, &found); err != nil {
		t.Fatal(err)
	}
	for _, one := range found {
		where, text := one[0], one[1]
		if text == "" {
			t.Errorf("%s: the text isn't constant, or isn't sent where such texts are sent", where)
			continue
		}
		trees, err := parse(strings.ReplaceAll(text, "%s", "'x'"))
		if err != nil {
			t.Errorf("%s: %v: %s", where, err, text)
		}
		for _, its := range unqualified(trees, guest) {
			t.Errorf("%s: %s isn't qualified: %s", where, its, text)
		}
	}
	if len(found) < least {
		t.Errorf("only %d texts were found", len(found))
	}
}
