package condition

var negations = map[string]int{"NOT_EXPR": 1}

// either reads what OR joins. Whatever of it holds makes the whole hold. So if some of it isn't followed, the rest is: a row
// that isn't in the result doesn't satisfy that.
func (r *reader) either(list []any) (expression, error) {
	var args []expression
	var wrong error
	for _, arg := range list {
		before, inner := r.form.places(), r.inner
		one, err := r.truth(arg)
		if r.inner = inner; err != nil {
			if inner > 0 {
				return nil, err
			}
			r.form.restore(before)
			wrong = err
			continue
		}
		args = append(args, one)
	}
	switch {
	case len(args) == 0:
		return nil, wrong
	case wrong != nil:
		r.form.Partly = wrong
	}
	if len(args) == 1 {
		return args[0], nil
	}
	return junction{args, false}, nil
}

// places are how much a form has of what a statement's expressions depend on.
type places struct {
	constants, literals, outer, labels int
	elsewhere                          map[int]int
	partly                             error
}

func (f *Form) places() places {
	its := places{len(f.Constants), len(f.literals), len(f.Outer), len(f.Labels), make(map[int]int, len(f.elsewhere)), f.Partly}
	for number, count := range f.elsewhere {
		its.elsewhere[number] = count
	}
	return its
}

// restore undoes what was read since then.
func (f *Form) restore(to places) {
	f.Constants, f.literals, f.Outer = f.Constants[:to.constants], f.literals[:to.literals], f.Outer[:to.outer]
	f.Labels = f.Labels[:to.labels]
	f.elsewhere, f.Partly = to.elsewhere, to.partly
}
