package statements

// Merged writes a SELECT that makes one row of several, in any order, with conditions that are no error for any row.
func (w *Writer) Merged() string {
	w.say("SELECT")
	head := w.words
	w.words = nil
	w.from()
	from := w.words
	w.words = head
	column := func() string { return w.pick(w.names...) + "." + w.pick("id", "n") }
	group, one, other := w.Intn(4), column(), column()
	switch group {
	case 0:
		w.say("DISTINCT", w.pick(one, one+", "+other, one+" + 1 AS from", "'x', "+other, w.pick(w.names...)+".id, "+one))
	case 1:
		w.say(one, ",", w.pick("count(*)", "array_agg("+other+" ORDER BY "+other+")", "sum("+other+"::float8)", "max("+other+"::text)"))
	case 2:
		w.say(w.pick("sum("+one+" / 3.0)", "count(DISTINCT "+other+")", "string_agg("+one+"::text, ',' ORDER BY "+one+")"), ",", "count(*)")
	case 3:
		w.say("DISTINCT", "count(*)", ",", one)
	}
	w.say(from...)
	w.conditions(column)
	if group == 1 || group == 3 {
		w.say("GROUP", "BY", one)
		w.say(w.pick("", "HAVING count(*) > 1", "HAVING max("+other+") > 2"))
	}
	w.say(w.pick("", "ORDER BY 1", "ORDER BY 2 DESC", "ORDER BY count(*)"))
	return w.text()
}

// SetOperation writes a UNION, INTERSECT or EXCEPT of such parts.
func (w *Writer) SetOperation() string {
	for i := w.Intn(3); i >= -1; i-- {
		open := w.once(3)
		if open {
			w.say("(")
		}
		head := append(w.words, "SELECT")
		w.words, w.names = nil, nil
		w.from()
		from := w.words
		w.words = head
		column := func() string { return w.pick(w.names...) + "." + w.pick("id", "n") }
		one, other := column(), column()
		group := w.once(4)
		if group {
			other = w.pick("count(*)::int", "max("+other+")")
		}
		w.say(w.pick("", "", "DISTINCT"), one, w.pick("", "AS x", "AS union"), ",", w.pick(other, other, "1"))
		w.say(from...)
		if w.conditions(column); group {
			w.say("GROUP", "BY", one)
		}
		if open {
			w.say(w.pick("", "ORDER BY 1"), ")")
		}
		if i >= 0 {
			w.say(w.pick("UNION", "UNION", "UNION ALL", "INTERSECT", "INTERSECT ALL", "EXCEPT", "EXCEPT ALL"))
		}
		if i == 1 && w.once(4) {
			w.say("SELECT", "1", ",", "2", "UNION")
		}
	}
	w.say(w.pick("", "ORDER BY 1", "ORDER BY 2 DESC, 1", "ORDER BY 1, 2"))
	return w.text()
}

// conditions writes a WHERE, or none, that is no error for any row.
func (w *Writer) conditions(column func() string) {
	if w.once(2) {
		w.say("WHERE")
		for i := w.Intn(3); i >= 0; i-- {
			switch w.Intn(6) {
			case 0:
				w.say(column(), "IN", "(", "SELECT", w.pick("id", "q.n", "DISTINCT n"), "FROM", w.pick(tables[:9]...), "q", "WHERE",
					"q.n", ">", "1", ")")
			case 1:
				w.say(w.pick("NOT", ""), "EXISTS", "(", "SELECT", w.pick("1", "*", ""), "FROM", w.pick(tables[:9]...), "q", "WHERE",
					"q.id", "=", column(), ")")
			case 2:
				w.say(column(), "IS", w.pick("NULL", "NOT NULL"))
			case 3:
				w.say(column(), "IN", "(", "1", ",", "2", ",", "3", ")")
			default:
				w.say(column(), w.pick("=", "<", ">=", "<>"), w.pick(column(), "3", "'2'", "$1"))
			}
			if i > 0 {
				w.say(w.pick("AND", "OR"))
			}
		}
	}
}
