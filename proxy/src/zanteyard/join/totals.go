package join

import "zanteyard/record"

// Total is how much there was of something, and in which place each is. Rolled-back ones are beside All. What isn't in a
// place yet waits for its decision.
type Total struct {
	All, Checked, RolledBack uint64
	InPart, NotChecked       map[string]uint64
}

// Waiting is how many aren't decided yet.
func (t *Total) Waiting() uint64 { return t.All - t.decided() }

func (t *Total) decided() uint64 { return t.Checked + sumOf(t.InPart) + sumOf(t.NotChecked) }

// ended is how many there were, rolled back or not.
func (t *Total) ended() uint64 { return t.All + t.RolledBack }

// Ended is how many transactions there were, rolled back or not.
func (t *Totals) Ended() uint64 { return t.Transactions.ended() }

func sumOf(its map[string]uint64) (sum uint64) {
	for _, n := range its {
		sum += n
	}
	return sum
}

func (t *Total) leave(reason string, n uint64) { put(&t.NotChecked, reason, n) }
func (t *Total) part(reason string, n uint64)  { put(&t.InPart, reason, n) }

func put(to *map[string]uint64, reason string, n uint64) {
	if n == 0 {
		return
	}
	if *to == nil {
		*to = map[string]uint64{}
	}
	(*to)[reason] += n
}

func (t *Total) add(more *Total) {
	t.All, t.Checked, t.RolledBack = t.All+more.All, t.Checked+more.Checked, t.RolledBack+more.RolledBack
	for reason, n := range more.InPart {
		t.part(reason, n)
	}
	for reason, n := range more.NotChecked {
		t.leave(reason, n)
	}
}

// Totals are how much of what clients finished was checked: transactions, their statements on tables, and rows. A row
// counts as read each time that a SELECT returns it, and as written once in each transaction.
type Totals struct {
	Transactions, Selects, Writes Total
	RowsRead, RowsWritten         Total
	// Conditions are SELECTs that asked by anything but a whole key, and Empty those that returned no row.
	Conditions, Empty uint64
	OnlyRead          uint64 // of the transactions that were rolled back: Options.Rollbacks would check them
	Others            uint64 // definitions, procedures, and whatever else may read or write
	// Of the rows read and checked: what the transaction itself had written, versions from before the audit, and versions
	// that unchecked transactions wrote.
	Own, Before, OfUnchecked uint64
	// Outside are commits that no session reported, and their rows: of programs that bypass the proxy. Untold are others
	// that may be such commits, or those of transactions whose number isn't known, and Bypassed how many of them must be
	// such: there are more than such transactions.
	Outside, OutsideRows, Untold, Bypassed uint64
	Levels                                 [4]uint64 // of Transactions.All, at which level they ran
}

func (t *Totals) each() []*Total {
	return []*Total{&t.Transactions, &t.Selects, &t.Writes, &t.RowsRead, &t.RowsWritten}
}

func (t *Totals) add(more *Totals) {
	its := more.each()
	for i, one := range t.each() {
		one.add(its[i])
	}
	t.Conditions, t.Empty, t.Others = t.Conditions+more.Conditions, t.Empty+more.Empty, t.Others+more.Others
	t.OnlyRead += more.OnlyRead
	t.Own, t.Before, t.OfUnchecked = t.Own+more.Own, t.Before+more.Before, t.OfUnchecked+more.OfUnchecked
	t.Outside, t.OutsideRows = t.Outside+more.Outside, t.OutsideRows+more.OutsideRows
	t.Untold, t.Bypassed = t.Untold+more.Untold, t.Bypassed+more.Bypassed
	for level, n := range more.Levels {
		t.Levels[level] += n
	}
}

// Add adds those of another audit, or part of one.
func (t *Totals) Add(more *Totals) { t.add(more) }

// Copied returns the same, which doesn't change any more.
func (t *Totals) Copied() Totals {
	var to Totals
	to.add(t)
	return to
}

// told counts a transaction that has ended.
func (t *Totals) told(it *record.Transaction) {
	selects, writes, rows := it.Did.Sum(len(it.Reads))
	t.Conditions, t.Empty, t.Others = t.Conditions+it.Did.Conditions, t.Empty+it.Did.Empty, t.Others+it.Did.Others
	if it.Outcome == record.Aborted {
		if it.OnlyRead {
			t.OnlyRead++
		}
		t.Transactions.RolledBack++
		t.Selects.RolledBack += selects
		t.Writes.RolledBack += writes
		t.RowsRead.RolledBack += rows
		t.RowsWritten.RolledBack += it.Did.Written
		return
	}
	if !it.Uncounted {
		t.Transactions.All++
		t.Levels[it.Level]++
	}
	t.Selects.All += selects
	t.Writes.All += writes
	t.RowsRead.All += rows
}

// apart counts a transaction that is never offered. If it was rolled back, there is no reason to be told.
func (t *Totals) apart(it *record.Transaction, reason string) {
	t.told(it)
	if it.Outcome != record.Aborted {
		t.leave(it, reason)
	}
}

// lose counts transactions of which nothing else is known.
func (t *Totals) lose(reason string, n uint64) {
	t.Transactions.All += n
	t.Levels[record.UnknownLevel] += n
	t.Transactions.leave(reason, n)
}

// wrote counts so many rows of a transaction whose commit the slot doesn't report.
func (t *Totals) wrote(it *record.Transaction, rows uint64, reason string) {
	if it.Outcome != record.Aborted {
		t.RowsWritten.All += rows
		t.RowsWritten.leave(reason, rows)
	}
}

// leave counts what a transaction did as not checked, except for its rows in the slot. What wasn't seen in any case keeps
// its own reason.
func (t *Totals) leave(it *record.Transaction, reason string) {
	d := it.Did.Alone(len(it.Reads))
	if !it.Uncounted {
		t.Transactions.leave(reason, 1)
	}
	t.Selects.leave(reason, d.Again)
	t.Writes.leave(reason, d.Writes)
	t.RowsRead.leave(reason, d.Beyond)
	for _, one := range d.Left {
		why := one.Reason
		if one.InPart {
			why = reason
		}
		t.Selects.leave(why, one.Selects)
		t.Writes.leave(why, one.Writes)
		t.RowsRead.leave(why, one.Rows)
	}
}

// take counts a transaction that was offered. why says why it isn't checked in full, or is "".
func (t *Totals) take(e *entry, to *resolution, why string) {
	d := &e.its.Did
	switch {
	case e.its.Uncounted:
	case why == "":
		t.Transactions.Checked++
	case to.offersNothing():
		t.Transactions.leave(why, 1)
	default:
		t.Transactions.part(why, 1)
	}
	t.takeRows(e, to)
	t.takeSelects(e, to)
	switch {
	case e.its.Number == 0 && e.its.MayHaveWritten, e.late != "":
		t.Writes.leave(why, d.Writes)
	case e.writer != nil && e.writer.lacks:
		t.Writes.part(someRows, d.Writes)
	default:
		t.Writes.Checked += d.Writes
	}
	for _, one := range d.Left {
		add := (*Total).leave
		if one.InPart {
			add = (*Total).part
		}
		add(&t.Selects, one.Reason, one.Selects)
		add(&t.Writes, one.Reason, one.Writes)
		add(&t.RowsRead, one.Reason, one.Rows)
	}
	t.RowsWritten.Checked += uint64(len(to.writes) - to.marked)
}

func (t *Totals) takeRows(e *entry, to *resolution) {
	d := &e.its.Did
	rows := record.Did{Rows: d.Rows}.Alone(len(e.its.Reads)).Beyond
	for _, one := range to.lost {
		if one.at > 0 {
			t.RowsRead.leave(one.reason, e.rowsOf(one.at))
			rows -= e.rowsOf(one.at)
		}
	}
	t.RowsRead.Checked += rows
	t.RowsRead.leave(notKept, d.Beyond)
	for _, at := range to.owned {
		t.Own += e.rowsOf(at)
	}
	t.Before, t.OfUnchecked = t.Before+to.beforeRows, t.OfUnchecked+to.foldedRows
}

// takeSelects counts those of which all was seen: if some of a SELECT's reads are left out, it is checked in part.
func (t *Totals) takeSelects(e *entry, to *resolution) {
	d := &e.its.Did
	t.Selects.Checked += d.Again
	why := map[int32]string{}
	for _, one := range to.lost {
		why[one.at] = one.reason
	}
	for _, one := range d.Selects {
		lost, reason := int(one.Unkept), why[-one.Absent]
		if one.Ask > 0 {
			reason = e.whyNotAsked(one.Ask, to)
		}
		if one.Unkept > 0 {
			reason = notKept
		}
		for _, reads := range [][2]int32{{one.EarlierFrom, one.EarlierTo}, {one.From, one.To}} {
			for at := reads[0] + 1; at <= reads[1]; at++ {
				if its, is := why[at]; is {
					lost, reason = lost+1, its
				}
			}
		}
		switch {
		case reason == "":
			t.Selects.Checked++
		case lost < one.Reads():
			t.Selects.part(someRows, 1)
		default:
			t.Selects.leave(reason, 1)
		}
	}
}

// settle is close after a fault, which may have come between two sums.
func (t *Totals) settle(reason string) {
	for _, one := range t.each() {
		if n := one.decided(); n > one.All {
			one.All = n
		}
	}
	t.close(reason)
}

// close counts as not checked whatever isn't decided.
func (t *Totals) close(reason string) {
	for _, one := range t.each() {
		one.leave(reason, one.Waiting())
	}
}
