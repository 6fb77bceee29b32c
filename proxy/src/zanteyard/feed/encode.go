package feed

import (
	"bytes"
	"encoding/json"
	"fmt"
	"time"

	"zanteyard/join"
	"zanteyard/record"
)

// encode writes an event as one JSON object without a newline.
func encode(it join.Event) ([]byte, error) {
	switch it := it.(type) {
	case join.Started:
		return object("started", it.At, map[string]any{
			"limit": it.Limit, "sessions": it.Sessions, "database": it.Database, "server": it.Server, "slot": it.Slot,
			"plugin": it.Plugin, "temporary": it.Temporary, "subtransactions": it.Subtransactions, "warnings": texts(it.Warnings),
		})
	case join.Meeting:
		return object("meeting", it.At, map[string]any{
			"fences": it.Fences, "milliseconds": float64(it.Took.Microseconds()) / 1000,
		})
	case join.Warning:
		return object("warning", it.At, map[string]any{"text": it.Text})
	case join.Checking:
		return object("checking", it.At, nil)
	case join.Behind:
		return object("behind", it.At, map[string]any{"reason": it.Reason})
	case join.Ended:
		return object("ended", time.Now(), map[string]any{"reason": it.Reason, "blocked": it.Blocked})
	case join.Restarted:
		return object("restarted", it.At, nil)
	case join.Stopped:
		return object("stopped", it.At, nil)
	case join.Earlier:
		return object("earlier", it.At, map[string]any{"unaudited": it.Unaudited.Ended(), "untold": it.Untold,
			"sums": unaudited(&it.Unaudited)})
	case join.Drained:
		return object("drained", it.At, nil)
	case join.Coverage:
		return object("coverage", it.At, coverage(it))
	case join.Transactions:
		its := make([]any, len(it.Given))
		for i := range it.Given {
			its[i] = transaction(&it.Given[i])
		}
		return object("transactions", it.At, map[string]any{"id": it.ID, "transactions": its})
	}
	return nil, fmt.Errorf("an event of the type %T", it)
}

// object puts the event's name first, where people look for it.
func object(event string, at time.Time, fields map[string]any) ([]byte, error) {
	if fields == nil {
		fields = map[string]any{}
	}
	fields["at"] = seconds(at)
	var text bytes.Buffer
	text.WriteString(`{"event":"` + event + `",`)
	encoder := json.NewEncoder(&text)
	encoder.SetEscapeHTML(false)
	start := text.Len()
	if err := encoder.Encode(fields); err != nil {
		return nil, err
	}
	its := text.Bytes()
	copy(its[start:], its[start+1:]) // the fields' own brace
	return its[:len(its)-2], nil     // and the newline
}

// seconds returns the seconds since 1970, to a microsecond.
func seconds(at time.Time) float64 {
	if at.IsZero() {
		return 0
	}
	return float64(at.UnixMicro()) / 1e6
}

func texts(its []string) []string {
	if its == nil {
		return []string{}
	}
	return its
}

func coverage(it join.Coverage) map[string]any {
	unseen := make([]any, len(it.Unseen))
	for i, one := range it.Unseen {
		unseen[i] = map[string]any{
			"shape": one.Shape, "reason": one.Reason, "reads": one.Reads, "count": one.Count, "first": seconds(one.First),
		}
	}
	to := map[string]any{
		"committed": it.Committed, "offered": it.Offered, "fences": it.Fences, "aborted": it.Aborted, "bare": it.Bare,
		"partly": it.Partly, "folded": it.Folded,
		"reads": map[string]any{"seen": it.Reads, "offered": it.ReadsOffered, "own": it.ReadsOwn, "before": it.ReadsBefore,
			"folded": it.ReadsFolded, "left_out": it.ReadsLeft},
		"conditions": map[string]any{"seen": it.Asks, "followed": it.AsksFollowed, "passed_over": it.Passed,
			"left_out": it.AsksLeft, "rows_left_out": it.PassedLeft, "dropped": it.AsksDropped},
		"writes": map[string]any{"seen": it.Writes, "offered": it.WritesOffered, "left_out": it.WritesLeft},
		"unseen": unseen,
		"connections": map[string]any{
			"now": it.Connections, "audited": it.Audited, "waiting": it.Waiting, "ever": it.ConnectionsEver,
			"refused": it.ConnectionsRefused,
		},
		"lag":     map[string]any{"bytes": it.LagBytes, "seconds": it.Lag.Seconds()},
		"pending": it.Pending, "remaining": it.Remaining, "rounds": it.Rounds, "keys": it.Rows,
		"statements_dropped": it.StatementsDropped,
		"totals":             totals(&it.Totals),
	}
	if it.Remotes != nil {
		to["remote"] = remotes(it.Remotes)
	}
	return to
}

func totals(it *join.Totals) map[string]any {
	selects, read, transactions := total(&it.Selects), total(&it.RowsRead), total(&it.Transactions)
	transactions["only_read"] = it.OnlyRead
	ran := map[string]uint64{}
	for level, n := range it.Levels {
		if n > 0 {
			ran[levels[record.Level(level)]] = n
		}
	}
	transactions["levels"] = ran
	selects["by_condition"], selects["found_no_row"] = it.Conditions, it.Empty
	read["own"], read["from_before"], read["of_unchecked"] = it.Own, it.Before, it.OfUnchecked
	return map[string]any{
		"transactions": transactions, "selects": selects, "writes": total(&it.Writes),
		"rows_read": read, "rows_written": total(&it.RowsWritten), "other_statements": it.Others,
		"without_the_proxy": map[string]any{"transactions": it.Outside, "rows_written": it.OutsideRows, "untold": it.Untold,
			"of_these_at_least": it.Bypassed},
	}
}

// unaudited are sums of what ended while nothing was audited.
func unaudited(it *join.Totals) map[string]any {
	return map[string]any{
		"transactions": it.Transactions.All, "rolled_back": it.Transactions.RolledBack, "selects": it.Selects.All,
		"writes": it.Writes.All, "rows_read": it.RowsRead.All, "rows_written": it.RowsWritten.All,
	}
}

func total(it *join.Total) map[string]any {
	return map[string]any{
		"all": it.All, "checked": it.Checked, "in_part": reasons(it.InPart), "not_checked": reasons(it.NotChecked),
		"waiting": it.Waiting(), "rolled_back": it.RolledBack,
	}
}

// reasons leaves out those that count nothing.
func reasons(its map[string]uint64) map[string]uint64 {
	to := map[string]uint64{}
	for reason, n := range its {
		if n > 0 {
			to[reason] = n
		}
	}
	return to
}

func remotes(it *join.Remotes) map[string]any {
	proxies := make([]any, len(it.Proxies))
	for i, one := range it.Proxies {
		proxies[i] = map[string]any{"name": one.Name, "feeds": one.Feeds, "connections": one.Connections,
			"transactions": one.Transactions, "silent": one.Heard.Seconds()}
	}
	return map[string]any{"proxies": proxies, "refused": it.Refused, "down": it.Down}
}

var levels = map[record.Level]string{
	record.UnknownLevel: "unknown", record.ReadCommitted: "read committed", record.RepeatableRead: "repeatable read",
	record.Serializable: "serializable",
}

func transaction(it *join.Description) map[string]any {
	to := map[string]any{"session": it.Session, "number": it.Number, "known": it.Known}
	if !it.Known {
		return to
	}
	statements := make([]any, len(it.Its.Statements))
	for i, one := range it.Its.Statements {
		statements[i] = statement(one)
	}
	reads, by := make([]any, len(it.Reads)), make([]any, len(it.Reads))
	for i, one := range it.Reads {
		if one.By > 0 {
			by[i] = one.By - 1
		}
		if one.Initial {
			reads[i] = []any{one.Key, "init"}
		} else {
			reads[i] = []any{one.Key, one.Session, one.Number}
		}
	}
	rows := make([]any, len(it.Rows))
	for i, one := range it.Rows {
		row := map[string]any{"key": one.Key, "table": one.Table, "row": one.Row, "columns": texts(one.Columns)}
		if one.Condition != "" {
			row["condition"] = one.Condition
		}
		rows[i] = row
	}
	writes := it.Writes
	if writes == nil {
		writes = []uint64{}
	}
	for field, value := range map[string]any{
		"fence": it.Fence, "connection": it.From.Number, "application_name": it.From.ApplicationName,
		"address": it.From.Address, "user": it.From.User, "database": it.From.Database, "proxy": it.From.Proxy, "level": levels[it.Its.Level],
		"rolled_back": it.Its.OnlyRead, "began": seconds(it.Its.Began), "ended": seconds(it.Its.Ended), "xid": uint32(it.Its.Number),
		"statements": statements, "statements_dropped": it.Dropped, "reads": reads, "read_by": by,
		"writes": writes, "keys": rows,
	} {
		to[field] = value
	}
	return to
}

func statement(it record.Statement) map[string]any {
	to := map[string]any{"text": it.Text, "parameters": it.Parameters, "at": seconds(it.At)}
	if it.More > 0 {
		to["more_parameters"] = it.More
	}
	if len(it.Unseen) > 0 {
		reasons := make([]string, len(it.Unseen))
		for i, one := range it.Unseen {
			reasons[i] = one.Reason
		}
		to["unseen"] = reasons
	}
	tags := comment(it.Text)
	if file, is := tags["file"]; is {
		to["file"] = file
		delete(tags, "file")
	}
	for _, key := range []string{"line", "lineno"} {
		if number, is := wholeNumber(tags[key]); is {
			to["line"] = number
			delete(tags, key)
			break
		}
	}
	if len(tags) > 0 {
		to["comment"] = tags
	}
	return to
}
