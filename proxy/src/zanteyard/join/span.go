package join

import (
	"time"

	"zanteyard/record"
)

// span bounds when a transaction ran, by the joiner's clock: it began no earlier than the first time, and ended no
// later than the second. The clock of a proxy on another machine isn't used.
func span(it *record.Transaction) (began, ended time.Time) {
	if it.Known.IsZero() {
		return it.Began, it.Ended
	}
	return it.After, it.Known
}
