package condition

import (
	"encoding/binary"
	"math"
	"strconv"
	"strings"

	"zanteyard/keys"
)

// Intervals are compared as if a month had 30 days and a day 24 hours, so '1 mon' equals '720:00:00'.

const (
	intervalType    = 1186
	monthDays       = 30
	secondsOfADay   = 24 * 60 * 60
	microOfASecond  = 1000000
	microsecondsDay = secondsOfADay * microOfASecond
)

// intervalOf is an interval in the form in which it is compared: days in n, and in m the microseconds of a last day that
// isn't full.
func intervalOf(months, days, microseconds int64) datum {
	full := microseconds / microsecondsDay
	rest := microseconds % microsecondsDay
	if rest < 0 {
		full, rest = full-1, rest+microsecondsDay
	}
	return datum{n: months*monthDays + days + full, m: rest}
}

func intervalBinary(value []byte) (datum, bool) {
	if len(value) != 16 {
		return datum{}, false
	}
	microseconds := int64(binary.BigEndian.Uint64(value))
	days := int64(int32(binary.BigEndian.Uint32(value[8:])))
	months := int64(int32(binary.BigEndian.Uint32(value[12:])))
	return intervalOf(months, days, microseconds), true
}

// intervalText reads numbers with units, then perhaps a time: 1 year 2 mons -3 days 04:05:06. So the server writes them
// with IntervalStyle postgres, and other forms that it may write aren't read. A client's text with several signs may have
// another meaning with IntervalStyle sql_standard: it isn't read unless all is positive, or there is one field.
func intervalText(text string, slot bool) (datum, bool) {
	fields := strings.Fields(text)
	if len(fields) == 0 {
		return datum{}, false
	}
	if !slot && strings.Contains(text, "-") && len(fields) > 2 {
		return datum{}, false
	}
	var months, days, microseconds int64
	for len(fields) > 0 {
		if strings.Contains(fields[0], ":") {
			clock, ok := clockText(fields[0])
			if !ok || len(fields) > 1 {
				return datum{}, false
			}
			microseconds += clock
			break
		}
		if len(fields) < 2 {
			return datum{}, false
		}
		n, err := strconv.ParseInt(fields[0], 10, 32)
		if err != nil {
			return datum{}, false
		}
		switch strings.TrimSuffix(strings.ToLower(fields[1]), "s") {
		case "year":
			months += 12 * n
		case "mon", "month":
			months += n
		case "week":
			days += 7 * n
		case "day":
			days += n
		case "hour":
			microseconds += n * 3600 * microOfASecond
		case "min", "minute":
			microseconds += n * 60 * microOfASecond
		case "sec", "second":
			microseconds += n * microOfASecond
		default:
			return datum{}, false
		}
		fields = fields[2:]
	}
	if months > math.MaxInt32 || months < math.MinInt32 || days > math.MaxInt32 || days < math.MinInt32 {
		return datum{}, false
	}
	return intervalOf(months, days, microseconds), true
}

// clockText reads a time with any number of hours, and with a sign.
func clockText(text string) (int64, bool) {
	unsigned := strings.TrimLeft(text, "+-")
	if len(text)-len(unsigned) > 1 {
		return 0, false
	}
	hours, rest, _ := strings.Cut(unsigned, ":")
	n, err := strconv.ParseInt(hours, 10, 64)
	if err != nil || n > math.MaxInt64/3600/microOfASecond/2 || len(hours) < 2 {
		return 0, false
	}
	canonical, ok := keys.Canonical(keys.Time, []byte("00:"+rest), false)
	if !ok {
		return 0, false
	}
	clock, err := strconv.ParseInt(canonical, 10, 64)
	if err != nil {
		return 0, false
	}
	if clock += n * 3600 * microOfASecond; text[0] == '-' {
		clock = -clock
	}
	return clock, true
}
