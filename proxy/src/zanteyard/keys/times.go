package keys

import (
	"fmt"
	"math"
	"strconv"
	"strings"
)

// Dates are days, and times microseconds, since the beginning of the year 2000, as the server stores them. Infinities
// are words.

const (
	dayMicroseconds = 24 * 60 * 60 * 1000000
	epochDay        = 2451545 // the Julian day of 2000-01-01
)

func timeBinary(typeOID uint32, value []byte) (string, bool) {
	if typeOID == Date {
		if len(value) != 4 {
			return "", false
		}
		days := int32Of(value)
		return instant(int64(days), days == math.MaxInt32, days == math.MinInt32), true
	}
	if len(value) != 8 {
		return "", false
	}
	microseconds := int64Of(value)
	finite := typeOID == Time
	return instant(microseconds, !finite && microseconds == math.MaxInt64, !finite && microseconds == math.MinInt64), true
}

func instant(number int64, last, first bool) string {
	switch {
	case last:
		return "infinity"
	case first:
		return "-infinity"
	}
	return strconv.FormatInt(number, 10)
}

// timeText accepts only ISO's form, with an offset if the type has one: that has one meaning under any DateStyle and
// TimeZone.
func timeText(typeOID uint32, text string) (string, bool) {
	text = strings.Trim(text, " \t\n\r\f\v")
	if typeOID == Time {
		microseconds, rest, ok := clock(text)
		return strconv.FormatInt(microseconds, 10), ok && rest == ""
	}
	if text == "infinity" || text == "-infinity" {
		return text, true
	}
	ad := strings.TrimSuffix(text, " BC")
	days, rest, ok := calendar(ad, ad != text)
	if !ok {
		return "", false
	}
	if typeOID == Date {
		return strconv.FormatInt(days, 10), rest == ""
	}
	if rest == "" && typeOID == Timestamp {
		return strconv.FormatInt(days*dayMicroseconds, 10), true
	}
	if rest == "" || rest[0] != ' ' && rest[0] != 'T' {
		return "", false
	}
	microseconds, rest, ok := clock(rest[1:])
	if !ok {
		return "", false
	}
	microseconds += days * dayMicroseconds
	if typeOID == Timestamptz {
		east, ok := offset(rest)
		return strconv.FormatInt(microseconds-east*1000000, 10), ok
	}
	return strconv.FormatInt(microseconds, 10), rest == ""
}

// number reads the leading digits, from `least` to `most` of them.
func number(text string, least, most int) (int64, string, bool) {
	n := 0
	for n < len(text) && text[n] >= '0' && text[n] <= '9' {
		n++
	}
	if n < least || n > most {
		return 0, text, false
	}
	value, err := strconv.ParseInt(text[:n], 10, 64)
	return value, text[n:], err == nil
}

func calendar(text string, bc bool) (int64, string, bool) {
	year, rest, ok := number(text, 4, 7)
	if !ok || rest == "" || rest[0] != '-' {
		return 0, text, false
	}
	month, rest, ok := number(rest[1:], 2, 2)
	if !ok || month < 1 || month > 12 || rest == "" || rest[0] != '-' {
		return 0, text, false
	}
	day, rest, ok := number(rest[1:], 2, 2)
	if bc {
		year = 1 - year
	}
	if !ok || day < 1 || day > monthDays(year, month) {
		return 0, text, false
	}
	return julianDay(year, month, day) - epochDay, rest, true
}

func monthDays(year, month int64) int64 {
	switch month {
	case 4, 6, 9, 11:
		return 30
	case 2:
		if year%4 == 0 && (year%100 != 0 || year%400 == 0) {
			return 29
		}
		return 28
	}
	return 31
}

// julianDay counts days by the Gregorian calendar, even before it was in use, as the server does.
func julianDay(year, month, day int64) int64 {
	if month > 2 {
		month, year = month+1, year+4800
	} else {
		month, year = month+13, year+4799
	}
	century := year / 100
	julian := year*365 - 32167 + year/4 - century + century/4
	return julian + 7834*month/256 + day
}

// clock reads hours, minutes and, if present, seconds with at most six digits after the point.
func clock(text string) (int64, string, bool) {
	hours, rest, ok := number(text, 2, 2)
	if !ok || hours > 24 || rest == "" || rest[0] != ':' {
		return 0, text, false
	}
	minutes, rest, ok := number(rest[1:], 2, 2)
	if !ok || minutes > 59 {
		return 0, text, false
	}
	microseconds := (hours*60 + minutes) * 60 * 1000000
	if rest != "" && rest[0] == ':' {
		var seconds int64
		if seconds, rest, ok = number(rest[1:], 2, 2); !ok || seconds > 59 {
			return 0, text, false
		}
		microseconds += seconds * 1000000
		if rest != "" && rest[0] == '.' {
			before := len(rest)
			var fraction int64
			if fraction, rest, ok = number(rest[1:], 1, 6); !ok {
				return 0, text, false
			}
			for digits := before - 1 - len(rest); digits < 6; digits++ {
				fraction *= 10
			}
			microseconds += fraction
		}
	}
	return microseconds, rest, microseconds <= dayMicroseconds
}

// offset reads how many seconds a zone is east of UTC: +02, -03:30, +00:19:32 or Z.
func offset(text string) (int64, bool) {
	if text == "Z" {
		return 0, true
	}
	if text == "" || text[0] != '+' && text[0] != '-' {
		return 0, false
	}
	sign := int64(1)
	if text[0] == '-' {
		sign = -1
	}
	seconds, unit, rest := int64(0), int64(3600), text[1:]
	for {
		part, after, ok := number(rest, 2, 2)
		if !ok || unit < 3600 && part > 59 {
			return 0, false
		}
		seconds += part * unit
		if after == "" {
			return sign * seconds, true
		}
		if after[0] != ':' || unit == 1 {
			return 0, false
		}
		unit, rest = unit/60, after[1:]
	}
}

// showTime writes a canonical text in ISO's form, times with a zone in UTC.
func showTime(typeOID uint32, canonical string) string {
	value, err := strconv.ParseInt(canonical, 10, 64)
	if err != nil {
		return canonical
	}
	days, rest := value, int64(0)
	if typeOID != Date {
		days, rest = value/dayMicroseconds, value%dayMicroseconds
		if rest < 0 {
			days, rest = days-1, rest+dayMicroseconds
		}
	}
	clock := fmt.Sprintf("%02d:%02d:%02d", rest/3600000000, rest/60000000%60, rest/1000000%60)
	if rest%1000000 != 0 {
		clock += strings.TrimRight(fmt.Sprintf(".%06d", rest%1000000), "0")
	}
	if typeOID == Time {
		if value == dayMicroseconds {
			return "24:00:00"
		}
		return clock
	}
	year, month, day := gregorian(days + epochDay)
	era := ""
	if year <= 0 {
		year, era = 1-year, " BC"
	}
	date := fmt.Sprintf("%04d-%02d-%02d", year, month, day)
	switch typeOID {
	case Date:
		return date + era
	case Timestamptz:
		return date + " " + clock + "+00" + era
	}
	return date + " " + clock + era
}

// gregorian is the inverse of julianDay.
func gregorian(julian int64) (year, month, day int64) {
	// Days since 1 March of the year -4800, in cycles of 400 years.
	days := julian - 1721120 + 4800/400*146097
	cycle := days / 146097
	days %= 146097
	yearOfCycle := (days - days/1460 + days/36524 - days/146096) / 365
	days -= 365*yearOfCycle + yearOfCycle/4 - yearOfCycle/100
	shifted := (5*days + 2) / 153
	day = days - (153*shifted+2)/5 + 1
	month = shifted + 3
	year = cycle*400 + yearOfCycle - 4800
	if month > 12 {
		month, year = month-12, year+1
	}
	return year, month, day
}
