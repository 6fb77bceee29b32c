package remote

import (
	"crypto/hmac"
	"crypto/sha256"
	"encoding/hex"
	"strings"

	"zanteyard/record"
)

// With --redact, keys of rows leave a proxy only as what a keyed hash makes of them: equal ones stay equal, and nobody
// without the proxies' common key can tell which they are. Each column's value is hashed by itself, as the slot has it.

// Hidden returns what stands for one column's canonical text.
func (o *Options) Hidden(text string) string {
	its := hmac.New(sha256.New, o.Key)
	its.Write([]byte("row\x00"))
	its.Write([]byte(text))
	return hex.EncodeToString(its.Sum(nil)[:16])
}

func (o *Options) hiddenKey(key record.Key) record.Key {
	parts := strings.Split(string(key), "\x00")
	for i, part := range parts {
		parts[i] = o.Hidden(part)
	}
	return record.Key(strings.Join(parts, "\x00"))
}

// HideKeys replaces the keys of a transaction.
func (o *Options) HideKeys(it *record.Transaction) {
	reads := make([]record.Read, len(it.Reads))
	for i, one := range it.Reads {
		one.Key = o.hiddenKey(one.Key)
		reads[i] = one
	}
	absent := make([]record.Absence, len(it.Absent))
	for i, one := range it.Absent {
		one.Key = o.hiddenKey(one.Key)
		absent[i] = one
	}
	asks := make([]record.Ask, len(it.Asks))
	for i, one := range it.Asks {
		found := make([]record.Key, len(one.Found))
		for j, key := range one.Found {
			found[j] = o.hiddenKey(key)
		}
		one.Found = found
		asks[i] = one
	}
	it.Reads, it.Absent, it.Asks = reads, absent, asks
}
