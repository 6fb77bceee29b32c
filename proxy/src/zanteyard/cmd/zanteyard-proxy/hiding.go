package main

import (
	"zanteyard/audit"
	"zanteyard/keys"
	"zanteyard/record"
	"zanteyard/remote"
	"zanteyard/session"
)

// hiding is a sink that hides the keys of rows.
type hiding struct {
	record.Sink
	by *remote.Options
}

func (h hiding) Transaction(it record.Transaction) {
	h.by.HideKeys(&it)
	h.Sink.Transaction(it)
}

// hide makes an audit show no row's key. If proxies elsewhere feed it, then it also compares the keys in the form in
// which these send them.
func hide(f flags, shared *remote.Options, options *session.Options, config *audit.Config) {
	if !f.redact {
		return
	}
	config.Slot.Redacts, config.Slot.Show = true, func(uint32, string) string { return "?" }
	if f.audit == "" {
		return
	}
	options.Sink = hiding{options.Sink, shared}
	config.Slot.Canonical = func(kind uint32, text string) (string, bool) {
		its, ok := keys.FromSlot(kind, text)
		if ok {
			its = shared.Hidden(its)
		}
		return its, ok
	}
}
