package remote

import (
	"context"
	"math"
	"time"

	"zanteyard/join"
)

// Meeter makes the sessions of this proxy and those of proxies elsewhere meet at once. It implements join.Meeter.
type Meeter struct {
	room Room
	hub  *Hub
}

// NewMeeter makes one from the room of this proxy's own sessions.
func NewMeeter(room Room, hub *Hub) *Meeter { return &Meeter{room: room, hub: hub} }

// How many bounds a meeting waits for the answers of proxies elsewhere, and how many these wait for the end of the
// meeting after their own.
const (
	answering = 4
	holding   = 6
)

// Longest returns for how long a proxy elsewhere holds a client, if a meeting waits this long for what is under way.
func Longest(bound time.Duration) time.Duration { return (1 + holding) * bound }

// Meet implements join.Meeter. Proxies elsewhere hold their clients first, then this one does. Those that don't answer
// in time delay nobody: what ran there at the moment is reported after it.
func (m *Meeter) Meet(ctx context.Context, connections []uint64, moment func(held time.Duration)) {
	began := time.Now()
	meeting, those := m.hub.hold(connections)
	if len(those) > 0 {
		waiting, cancel := context.WithTimeout(ctx, answering*m.hub.options.Bound)
		m.hub.await(waiting, those, meeting)
		cancel()
		defer m.hub.goOn(meeting)
	}
	m.room.Meet(ctx, connections, func(time.Duration) { moment(time.Since(began)) })
}

// Unaudited reports which connections have no session of the auditor, ours and others'.
func (m *Meeter) Unaudited(connections []uint64) {
	its := map[uint64][]uint64{}
	m.hub.lock.Lock()
	defer m.hub.lock.Unlock()
	for _, number := range connections {
		if one, is := m.hub.of[number]; is {
			its[one.epoch] = append(its[one.epoch], one.connection)
		}
	}
	if len(its) > 0 || m.hub.left {
		m.hub.left = len(its) > 0
		m.hub.say(fromHub{Unaudited: its})
	}
}

// Remotes returns the state of the other proxies, for the joiner's coverage.
func (m *Meeter) Remotes() join.Remotes { return m.hub.Remotes() }

// Apart reports whether a proxy elsewhere may yet report what was committed by then: one that has fed the audit within an
// hour and now doesn't, or whose later messages haven't arrived. These may also be lost. At first nobody knows which
// proxies there are: those that fed an earlier watch don't report to this one what ends before they feed it.
func (m *Meeter) Apart(committed time.Time) bool {
	m.hub.lock.Lock()
	defer m.hub.lock.Unlock()
	if committed.Before(m.hub.base.Add(gathering)) {
		return true
	}
	for _, a := range m.hub.proxies {
		if a.epoch == 0 || a.reported.Before(committed.Add(reporting)) {
			return true
		}
	}
	return false
}

// Busy returns about how many connections have something under way: nobody knows that of proxies elsewhere.
func (m *Meeter) Busy(connections []uint64) (underWay, idle int) {
	for _, number := range connections {
		if number >= firstConnection {
			return math.MaxInt32, 0
		}
	}
	return m.room.Busy(connections)
}

// Open returns those of these connections on which a transaction is open, among this proxy's own.
func (m *Meeter) Open(connections []uint64) []uint64 {
	its, is := m.room.(interface{ Open([]uint64) []uint64 })
	if !is {
		return nil
	}
	return its.Open(connections)
}

// participant is a proxy in a meeting: one that attaches again meanwhile takes no part.
type participant struct {
	its   *attached
	epoch uint64
}

// hold begins a meeting of those proxies elsewhere that have some of these connections.
func (h *Hub) hold(connections []uint64) (meeting uint64, those []participant) {
	h.lock.Lock()
	defer h.lock.Unlock()
	its := map[uint64][]uint64{}
	for _, number := range connections {
		if one, is := h.of[number]; is {
			its[one.epoch] = append(its[one.epoch], one.connection)
		}
	}
	for _, a := range h.proxies {
		if len(its[a.epoch]) > 0 && h.down == "" {
			those = append(those, participant{a, a.epoch})
		}
	}
	if len(those) > 0 {
		h.meetings++
		h.say(fromHub{Hold: &order{h.meetings, its}})
	}
	return h.meetings, those
}

// goOn lets the clients of proxies elsewhere go on. Whatever begins there afterwards begins after this moment.
func (h *Hub) goOn(meeting uint64) {
	h.lock.Lock()
	defer h.lock.Unlock()
	h.say(fromHub{Go: meeting})
}

// await waits until all that are still present hold their clients.
func (h *Hub) await(ctx context.Context, those []participant, meeting uint64) {
	for {
		h.lock.Lock()
		left := 0
		for _, one := range those {
			if one.its.epoch == one.epoch && one.its.holds < meeting {
				left++
			}
		}
		changed := h.changed
		h.lock.Unlock()
		if left == 0 {
			return
		}
		select {
		case <-changed:
		case <-ctx.Done():
			return
		}
	}
}
