package remote

import (
	"context"
	"time"
)

// signal wakes those that wait for proxies. Called with lock held.
func (h *Hub) signal() {
	close(h.changed)
	h.changed = make(chan struct{})
}

// say queues a message, with the current time. Called with lock held. What Redis doesn't accept in time is dropped:
// each message except an answer is useful only at its time, and a hello is repeated.
func (h *Hub) say(m fromHub) {
	h.number++
	m.Run, m.Number, m.Tick, m.Idle = h.run, h.number, int64(time.Since(h.base)), !h.running()
	select {
	case h.out <- m:
	default:
	}
}

// write sends messages, and drops those that are too old if Redis was unreachable.
func (h *Hub) write(ctx context.Context) {
	l := &link{url: h.options.Redis}
	defer l.close()
	var expires time.Time
	claims := time.NewTicker(time.Second)
	defer claims.Stop()
	owns := h.claim(ctx, l)
	for {
		var m fromHub
		select {
		case <-claims.C:
			owns = h.claim(ctx, l)
			continue
		case <-ctx.Done():
			h.lock.Lock()
			h.number++
			m = fromHub{Run: h.run, Number: h.number, Tick: int64(time.Since(h.base)), Bye: true}
			h.lock.Unlock()
			if owns {
				h.add(l, m)
				l.do(0, "DEL", h.options.owner())
			}
			return
		case m = <-h.out:
		}
		if !owns || time.Since(h.base)-time.Duration(m.Tick) > time.Second {
			continue
		}
		if err := h.add(l, m); err != nil {
			h.reached(ctx, err)
			pause(ctx, 100*time.Millisecond)
			continue
		}
		if time.Since(expires) > time.Minute { // what both sides leave behind expires by itself
			expires = time.Now()
			for _, name := range []string{h.options.watch(), h.options.proxies()} {
				l.do(0, "EXPIRE", name, 3600)
			}
		}
	}
}

// claim makes this watch the one of the audit's name, and reports whether it is.
func (h *Hub) claim(ctx context.Context, l *link) bool {
	reply, err := l.do(0, "SET", h.options.owner(), h.run, "NX", "PX", silence.Milliseconds())
	owns := err == nil && reply != nil
	if err == nil && !owns {
		if reply, err = l.do(0, "GET", h.options.owner()); err == nil {
			text, _ := reply.([]byte)
			if owns = string(text) == h.run; owns {
				_, err = l.do(0, "PEXPIRE", h.options.owner(), silence.Milliseconds())
			}
		}
	}
	if err != nil {
		h.reached(ctx, err)
	}
	h.lock.Lock()
	defer h.lock.Unlock()
	if err != nil {
		return h.owns
	}
	if !owns {
		h.logs.say("another `zanteyard watch` has the audit " + h.options.Audit + " in this Redis: proxies on other machines feed that one")
	}
	h.owns = owns
	return owns
}

func (h *Hub) add(l *link, m fromHub) error {
	text, err := encode(m)
	if err != nil {
		return err
	}
	return l.add(h.options.watch(), text, h.options.sign(downwards, text))
}
