//go:build faults

package guard

import "sync/atomic"

var injected atomic.Pointer[func(place string)]

// At calls what Inject was given.
func At(place string) {
	if f := injected.Load(); f != nil {
		(*f)(place)
	}
}

// Inject makes f be called at each place, until it is called with nil.
func Inject(f func(place string)) {
	if f == nil {
		injected.Store(nil)
		return
	}
	injected.Store(&f)
}
