//go:build !faults

package guard

// At is where a test may have a panic happen; otherwise it does nothing. Tests are built with the tag faults for that.
func At(string) {}
