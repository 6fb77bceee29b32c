package slot

import (
	"reflect"
	"testing"
)

// TestWritersOf: whoever has written a part of a table's definition is named, and nobody if a part is gone.
func TestWritersOf(t *testing.T) {
	const was = "16385 table:700 schema:600 16388:700 16390:705"
	for _, x := range []struct {
		name, is string
		by       []uint32
	}{
		{"the table", "16385 table:800 schema:600 16388:700 16390:705", []uint32{800}},
		{"its schema", "16385 table:700 schema:801 16388:700 16390:705", []uint32{801}},
		{"an index", "16385 table:700 schema:600 16388:700 16390:802", []uint32{802}},
		{"several", "16385 table:800 schema:801 16388:800 16390:705", []uint32{800, 801, 800}},
		{"a new index", "16385 table:700 schema:600 16388:700 16390:705 16399:803", []uint32{803}},
		{"no index any more", "16385 table:700 schema:600 16388:700", nil},
		{"another index", "16385 table:800 schema:600 16388:700 16391:800", nil},
		{"no index at all", "16385 table:700 schema:600", nil},
	} {
		if by := writersOf(was, x.is); !reflect.DeepEqual(by, x.by) {
			t.Errorf("%s: %v", x.name, by)
		}
	}
}
