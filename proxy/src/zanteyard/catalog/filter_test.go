package catalog

import (
	"strings"
	"testing"
)

func TestFilter(t *testing.T) {
	for _, one := range []struct {
		patterns, has, hasNot string
	}{
		{"", "public.t shop.orders", ""},
		{"public.*, shop.orders", "public.t public.* shop.orders", "shop.order shop.orders2 Public.t publi.t"},
		{"orders", "shop.orders public.orders", "public.order"},
		{"sh*p.o*r*s", "shop.orders shp.ors ship.oars shop.oorsrs", "shop.order shop.rs sho.ors"},
		{"*.a*a", "s.aa s.aba s.aaa", "s.a s.ab s.ba"},
		{" x.y.z ", "x.y.z", "x.y"},
	} {
		f, err := ParseFilter(one.patterns)
		if err != nil {
			t.Fatal(err)
		}
		for _, name := range strings.Fields(one.has) {
			if schema, table, _ := strings.Cut(name, "."); !f.Has(schema, table) {
				t.Errorf("%q leaves %s out", one.patterns, name)
			}
		}
		for _, name := range strings.Fields(one.hasNot) {
			if schema, table, _ := strings.Cut(name, "."); f.Has(schema, table) {
				t.Errorf("%q has %s", one.patterns, name)
			}
		}
	}
	for _, wrong := range []string{",", "a,,b", ".t", "s.", "a, "} {
		if _, err := ParseFilter(wrong); err == nil {
			t.Errorf("%q is taken", wrong)
		}
	}
	f, _ := ParseFilter("public.*, shop.orders, old.*")
	if idle := f.Idle([][2]string{{"public", "t"}, {"shop", "order"}}); strings.Join(idle, " ") != "shop.orders old.*" {
		t.Errorf("the patterns that mean nothing are %v", idle)
	}
}

// TestOnly: partitions are included with their topmost table, and views stay as they are.
func TestOnly(t *testing.T) {
	c := &Catalog{tables: map[uint32]*Table{
		1: {OID: 1, Root: 1, Schema: "shop", Name: "orders", Kind: 'p'},
		2: {OID: 2, Root: 1, Schema: "parts", Name: "orders_1", Kind: 'r'},
		3: {OID: 3, Root: 3, Schema: "parts", Name: "log", Kind: 'r', Hidden: "no primary key"},
		4: {OID: 4, Root: 4, Schema: "parts", Name: "look", Kind: 'v', Hidden: "a view"},
		5: {OID: 5, Root: 5, Schema: "shop", Name: "kept", Kind: 'r', Hidden: "no primary key"},
	}}
	f, _ := ParseFilter("shop.*")
	c.Only(f)
	for oid, want := range map[uint32]string{1: "", 2: "", 3: NotAsked, 4: "a view", 5: "no primary key"} {
		if c.tables[oid].Hidden != want {
			t.Errorf("%s.%s: %q", c.tables[oid].Schema, c.tables[oid].Name, c.tables[oid].Hidden)
		}
	}
}
