package plan

import (
	"runtime"
	"testing"
	"time"

	"zanteyard/catalog"
)

// TestPlansLetCatalogsGo: plans are kept for long, by connections that do nothing and by what was tried, and each catalog is as
// large as the database's definitions. So no plan keeps the catalog that it was made by.
func TestPlansLetCatalogsGo(t *testing.T) {
	connection := connect(t, "gone", schema)
	gone := make(chan struct{})
	cache, plans := keptPlans(t, load(t, connection, catalog.WithColumns), gone)
	cache.Use(load(t, connection, catalog.WithColumns))
	for n := 0; n < 100; n++ {
		runtime.GC() // the cache's scanners go with the second one
		select {
		case <-gone:
			runtime.KeepAlive(plans)
			return
		case <-time.After(10 * time.Millisecond):
		}
	}
	runtime.KeepAlive(plans)
	t.Error("a plan keeps the catalog before this one")
}

// keptPlans are the plans of all shapes, and of what else is followed.
func keptPlans(t *testing.T, known *catalog.Catalog, gone chan struct{}) (*Cache, []*Plan) {
	view, err := known.In(`["public"]`)
	if err != nil {
		t.Fatal(err)
	}
	runtime.SetFinalizer(known, func(*catalog.Catalog) { close(gone) })
	cache, plans := NewCache(known), []*Plan{}
	other := NewCache(view)
	follow := 0
	for _, s := range shapes {
		one, _ := cache.Plan(s.sql)
		two, _ := other.Plan(s.sql)
		plans = append(plans, one, two)
		if two.follow != nil {
			follow++
		}
	}
	if follow < 50 {
		t.Errorf("only %d of these are followed", follow)
	}
	return cache, plans
}
