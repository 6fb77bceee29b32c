package plan

import (
	"fmt"
	"runtime"
	"strings"
	"sync"
	"syscall"
	"testing"
)

// kept counts the plans that a cache holds.
func kept(c *Cache) int {
	n := 0
	state := c.state.Load()
	for i := range state.shards {
		n += len(state.shards[i].young) + len(state.shards[i].old)
	}
	return n
}

func TestCacheKnowsTextsThatDifferInConstants(t *testing.T) {
	cache := NewCache(none(t))
	first, _ := cache.Plan("SELECT 1 /* a */ WHERE x IN (1, 2)")
	for _, text := range []string{
		"SELECT 2 WHERE x IN ('a', 5, NULL)", "SELECT\n3 -- b\nWHERE x IN (1)", "SELECT 1 WHERE x IN (-1)",
	} {
		same := text != "SELECT 1 WHERE x IN (-1)"
		if p, _ := cache.Plan(text); (p == first) != same && !strings.Contains(text, "'a'") {
			t.Errorf("%q: the same plan %v", text, p == first)
		}
	}
	if p, _ := cache.Plan("SELECT 1 WHERE x IN (7, 8, 9)"); p != first {
		t.Error("a longer list has another plan")
	}
	generation := first.Generation
	cache.Use(none(t))
	if p, _ := cache.Plan("SELECT 1 WHERE x IN (1)"); p == first || p.Generation != generation+1 || cache.Generation() != p.Generation {
		t.Error("the plan of a catalog before is still used")
	}
}

// TestCursorsNames: statements that differ in a cursor's name alone have one plan, but for the name, whatever was sent before
// them: also one with a name that the server refuses.
func TestCursorsNames(t *testing.T) {
	cache := NewCache(none(t))
	for _, form := range []string{`DECLARE %s CURSOR FOR SELECT 1`, "FETCH %s", "FETCH 2 FROM %s", "MOVE %s", "CLOSE %s"} {
		before, _ := cache.Plan(fmt.Sprintf(form, `""`))
		first, _ := cache.Plan(fmt.Sprintf(form, `"a 1"`))
		for _, name := range []string{"a 1", "A", "ALL", "next", strings.Repeat("x", 63)} {
			p, _ := cache.Plan(fmt.Sprintf(form, `"`+name+`"`))
			if p.Unknown || p.Name != name || p.Kind != first.Kind || p.Shared() != first.Shared() {
				t.Errorf(form+": kind %v, of %q, unknown: %v", name, p.Kind, p.Name, p.Unknown)
			}
		}
		for _, name := range []string{`""`, `"a""b"`, `U&"\0061 1"`, `"` + strings.Repeat("x", 64) + `"`, "a"} {
			if p, _ := cache.Plan(fmt.Sprintf(form, name)); p.Shared() == first.Shared() || p.Unknown != (name == `""`) {
				t.Errorf(form+": the plan of other names", name)
			}
		}
		if again, _ := cache.Plan(fmt.Sprintf(form, `""`)); again != before {
			t.Errorf(form+": another plan", `""`)
		}
	}
}

func TestCacheIsBounded(t *testing.T) {
	cache := NewCache(none(t))
	often := "SELECT often"
	first, _ := cache.Plan(often)
	for i := 0; i < 20000; i++ {
		cache.Plan(fmt.Sprintf("SHOW x%d", i))
		if i%100 == 0 {
			if p, _ := cache.Plan(often); p != first {
				t.Fatalf("a plan in use was forgotten after %d others", i)
			}
		}
	}
	if n := kept(cache); n > 2*shards*shardEntries {
		t.Errorf("%d plans are kept", n)
	}
	long := strings.Repeat("x", maxText-100)
	for i := 0; i < 2000; i++ {
		cache.Plan(fmt.Sprintf("SHOW %s%d", long[:20000], i))
	}
	runtime.GC()
	var memory runtime.MemStats
	runtime.ReadMemStats(&memory)
	if memory.HeapAlloc > 160<<20 {
		t.Errorf("%d MB are in use", memory.HeapAlloc>>20)
	}
}

func TestCacheIsSharedByManyGoroutines(t *testing.T) {
	cache := NewCache(none(t))
	var all sync.WaitGroup
	for g := 0; g < 8; g++ {
		all.Add(1)
		go func(g int) {
			defer all.Done()
			for i := 0; i < 300; i++ {
				text := fmt.Sprintf("SELECT x%d FROM y WHERE z = %d", i%50, i)
				if p, tokens := cache.Plan(text); p.Kind != Select || tokens.at != nowhere {
					t.Errorf("%q has the plan %+v", text, p)
				}
				if p, tokens := cache.Plan("BEGIN; SELECT 1; COMMIT"); p.Kind != Several || len(tokens.Parts()) != 3 {
					t.Errorf("%+v", p)
				}
				if g == 0 && i%100 == 99 {
					cache.Use(cache.Catalog())
				}
			}
		}(g)
	}
	all.Wait()
}

// Texts made to exhaust a parser's stack are refused, or parsed, but never end the program.
func TestDeepTexts(t *testing.T) {
	cache := NewCache(none(t))
	for _, text := range []string{
		"SELECT " + strings.Repeat("(", maxDepth-1) + "1" + strings.Repeat(")", maxDepth-1),
		"SELECT " + strings.Repeat("(", 50000) + "1" + strings.Repeat(")", 50000),
		"SELECT " + strings.Repeat("a + ", 2040) + "1",
		"SELECT " + strings.Repeat("- a ", 2040),
		"SELECT " + strings.Repeat("NOT ", 4080) + "1",
		"SELECT " + strings.Repeat("a ^ ", 2040) + "1",
		"SELECT " + strings.Repeat("CASE WHEN 1 THEN ", 1300) + "1",
		"SELECT " + strings.Repeat("CASE WHEN 1 THEN ", 800) + "1" + strings.Repeat(" END", 800),
		"SELECT 1 FROM " + strings.Repeat("a JOIN ", 1000) + "b" + strings.Repeat(" ON x", 1000),
		strings.Repeat("SELECT 1 UNION ", 1300) + "SELECT 1",
		strings.Repeat("EXPLAIN ", 4000) + "SELECT 1",
		"SELECT " + strings.Repeat("a[", 199) + "1" + strings.Repeat("]", 199),
		"SELECT x" + strings.Repeat("::a", 2000),
		"SELECT x" + strings.Repeat(" IS NULL", 2000),
		strings.Repeat("SELECT 1;", 1300),
		"SELECT " + strings.Repeat("EXISTS(SELECT ", 199) + "1" + strings.Repeat(")", 199),
		"SELECT 1 WHERE " + strings.Repeat("a = 1 AND (b = 2 OR ", 190) + "c" + strings.Repeat(")", 190),
	} {
		var all sync.WaitGroup // goroutines run on other threads, with stacks of another size
		all.Add(1)
		go func(text string) {
			defer all.Done()
			if p, _ := cache.Plan(text); p == nil {
				t.Errorf("%.40q has no plan", text)
			}
		}(text)
		all.Wait()
	}
}

// processorTime measures this goroutine's processor time: on a busy machine the elapsed time says little.
func processorTime(b *testing.B) func() int64 {
	runtime.LockOSThread()
	b.Cleanup(runtime.UnlockOSThread)
	now := func() int64 {
		var usage syscall.Rusage
		const thread = 1 // RUSAGE_THREAD
		if err := syscall.Getrusage(thread, &usage); err != nil {
			b.Fatal(err)
		}
		return usage.Utime.Nano() + usage.Stime.Nano()
	}
	began := now()
	return func() int64 { return now() - began }
}

// BenchmarkPlan measures a text that was seen before.
func BenchmarkPlan(b *testing.B) {
	connection := connect(b, fmt.Sprintf("bench%d", b.N), schema)
	known := load(b, connection)
	for _, c := range []struct{ name, text string }{
		{"key", "SELECT v FROM t WHERE id = $1"},
		{"constant", "SELECT v, s FROM t WHERE id = 12345"},
		{"update", "UPDATE t SET v = v + $1 WHERE id = $2"},
		{"commit", "COMMIT"},
		{"join", "SELECT t.id, t.v, t.s, u.id, u.w FROM t JOIN u ON u.t = t.id WHERE t.v > 100 AND u.w = 'abc' " +
			"ORDER BY t.id DESC LIMIT 20 /*controller='index',file='app%2Fmodels.py:10'*/"},
		{"list", "SELECT v FROM t WHERE id IN (" + strings.Repeat("12345, ", 99) + "1)"},
	} {
		b.Run(c.name, func(b *testing.B) {
			cache := NewCache(known)
			cache.Plan(c.text)
			b.ReportAllocs()
			b.ResetTimer()
			processor := processorTime(b)
			for i := 0; i < b.N; i++ {
				p, tokens := cache.Plan(c.text)
				p.Rewrite(c.text, tokens)
			}
			b.ReportMetric(float64(processor())/float64(b.N), "cpu-ns/op")
		})
		b.Run(c.name+"/new", func(b *testing.B) {
			cache := NewCache(known)
			b.ReportAllocs()
			for i := 0; i < b.N; i++ {
				cache.Use(known)
				cache.Plan(c.text)
			}
		})
	}
	b.Run("decode", func(b *testing.B) {
		p, _ := NewCache(known).Plan("SELECT v FROM t WHERE id = $1")
		row := [][]byte{[]byte("123456"), []byte("16385"), []byte("987654")}
		reads, _ := p.Decode(row, false)
		b.ReportAllocs()
		for i := 0; i < b.N; i++ {
			reads, _ = p.AppendReads(reads[:0], row, false)
		}
	})
}
