package plan

import "testing"

// TestAnotherEquality: who asks for a key by an operator that somebody has made isn't taken for one who found no row.
func TestAnotherEquality(t *testing.T) {
	connection := connect(t, "equality", schema+"; CREATE TABLE names (id varchar PRIMARY KEY, v int); "+
		"CREATE FUNCTION never(varchar, varchar) RETURNS boolean LANGUAGE sql IMMUTABLE AS 'SELECT false'")
	asked := func() (names, numbers bool) {
		cache := NewCache(load(t, connection))
		one, _ := cache.Plan("SELECT v FROM names WHERE id = 'x'")
		other, _ := cache.Plan("SELECT v FROM t WHERE id = 1")
		return one.Asked, other.Asked
	}
	if names, numbers := asked(); !names || !numbers {
		t.Errorf("nobody has made an operator: %v, %v", names, numbers)
	}
	run(t, connection, "CREATE OPERATOR = (LEFTARG = varchar, RIGHTARG = varchar, FUNCTION = never)")
	if names, numbers := asked(); names || !numbers {
		t.Errorf("with an operator of somebody's: %v, %v", names, numbers)
	}
}
