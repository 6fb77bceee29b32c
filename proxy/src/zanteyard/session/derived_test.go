package session

import (
	"testing"

	"zanteyard/catalog"
	"zanteyard/plan"
)

// TestDerived runs subqueries in FROM, WITH and UNION ALL: what is answered is the same, and what was read is told, or why it isn't.
func TestDerived(t *testing.T) {
	needServer(t)
	sql(t, fill)
	sql(t, listing)
	sql(t, "VACUUM ANALYZE listed")
	listedAs(t, knowing(t, catalog.OnlyCertainLists), []listedCase{
		{"SELECT s.x FROM (SELECT id, x FROM listed WHERE g = 5) s", 10, ""},
		{"SELECT * FROM (SELECT id, x FROM listed WHERE g = 5 ORDER BY id LIMIT 3) s", 3, ""},
		{"SELECT s.x FROM (SELECT id, x FROM listed WHERE g = 5 ORDER BY id LIMIT 3) s WHERE s.id > 50", 2, ""},
		{"SELECT x, n FROM (SELECT x, row_number() OVER (ORDER BY id) AS n FROM listed WHERE g = 5) s WHERE n BETWEEN 2 AND 4", 3, ""},
		{"SELECT t.v, s.x FROM t LEFT JOIN (SELECT id, x FROM listed WHERE id > 1) s ON s.id = t.id WHERE t.id < 4 ORDER BY t.id", 5, ""},
		{"SELECT s.id, u.v FROM (SELECT t.id FROM t ORDER BY t.v LIMIT 2) AS s LEFT JOIN u ON u.a = s.id ORDER BY s.id, u.b", 8, ""},
		{"SELECT t.v, l.x FROM t, LATERAL (SELECT x FROM listed WHERE listed.id = t.id LIMIT 1) l WHERE t.id < 3", 4, ""},
		{"SELECT s.h FROM (SELECT h FROM listed WHERE h = 5) s", 0, plan.ByIndex},
		{"WITH w AS (SELECT id, x FROM listed WHERE g = 5) SELECT * FROM w", 10, ""},
		{"WITH w AS MATERIALIZED (SELECT id, x FROM listed WHERE g = 5) SELECT a.x, b.x FROM w a JOIN w b ON a.id = b.id + 9", 2, ""},
		{"WITH w AS (SELECT id, x FROM listed WHERE g = 5), v AS (SELECT * FROM w WHERE id > 55) SELECT v.x, t.v FROM v LEFT JOIN t USING (id)",
			4, ""},
		{"WITH w AS (SELECT id, x FROM listed WHERE g = 5) SELECT x FROM w WHERE x IN (SELECT x FROM w)", 0, "WITH"},
		{"SELECT x FROM listed WHERE g = 5 UNION ALL SELECT v FROM t WHERE id < 4", 13, ""},
		{"SELECT x, 'a' FROM listed WHERE g = 5 UNION ALL SELECT 1, 'b' UNION ALL (SELECT v, w FROM t ORDER BY id LIMIT 2) ORDER BY 1", 12, ""},
		{"SELECT x FROM listed WHERE g = 5 UNION ALL SELECT count(*) FROM t", 10, "UNION"},
		{"SELECT x FROM listed WHERE g = 5 UNION SELECT v FROM t WHERE id < 4", 13, ""},
		{"SELECT count(*) FROM (SELECT x FROM listed WHERE g = 5) s", 10, ""},
		{"SELECT count(*) FROM (SELECT id, g FROM listed WHERE g = 5) AS s WHERE id > 55", 4, ""},
		{"SELECT count(*) FROM (SELECT listed.x, t.v FROM listed LEFT JOIN t ON t.id = listed.id AND t.v > 20 WHERE g = 0) s " +
			"WHERE s.v > 0 OR s.v IS NULL", 16, ""},
		{"SELECT count(*) FROM (SELECT x FROM listed WHERE id < 300) s", 0, tooManyRows},
		{"SELECT count(*) FROM (SELECT x FROM listed WHERE 100 / x > 1 AND g = 5) s", 0, "an aggregate"},
		{"SELECT count(*) FROM (SELECT x FROM listed WHERE g = 5 LIMIT 4) s", 0, "an aggregate"},
	})
}
