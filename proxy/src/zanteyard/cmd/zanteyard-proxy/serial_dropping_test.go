package main

// dropping is a SELECT that drops rows: by a LIMIT, in a subquery in FROM, by what an outer join adds. Some are refused.
func (s *serialShapes) dropping() string {
	limit := s.pick(" LIMIT 1", " LIMIT 2", " LIMIT 3", " FETCH FIRST 2 ROWS WITH TIES", " LIMIT 2 OFFSET 1", " LIMIT 2::int", " LIMIT (SELECT 2)")
	dir := s.pick("", "", " DESC", " NULLS FIRST", " NULLS LAST", " DESC NULLS LAST", " USING >", " USING <")
	join := s.pick(" JOIN ", " LEFT JOIN ")
	switch s.r.Intn(24) {
	case 0:
		return "SELECT " + s.pick("o.*", "b.*", "*", "b.id, o.z", "b.id") + " FROM c AS o" + join + "b USING (id) WHERE " + s.pick("o.z > #", "o.n <> #", "o.z = #") + " ORDER BY id" + dir + limit
	case 1:
		return "SELECT * FROM (SELECT " + s.pick("b.*", "b.id, o.z", "*") + " FROM c AS o" + join + "b USING (id) WHERE o.z < #) AS s ORDER BY " + s.pick("id", "s.id", "1") + dir + limit
	case 2:
		return "SELECT id, x AS id FROM a WHERE x > # ORDER BY a.id" + dir + limit
	case 3:
		return "SELECT x AS id, t FROM a WHERE x > # ORDER BY id" + dir + limit
	case 4:
		return "SELECT s.x AS id FROM (SELECT id AS x, x AS id FROM a WHERE x <> #) AS s ORDER BY id" + dir + limit
	case 5:
		return "SELECT s.id FROM (SELECT * FROM c WHERE z > # ORDER BY id, n" + limit + ") AS s JOIN b ON b.a_id = s.id WHERE b.z <> #"
	case 6:
		return "WITH s AS (SELECT * FROM b WHERE z > #" + limit + ") SELECT a.* FROM a LEFT JOIN s ON s.a_id = a.id WHERE a.x <> # ORDER BY a.id" + dir + limit
	case 7:
		return "WITH s AS MATERIALIZED (SELECT * FROM a WHERE x > #), u AS (SELECT * FROM s WHERE id < 3) SELECT s.id FROM s" + join + "u ON u.id = s.id ORDER BY s.id" + dir + limit
	case 8:
		return "SELECT a.id, l.* FROM a" + join + "LATERAL (SELECT * FROM b WHERE b.a_id = a.id AND b.z > # ORDER BY id LIMIT 1) AS l ON true WHERE a.x > #"
	case 9:
		return "SELECT * FROM (SELECT *, row_number() OVER (ORDER BY id) AS rn FROM b WHERE z > #) AS s WHERE rn = 1"
	case 10:
		return "SELECT * FROM (SELECT DISTINCT ON (x) * FROM a ORDER BY x, id) AS s WHERE x > #"
	case 11:
		return "SELECT s.n FROM (SELECT x, count(*) AS n FROM a WHERE x > # GROUP BY x) AS s WHERE s.n > 1"
	case 12:
		return "SELECT * FROM (SELECT b.id, b.z, generate_series(1, b.z) AS g FROM b WHERE z < #) AS s WHERE id > #"
	case 13:
		return "SELECT * FROM (SELECT id, z FROM b WHERE z = # UNION SELECT id, x FROM a WHERE x = #) AS s WHERE id > #"
	case 14:
		return "SELECT a.* FROM a JOIN c ON c.z = a.x WHERE c.n > # ORDER BY a.id" + dir + ", c.id" + limit
	case 15:
		return "SELECT a.id FROM a LEFT JOIN b ON b.a_id = a.id LEFT JOIN c ON c.z = b.z WHERE a.x > # ORDER BY a.id" + dir + limit
	case 16:
		return "SELECT a.id FROM a WHERE x > # AND NOT EXISTS (SELECT 1 FROM b WHERE b.a_id = a.id AND b.z = #) ORDER BY a.id" + dir + limit
	case 17:
		return "SELECT DISTINCT a.x FROM a JOIN b ON b.a_id = a.id WHERE b.z > # ORDER BY a.x" + dir + limit
	case 18:
		return "SELECT b.a_id, b.id FROM b JOIN a ON a.x = b.z AND a.t = 'x' WHERE NOT EXISTS (SELECT 1 FROM c WHERE c.z = b.z AND c.n = #)"
	case 19:
		return "SELECT a.* FROM a JOIN b ON b.id = # AND b.a_id = a.x WHERE a.id = #"
	case 20:
		return "SELECT a.* FROM a FULL JOIN b ON b.id = a.x WHERE a.id = #"
	case 21:
		return "SELECT b.z, c.z FROM b" + join + "c ON c.id = b.z AND c.n = # WHERE b.id < # AND b.z IS NOT NULL"
	case 22:
		return "SELECT s.* FROM b" + join + "(SELECT * FROM c WHERE n > # ORDER BY z" + s.pick("", limit) + ") AS s ON s.id = b.z WHERE b.z > # ORDER BY b.id" + limit
	}
	return "SELECT count(*), max(s.z) FROM (SELECT * FROM b WHERE z > #" + s.pick("", limit) + ") AS s" + join + "a ON a.id = s.a_id"
}
