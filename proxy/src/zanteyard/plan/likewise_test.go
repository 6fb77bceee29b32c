package plan

import (
	"fmt"
	"testing"
	"time"

	"zanteyard/catalog"
)

// TestFollowsLikewise: of a condition that isn't followed, or has a subquery, it is asked by the rest, of rows with the same
// values as those in the result.
func TestFollowsLikewise(t *testing.T) {
	connection := connect(t, fmt.Sprint("likewise_", time.Now().UnixNano()), `CREATE TABLE project (id int PRIMARY KEY, open bool);
		CREATE TABLE person (id int PRIMARY KEY, name text); CREATE TABLE secret (id int PRIMARY KEY);
		ALTER TABLE secret ENABLE ROW LEVEL SECURITY; CREATE TABLE issue (id int PRIMARY KEY, project_id int, author_id int, n int, x numeric)`)
	cache := NewCache(load(t, connection, catalog.WithColumns))
	for _, x := range []struct{ text, want string }{
		{"SELECT n FROM issue i WHERE n > 3 AND project_id IN (SELECT id FROM project WHERE open)", "issue WHERE n > 3 AND project_id IN (5): 1,2"},
		{"SELECT n FROM issue WHERE project_id IN (SELECT id FROM project WHERE open) AND author_id IN (SELECT id FROM person p WHERE p.id = n)",
			"issue WHERE project_id = 5 AND author_id = 5 AND n = 5: 1,2"},
		{"SELECT n FROM issue i WHERE EXISTS (SELECT 1 FROM person a WHERE a.id = author_id)", "issue WHERE author_id IN (5): 1,2"},
		{"SELECT n FROM issue i WHERE EXISTS (SELECT 1 FROM person a WHERE a.id = i.id)", "a subquery"},
		{"SELECT n FROM issue i WHERE (SELECT open FROM project WHERE project.id = project_id)", "issue WHERE project_id IN (5): 1,2"},
		{"SELECT n FROM issue i WHERE n IN (SELECT length(name) FROM person)", "a subquery"},
		{"SELECT n FROM issue i WHERE n IN (SELECT id FROM secret)", "a subquery"},
		{"SELECT n FROM issue i WHERE n IN (SELECT id FROM person LIMIT 3)", "a subquery"},
		{"SELECT n FROM issue i WHERE n IN (SELECT id FROM person) FOR UPDATE", "a subquery"},
		{"SELECT n FROM issue i WHERE EXISTS (SELECT 1 FROM person a WHERE a.id = i.id + n)", "a subquery"},
		{"SELECT count(*) FROM issue i WHERE n IN (SELECT id FROM person)", "a column of another table that isn't in its key"},
		{"SELECT a.name, i.n FROM issue i JOIN person a ON a.id = i.author_id WHERE i.n + i.project_id > 3 AND i.project_id IN (SELECT id FROM project)",
			"issue WHERE author_id IN (9) AND project_id = 5 AND n = 5: 1,2"},
		{"SELECT n FROM issue i WHERE x IN (SELECT id FROM person)", "a subquery"}, // equal numbers may differ
		{"UPDATE issue SET n = 1 WHERE n IN (SELECT id FROM person)", "a subquery"},
	} {
		p, tokens := cache.Plan(x.text)
		got := p.NotFollowed
		if p.Follows() {
			got = joinAsked(t, p, x.text, tokens)
			for _, its := range p.follow.sides[0].relies {
				if its.Identity == 0 {
					t.Errorf("%s relies on an unknown table", x.text)
				}
			}
		}
		if got != x.want {
			t.Errorf("%s: %q, wanted %q", x.text, got, x.want)
		}
	}
}
