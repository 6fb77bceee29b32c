package join

import (
	"context"
	"encoding/json"
	"errors"
	"strings"
	"sync"
	"testing"
	"time"

	"zanteyard/record"
)

// stage is a server, its slot, a proxy's sessions and an auditor, around a whole joiner in real time.
type stage struct {
	t      testing.TB
	joiner *Joiner
	inbox  *Inbox
	cancel context.CancelFunc
	ended  chan error

	lock    sync.Mutex
	at      uint64 // place in the server's log
	number  uint32
	rows    map[string]uint32 // who wrote the last version
	places  map[uint64]uint64 // the place of each connection's next transaction
	open    []uint64
	busy    map[uint64]bool // they have something under way
	asked   [][]uint64      // the connections of each meeting
	model   *model
	lines   []string
	events  []Event
	held    bool          // the auditor doesn't answer
	slow    chan struct{} // if not nil, the first meeting waits for it
	failing map[string]error
	hung    chan struct{} // if not nil, the server answers once it is closed
}

func newStage(t testing.TB, opt Options) *stage {
	s := &stage{
		t: t, inbox: NewInbox(1 << 20), ended: make(chan error, 1), at: 100, number: base, rows: map[string]uint32{},
		places: map[uint64]uint64{}, busy: map[uint64]bool{}, failing: map[string]error{},
	}
	s.joiner = New(opt, s.inbox, plainTables{}, s, false, s, s)
	var ctx context.Context
	ctx, s.cancel = context.WithCancel(context.Background())
	go func() { s.ended <- s.joiner.Run(ctx) }()
	t.Cleanup(s.cancel)
	s.until("that the audit begins", func() bool { return s.lined("open") > 0 }) // what was over by then isn't offered
	return s
}

// Place implements Server.
func (s *stage) Place(ctx context.Context) (Place, error) {
	if err := s.wait(ctx); err != nil {
		return Place{}, err
	}
	s.lock.Lock()
	defer s.lock.Unlock()
	s.joiner.Advance(s.at)
	return Place{At: s.at, Shows: all}, s.failing["place"]
}

// Base implements Server.
func (s *stage) Base(ctx context.Context) (uint32, error) {
	if err := s.wait(ctx); err != nil {
		return 0, err
	}
	s.lock.Lock()
	defer s.lock.Unlock()
	return s.number, s.failing["base"]
}

// Subtransactions implements Server.
func (s *stage) Subtransactions(_ context.Context, places []uint64) ([][]uint32, error) {
	return make([][]uint32, len(places)), nil
}

// commit makes the server commit a transaction that writes these rows, and the slot report it. The lock is held.
func (s *stage) commit(rows ...string) uint32 {
	s.number++
	s.at += 100
	it := record.Commit{Number: s.number, LSN: s.at, Start: s.at - 50}
	for _, row := range rows {
		it.Writes = append(it.Writes, record.Write{Relation: 1, Key: record.Key(row)})
		s.rows[row] = s.number
	}
	if err := s.joiner.Commit(it); err != nil && !errors.Is(err, errEnded) {
		s.t.Error(err)
	}
	return s.number
}

// connect begins connections, which stay until they leave.
func (s *stage) connect(numbers ...uint64) {
	s.lock.Lock()
	defer s.lock.Unlock()
	for _, number := range numbers {
		s.open = append(s.open, number)
		s.inbox.Connection(record.Connection{Number: number})
	}
}

func (s *stage) leave(number uint64) {
	s.lock.Lock()
	defer s.lock.Unlock()
	for i, one := range s.open {
		if one == number {
			s.open = append(s.open[:i:i], s.open[i+1:]...)
		}
	}
	s.inbox.Connection(record.Connection{Number: number, Ended: true})
}

// update makes a connection read a row and overwrite it.
func (s *stage) update(connection uint64, row string) {
	s.lock.Lock()
	defer s.lock.Unlock()
	began := time.Now()
	seen := s.rows[row]
	if seen == 0 {
		seen = 7
	}
	number := s.commit(row)
	s.tell(connection, record.Transaction{Began: began, Number: uint64(number), Reads: []record.Read{read(row, seen)}})
}

func (s *stage) tell(connection uint64, it record.Transaction) {
	it.Connection, it.Place, it.Ended, it.Level = connection, s.places[connection], time.Now(), record.Serializable
	s.places[connection]++
	s.inbox.Transaction(it)
}

// Meet implements Meeter.
func (s *stage) Meet(_ context.Context, connections []uint64, moment func(time.Duration)) {
	s.lock.Lock()
	slow := s.slow
	s.slow = nil
	s.asked = append(s.asked, connections)
	s.lock.Unlock()
	if slow != nil {
		<-slow
	}
	s.lock.Lock()
	defer s.lock.Unlock()
	moment(time.Millisecond)
}

// Busy implements Meeter.
func (s *stage) Busy(connections []uint64) (underWay, idle int) {
	s.lock.Lock()
	defer s.lock.Unlock()
	for _, number := range connections {
		if s.busy[number] {
			underWay++
		}
	}
	return underWay, 0
}

// Line implements Output: the auditor takes the lines, and reports at once what can be forgotten.
func (s *stage) Line(text []byte) {
	s.lock.Lock()
	defer s.lock.Unlock()
	var it []any
	if err := json.Unmarshal(text, &it); err != nil {
		s.t.Errorf("line %s: %v", text, err)
		return
	}
	s.lines = append(s.lines, string(text))
	if it[0] == "open" {
		s.model = &model{sessions: make([]modelSession, int(it[1].(float64))), limit: int(it[2].(float64))}
		return
	}
	if refusal := s.model.take(it); refusal != "" {
		s.t.Errorf("line %s is refused: %s", text, refusal)
	}
	if it[0] == "truncate" && !s.held {
		marks, _ := s.model.settled()
		go s.joiner.Cut(marks)
	}
}

// Event implements Output.
func (s *stage) Event(it Event) {
	s.lock.Lock()
	defer s.lock.Unlock()
	s.events = append(s.events, it)
}

// until waits until something has happened.
func (s *stage) until(what string, is func() bool) {
	s.t.Helper()
	for end := time.Now().Add(5 * time.Minute); ; {
		s.lock.Lock()
		came := is()
		s.lock.Unlock()
		if came {
			return
		}
		if time.Now().After(end) {
			s.t.Fatalf("%s doesn't come\n%s", what, strings.Join(s.lines, "\n"))
		}
		time.Sleep(time.Millisecond)
	}
}

func (s *stage) lined(word string) (n int) {
	for _, line := range s.lines {
		if strings.HasPrefix(line, `["`+word+`"`) {
			n++
		}
	}
	return n
}

func (s *stage) warnings(part string) (n int) {
	for _, one := range s.events {
		if it, is := one.(Warning); is && strings.Contains(it.Text, part) {
			n++
		}
	}
	return n
}

func (s *stage) count(word string) int {
	s.lock.Lock()
	defer s.lock.Unlock()
	return s.lined(word)
}

// applications returns how many transactions were offered, without fences.
func (s *stage) applications() (n int) {
	for _, one := range s.model.sessions {
		for _, it := range one.its {
			if !it.isFence() {
				n++
			}
		}
	}
	return n
}
