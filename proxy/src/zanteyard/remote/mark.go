package remote

import (
	"context"
	"fmt"
	"time"

	"github.com/jackc/pgconn"

	"zanteyard/own"
)

// The hub holds a mark of its own (package own) in the audit's database.

// server is a connection for questions, made again if it is lost. For one goroutine.
type server struct {
	config *pgconn.Config
	conn   *pgconn.PgConn
}

func (s *server) ask(ctx context.Context, text own.Text) ([]string, error) {
	ctx, cancel := context.WithTimeout(ctx, patience)
	defer cancel()
	if s.conn == nil || s.conn.IsClosed() {
		conn, err := own.Connect(ctx, s.config, nil)
		if err != nil {
			return nil, fmt.Errorf("connect to the server: %w", err)
		}
		s.conn = conn
	}
	rows, err := own.Ask(ctx, s.conn, text)
	var texts []string
	for _, row := range rows {
		texts = append(texts, row...)
	}
	return texts, err
}

func (s *server) close() {
	if s.conn != nil {
		ctx, cancel := context.WithTimeout(context.Background(), time.Second)
		defer cancel()
		s.conn.Close(ctx)
		s.conn = nil
	}
}

// identity is how people name the database and the server.
type identity struct{ database, system string }

func (s *server) identity(ctx context.Context) (identity, error) {
	texts, err := s.ask(ctx, own.SQL("SELECT pg_catalog.current_database()"))
	if err != nil || len(texts) != 1 {
		return identity{}, fmt.Errorf("identify the server: %w", err)
	}
	its := identity{database: texts[0]}
	if texts, err = s.ask(ctx, own.SQL("SELECT system_identifier FROM pg_catalog.pg_control_system()")); err == nil && len(texts) == 1 {
		its.system = texts[0] // a role without the right to ask relies on the mark alone
	}
	return its, nil
}

// setMark takes a lock.
func (s *server) setMark(ctx context.Context) (int64, error) {
	if _, err := s.ask(ctx, own.SQL("SELECT 1")); err != nil { // connects, if need be
		return 0, err
	}
	ctx, cancel := context.WithTimeout(ctx, patience)
	defer cancel()
	return own.SetMark(ctx, s.conn)
}

// sees reports whether the lock is there.
func (s *server) sees(ctx context.Context, mark int64) (bool, error) {
	texts, err := s.ask(ctx, own.MarkSQL(mark))
	return err == nil && len(texts) == 1 && texts[0] == "1", err
}
