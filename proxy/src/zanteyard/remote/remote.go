// Package remote lets several proxies feed one audit. A proxy beside another application server sends what its sessions
// report over a Redis stream (Post); beside the joiner it is passed on as if the sessions were here (Hub). Another
// stream has what the joiner asks of proxies: to meet.
//
// Correctness doesn't depend on Redis, nor on the clocks of two machines. Each message is numbered, and signed with a
// key that the proxies share. A message that is lost, repeated or out of order leaves transactions out, which folds
// them (docs/FOLDING.md); it never changes what a transaction has read. When a transaction ran is bounded by the
// joiner's own clock: the hub's messages contain its time (a tick). A transaction began after the last tick that its
// proxy had received by then, and had ended when the hub received it.
package remote

import (
	"crypto/rand"
	"encoding/hex"
	"errors"
	"fmt"
	"os"
	"time"

	"github.com/jackc/pgconn"
)

const (
	protocol     = 4
	every        = 20 * time.Millisecond // between two ticks, while proxies are attached
	seldom       = 250 * time.Millisecond
	again        = time.Second           // between two hellos
	gather       = 10 * time.Millisecond // how long a proxy gathers what it sends: a message costs as much as 30 transactions
	heartbeat    = 500 * time.Millisecond
	silence      = 3 * time.Second        // after which the other side counts as gone
	reporting    = 500 * time.Millisecond // for the answer to a COMMIT to reach a proxy, which then reports it
	verifying    = 10 * time.Second
	gathering    = silence + verifying + patience // until proxies that fed an earlier watch feed this one
	patience     = 5 * time.Second                // with Redis and with the server
	backlog      = 4096                           // how many messages may wait in a stream
	backlogBytes = 256 << 20                      // of these
	mostBytes    = 512 << 10                      // of a message, unless one transaction is longer: the next one waits for Redis's answer
	mostItems    = 8000                           // of a message
	mostOfOne    = 4 << 20                        // bytes of one transaction
	leastKey     = 16
)

// Options are the options that both sides need.
type Options struct {
	Redis  string // its URL
	Audit  string // the audit's name: audits of different names don't meet
	Key    []byte // the key that messages are signed with
	Server *pgconn.Config
	// Bound is how long a meeting waits for what is under way.
	Bound time.Duration
	// Redacts means that statements are sent without their constants and parameters. If the hub has it, all proxies do so.
	Redacts bool
	Log     func(string)
}

// ErrKey is wrapped by the errors for a key that isn't accepted.
var ErrKey = errors.New("the key that proxies and watch share")

// ReadKey reads a key from a file that nobody else may read.
func ReadKey(path string) ([]byte, error) {
	state, err := os.Stat(path)
	if err != nil {
		return nil, fmt.Errorf("%w: %v", ErrKey, err)
	}
	if state.Mode().Perm()&0o077 != 0 {
		return nil, fmt.Errorf("%w: other users can access the file %s: run chmod 600 on it", ErrKey, path)
	}
	key, err := os.ReadFile(path)
	if err != nil {
		return nil, fmt.Errorf("%w: %v", ErrKey, err)
	}
	if len(key) < leastKey {
		return nil, fmt.Errorf("%w: the file %s has fewer than %d bytes", ErrKey, path, leastKey)
	}
	return key, nil
}

// drawn returns a random name that nobody else has.
func drawn() (string, error) {
	var its [16]byte
	if _, err := rand.Read(its[:]); err != nil {
		return "", err
	}
	return hex.EncodeToString(its[:]), nil
}
