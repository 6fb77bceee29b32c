package remote

import (
	"bytes"
	"crypto/hmac"
	"crypto/sha256"
	"encoding/gob"
	"errors"

	"zanteyard/record"
)

// toHub is what a proxy sends. Keys aren't text, so messages are encoded by gob, not as JSON.
type toHub struct {
	Run, Proxy string // the watch that it is for, and its sender
	Epoch      uint64 // of the attachment, 0 for a hello
	Number     uint64 // from 0 without gaps, in each attachment
	Sent       uint64 // transactions in all of the proxy's messages up to this one
	Dropped    uint64 // transactions that it had no room for
	Tick       int64  // what had ended when this tick of the watch's arrived is in messages up to this one; 0 if unknown
	Hello      *hello
	Items      []item
}

// hello asks for an attachment.
type hello struct {
	Protocol               int
	Try                    uint64 // rises
	Name, Database, System string
	Tick                   int64 // the newest of the watch's that it has heard: a hello that was held back for long is old
	Again                  bool  // the watch had let it attach itself before
}

// item is one thing that a proxy reports.
type item struct {
	Connection  *record.Connection
	Transaction *transaction
	Unseen      *unseen
	Held        uint64 // the meeting for which clients are held: all that had ended was reported before
}

type transaction struct {
	Its  record.Transaction
	Tick int64 // the last one received before it began, 0 if there was none
}

// sizeOf returns about how many bytes a transaction takes.
func sizeOf(it *record.Transaction) int {
	n := 256 + len(it.Snapshot) + 4*len(it.Versions) + len(it.Application)
	for _, one := range it.Reads {
		n += 24 + len(one.Key)
	}
	for _, one := range it.Absent {
		n += 24 + len(one.Key)
	}
	for _, one := range it.Statements {
		n += 64 + len(one.Text)
		for _, parameter := range one.Parameters {
			n += 16 + len(parameter)
		}
		for _, left := range one.Unseen {
			n += 16 + len(left.Shape) + len(left.Reason)
		}
	}
	return n
}

type unseen struct {
	Shape, Reason string
	Reads         bool
	Count         uint64
}

// fromHub is what the watch sends to all proxies.
type fromHub struct {
	Run    string
	Number uint64 // rises
	Tick   int64  // nanoseconds of the watch's clock since its start, when this was made
	Idle   bool   // there is no audit for now
	Bye    bool   // the watch ends
	Hold   *order // a meeting begins
	Go     uint64 // the moment of this one is over
	Answer *answer
	Gone   uint64 // this attachment has ended
	// Unaudited are the connections of each attachment that have no session: their reads and statements need not be sent.
	Unaudited map[uint64][]uint64
}

// answer is the answer to a hello.
type answer struct {
	Proxy   string
	Try     uint64
	Epoch   uint64
	Mark    int64  // the lock by which the server is recognized
	Redacts bool   // constants and parameters aren't to be sent
	Refused string // why there is no attachment
}

// order makes these connections of each attachment meet.
type order struct {
	Meeting     uint64
	Connections map[uint64][]uint64
}

// Directions, so that nobody can send messages of one side back to it.
const (
	upwards   = "zanteyard proxy to watch 1\x00"
	downwards = "zanteyard watch to proxy 1\x00"
)

func (o *Options) sign(direction string, text []byte) []byte {
	sum := hmac.New(sha256.New, o.Key)
	sum.Write([]byte(direction + o.Audit + "\x00"))
	sum.Write(text)
	return sum.Sum(nil)
}

func (o *Options) isSigned(direction string, text, signature []byte) bool {
	return hmac.Equal(o.sign(direction, text), signature)
}

func encode(it any) ([]byte, error) {
	var text bytes.Buffer
	err := gob.NewEncoder(&text).Encode(it)
	return text.Bytes(), err
}

var errSigned = errors.New("remote: a message isn't signed with the audit's key")

// open decodes a message, if its signature is valid.
func (o *Options) open(direction string, text, signature []byte, to any) error {
	if !o.isSigned(direction, text, signature) {
		return errSigned
	}
	return gob.NewDecoder(bytes.NewReader(text)).Decode(to)
}

func (o *Options) proxies() string { return "zanteyard watch " + o.Audit + ":proxies" }
func (o *Options) owner() string   { return "zanteyard watch " + o.Audit + ":owner" }
func (o *Options) watch() string   { return "zanteyard watch " + o.Audit + ":watch" }
