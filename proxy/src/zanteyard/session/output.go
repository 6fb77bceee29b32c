package session

// output collects what is passed on from a batch of messages. A batch that is passed on unchanged isn't copied.
type output struct {
	batch    []byte
	from, to int // the part of the batch that is to be passed on next
	buf      []byte
}

func (o *output) begin(batch []byte) {
	o.batch, o.from, o.to, o.buf = batch, 0, 0, o.buf[:0]
}

// pass passes on a part of the batch.
func (o *output) pass(start, end int) {
	if o.to != start {
		o.flush()
		o.from = start
	}
	o.to = end
}

func (o *output) flush() {
	if o.to > o.from {
		o.buf = append(o.buf, o.batch[o.from:o.to]...)
	}
	o.from, o.to = 0, 0
}

// own returns the buffer, for appending something else.
func (o *output) own() []byte {
	o.flush()
	return o.buf
}

// all returns everything that is passed on.
func (o *output) all() []byte {
	if len(o.buf) == 0 {
		return o.batch[o.from:o.to]
	}
	o.flush()
	return o.buf
}

// release lets go of a large buffer.
func (o *output) release() {
	if cap(o.buf) > 256<<10 {
		o.buf = nil
	}
	o.batch = nil
}
