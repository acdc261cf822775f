// Messages that come in pieces.

package cose

// #include "terms.h"
import "C"

import "runtime"

// Status is how far a message is.
type Status uint8

// The statuses of a message that isn't refused.
const (
	// More says that further bytes of the message are wanted.
	More Status = C.COSE_MORE
	// PayloadNext says that bytes of a detached payload are wanted.
	PayloadNext Status = C.COSE_PAYLOAD_NEXT
	// Complete says that all bytes are there: ask for the verdict.
	Complete Status = C.COSE_COMPLETE
)

// Fed is what came of a piece.
type Fed struct {
	// Used is how many bytes of the piece belong to the message.
	Used int
	// Payload is the part of the piece that belongs to the payload. Nothing is known about it before the verdict.
	Payload []byte
	Status  Status
}

// Verdict is an authentic message that came in pieces, whose payload the caller has.
type Verdict struct {
	Kind          Kind
	Algorithm     Algorithm
	PayloadLength uint64
	Taken         uint64
}

// Counts are a verifier's numbers of bytes.
type Counts struct {
	// Wanted is how many bytes of the message are to come for certain.
	Wanted uint64
	// PayloadWanted is how many bytes of a detached payload are wanted now.
	PayloadWanted uint64
	// Taken is how many bytes of the message were taken.
	Taken uint64
	// Held is how many bytes of it are held.
	Held uint64
}

// Verifier verifies messages that come in pieces, one after the other, in memory that doesn't grow.
//
// Feed the pieces and keep the payload that each gives, then ask for the Verdict, and drop the payload where that fails. Reset begins
// the next message. VerifyFrom does all of it over a reader.
//
// One call at a time uses it, and other goroutines wait. While it asks whether a signature is good, or reads a message, each other call
// returns ErrInUse: the answer counts for the message that it was asked about, and for no other.
type Verifier struct {
	block block
	// table has the keys, where they aren't the verifier's own
	table      *KeyTable
	options    Options
	large      C.bool
	isDetached bool
	room       []byte
}

// NewVerifier is a verifier of messages that have their payload.
func NewVerifier(keys []byte, options *Options) (*Verifier, error) {
	return newVerifier(keys, options, false, false, 0)
}

// NewDetachedVerifier is a verifier of messages whose payload is detached, and has so many bytes. Once Feed says PayloadNext,
// FeedPayload takes it, and then Feed the rest of the message.
func NewDetachedVerifier(keys []byte, payloadLength uint64, options *Options) (*Verifier, error) {
	return newVerifier(keys, options, false, true, payloadLength)
}

// NewVerifierUnder is a verifier of messages that have their payload, under terms, as Authenticate takes them: their defaults are safe. A
// verifier keeps no labels: terms with Understood are ErrBadArgument.
func NewVerifierUnder(keys []byte, terms *Terms) (*Verifier, error) {
	return newVerifierUnder(keys, terms, false, 0)
}

// NewDetachedVerifierUnder is the same of messages whose payload is detached, and has so many bytes.
func NewDetachedVerifierUnder(keys []byte, payloadLength uint64, terms *Terms) (*Verifier, error) {
	return newVerifierUnder(keys, terms, true, payloadLength)
}

// NewVerifierUnderTable is a verifier of messages that have their payload, under the keys of a table, which aren't read again. Any number
// of verifiers may be under one table, in any number of goroutines. Once the table is closed, each call but Close returns ErrClosed.
func NewVerifierUnderTable(table *KeyTable, options *Options) (*Verifier, error) {
	return newVerifierUnderTable(table, options, false, 0)
}

// NewDetachedVerifierUnderTable is the same of messages whose payload is detached, and has so many bytes.
func NewDetachedVerifierUnderTable(table *KeyTable, payloadLength uint64, options *Options) (*Verifier, error) {
	return newVerifierUnderTable(table, options, true, payloadLength)
}

func newVerifierUnderTable(table *KeyTable, options *Options, isDetached bool, payloadLength uint64) (*Verifier, error) {
	if err := table.block.share(); err != nil {
		return nil, err
	}
	defer table.block.mutex.RUnlock()
	v, err := openVerifier(nil, options, isDetached, func(v *Verifier, _, external C.struct_sized_bytes) C.struct_cose_status {
		wanted := C.uint32_t(v.options.Wanted)
		if isDetached {
			return C.sized_open_table_detached(v.large, v.block.at, table.block.at, external, wanted, C.uint64_t(payloadLength))
		}
		return C.sized_open_table(v.large, v.block.at, table.block.at, external, wanted)
	})
	if err != nil {
		return nil, err
	}
	v.table = table
	return v, nil
}

// shareTable begins a use of the table that the block leads to, where there is one, which leaveTable ends. No code of the caller runs in
// between: it may close the table.
func (v *Verifier) shareTable() error {
	if v.table == nil {
		return nil
	}
	return v.table.block.share()
}

func (v *Verifier) leaveTable() {
	if v.table != nil {
		v.table.block.mutex.RUnlock()
	}
}

func newVerifierUnder(keys []byte, terms *Terms, isDetached bool, payloadLength uint64) (*Verifier, error) {
	t := terms.orDefault()
	given, err := t.given()
	if err != nil {
		return nil, err
	}
	return openVerifier(keys, &t.Options, isDetached, func(v *Verifier, data, external C.struct_sized_bytes) C.struct_cose_status {
		return C.sized_open_under(v.large, v.block.at, given, data, external, C.bool(isDetached), C.uint64_t(payloadLength))
	})
}

func newVerifier(keys []byte, options *Options, isElsewhere, isDetached bool, payloadLength uint64) (*Verifier, error) {
	return openVerifier(keys, options, isDetached, func(v *Verifier, data, external C.struct_sized_bytes) C.struct_cose_status {
		wanted, length := C.uint32_t(v.options.Wanted), C.uint64_t(payloadLength)
		switch {
		case isElsewhere && isDetached:
			return C.sized_open_elsewhere_detached(v.large, v.block.at, data, external, wanted, length)
		case isElsewhere:
			return C.sized_open_elsewhere(v.large, v.block.at, data, external, wanted)
		case isDetached:
			return C.sized_open_detached(v.large, v.block.at, data, external, wanted, length)
		}
		return C.sized_open(v.large, v.block.at, data, external, wanted)
	})
}

// openVerifier makes the memory of a verifier, and opens it.
func openVerifier(keys []byte, options *Options, isDetached bool,
	open func(v *Verifier, keys, aad C.struct_sized_bytes) C.struct_cose_status) (*Verifier, error) {
	v := &Verifier{options: options.orDefault(), isDetached: isDetached}
	v.large = C.bool(v.options.Large)
	runtime.SetFinalizer(v, func(it *Verifier) { it.block.free() })
	// the library reads both until the verifier is closed
	data, isKept := v.block.keep(keys)
	external, isKeptToo := v.block.keep(v.options.AAD)
	if !isKept || !isKeptToo || !v.block.make(C.sized_verifier_size(v.large), C.sized_verifier_align(v.large)) {
		v.block.free()
		return nil, errNoMemory
	}
	C.sized_begin(v.large, v.block.at)
	status := open(v, data, external)
	// a refusal that is known now, of the length, is the message's: Feed and Verdict return it
	if status.status != C.COSE_MORE && status.status != C.COSE_REFUSED {
		v.block.free()
		return nil, errorOf(status.status, status.reason, status.place)
	}
	return v, nil
}

// Close gives the memory back, which the garbage collector does too. Other calls return ErrClosed then.
func (v *Verifier) Close() error {
	if err := v.block.lock(); err != nil {
		return err
	}
	defer v.block.mutex.Unlock()
	v.block.free()
	return nil
}

// Feed takes bytes of the message. It returns a *Refused once no further byte can change that.
func (v *Verifier) Feed(piece []byte) (Fed, error) {
	if err := v.block.lock(); err != nil {
		return Fed{}, err
	}
	defer v.block.mutex.Unlock()
	return v.feed(piece)
}

func (v *Verifier) feed(piece []byte) (Fed, error) {
	if err := v.shareTable(); err != nil {
		return Fed{}, err
	}
	defer v.leaveTable()
	fed := C.sized_feed(v.large, v.block.at, bytesOf(piece))
	switch fed.status.status {
	case C.COSE_MORE, C.COSE_PAYLOAD_NEXT, C.COSE_COMPLETE:
		at, end := fed.payload_at, fed.payload_at+fed.payload_length
		return Fed{int(fed.used), piece[at:end:end], Status(fed.status.status)}, nil
	}
	return Fed{}, errorOf(fed.status.status, fed.status.reason, fed.status.place)
}

// FeedPayload takes bytes of a detached payload, and returns how many: 0 where none is wanted.
func (v *Verifier) FeedPayload(piece []byte) (int, error) {
	if err := v.block.lock(); err != nil {
		return 0, err
	}
	defer v.block.mutex.Unlock()
	return v.feedPayload(piece)
}

func (v *Verifier) feedPayload(piece []byte) (int, error) {
	if err := v.shareTable(); err != nil {
		return 0, err
	}
	defer v.leaveTable()
	return int(C.sized_feed_payload(v.large, v.block.at, bytesOf(piece))), nil
}

// End says that no byte follows. It returns a *Refused where the message isn't whole.
func (v *Verifier) End() error {
	if err := v.block.lock(); err != nil {
		return err
	}
	defer v.block.mutex.Unlock()
	return v.end()
}

func (v *Verifier) end() error {
	if err := v.shareTable(); err != nil {
		return err
	}
	defer v.leaveTable()
	status := C.sized_end(v.large, v.block.at)
	if status.status != C.COSE_COMPLETE {
		return errorOf(status.status, status.reason, status.place)
	}
	return nil
}

// Verdict is the verdict on the message, after which no byte follows. It returns a *Refused where that is the verdict.
func (v *Verifier) Verdict() (*Verdict, error) {
	if err := v.block.lend(); err != nil {
		return nil, err
	}
	defer v.block.takeBack()
	return v.verdict()
}

// verdict asks about the signature, where there is one, so it is called while the block is lent.
func (v *Verifier) verdict() (*Verdict, error) {
	if err := v.end(); err != nil {
		return nil, err
	}
	asked, err := v.signInput()
	if err != nil {
		return nil, err
	}
	good := false
	if asked.has_signature {
		if good, err = v.options.isGood(&asked.input); err != nil {
			return nil, err
		}
	}
	if err = v.shareTable(); err != nil {
		return nil, err
	}
	defer v.leaveTable()
	return verdictOf(C.sized_verdict(v.large, v.block.at, C.bool(good)))
}

func (v *Verifier) signInput() (asked C.struct_sized_answer, err error) {
	if err = v.shareTable(); err != nil {
		return asked, err
	}
	defer v.leaveTable()
	return C.sized_sign_input(v.large, v.block.at), nil
}

func verdictOf(found C.struct_cose_message_verdict) (*Verdict, error) {
	if found.status != C.COSE_AUTHENTIC {
		return nil, errorOf(found.status, found.reason, found.place)
	}
	return &Verdict{Kind(found.kind), Algorithm(found.alg), uint64(found.payload_length), uint64(found.taken)}, nil
}

// Reset begins the next message, under the same keys.
func (v *Verifier) Reset() error {
	if err := v.block.lock(); err != nil {
		return err
	}
	defer v.block.mutex.Unlock()
	return v.reset()
}

func (v *Verifier) reset() error {
	if err := v.shareTable(); err != nil {
		return err
	}
	defer v.leaveTable()
	C.sized_reset(v.large, v.block.at)
	return nil
}

// Counts are the numbers of bytes of the message so far.
func (v *Verifier) Counts() (Counts, error) {
	if err := v.block.lock(); err != nil {
		return Counts{}, err
	}
	defer v.block.mutex.Unlock()
	return v.counts()
}

func (v *Verifier) counts() (Counts, error) {
	if err := v.shareTable(); err != nil {
		return Counts{}, err
	}
	defer v.leaveTable()
	it := C.sized_counts_of(v.large, v.block.at)
	return Counts{uint64(it.wanted), uint64(it.payload_wanted), uint64(it.taken), uint64(it.held)}, nil
}
