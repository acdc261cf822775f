// Messages that the caller authenticates, since it has the hash or the key.

package cose

// #include "sized.h"
import "C"

import "unsafe"

// AskedKey is the key that was chosen for a message, and the algorithm that it is used with.
type AskedKey struct {
	Algorithm Algorithm
	// KID is the identifier, nil where there is none.
	KID []byte
	// K are the bytes of a symmetric key, or whatever handle stands in their place. It is nil of a point.
	K []byte
	// Point is the curve and the coordinates of a point, as a SignInput has them, without a digest and a signature. It is nil of a
	// symmetric key.
	Point *SignInput
}

// Elsewhere verifies messages in pieces that the caller authenticates: nothing is hashed, and the bytes of a symmetric key are not used.
//
// Feed the pieces. From the payload's head on, Front has the pieces that are hashed before the payload, and AskedKey the key. Hash the
// payload then, and nothing after. At last VerdictOfMAC compares the tag of a COSE_Mac0 with the MAC of all that; VerdictOfAnswer is told
// whether AskedSignature is the signature of all that. The first verdict stands until Reset.
type Elsewhere struct {
	v     *Verifier
	aad   []byte
	asked C.uint64_t
}

// NewElsewhere is a verifier of messages that have their payload.
func NewElsewhere(keys []byte, options *Options) (*Elsewhere, error) {
	return newElsewhere(keys, options, false, 0)
}

// NewDetachedElsewhere is a verifier of messages whose payload is detached, and has so many bytes: hash what FeedPayload takes.
func NewDetachedElsewhere(keys []byte, payloadLength uint64, options *Options) (*Elsewhere, error) {
	return newElsewhere(keys, options, true, payloadLength)
}

func newElsewhere(keys []byte, options *Options, isDetached bool, payloadLength uint64) (*Elsewhere, error) {
	v, err := newVerifier(keys, options, true, isDetached, payloadLength)
	if err != nil {
		return nil, err
	}
	return &Elsewhere{v: v, aad: append([]byte(nil), v.options.AAD...)}, nil
}

// Close gives the memory back, which the garbage collector does too. Other calls return ErrClosed then.
func (e *Elsewhere) Close() error { return e.v.Close() }

// Feed takes bytes of the message. It returns a *Refused once no further byte can change that.
func (e *Elsewhere) Feed(piece []byte) (Fed, error) { return e.v.Feed(piece) }

// FeedPayload takes bytes of a detached payload, and returns how many: 0 where none is wanted.
func (e *Elsewhere) FeedPayload(piece []byte) (int, error) { return e.v.FeedPayload(piece) }

// End says that no byte follows. It returns a *Refused where the message isn't whole.
func (e *Elsewhere) End() error { return e.v.End() }

// Reset begins the next message, under the same keys.
func (e *Elsewhere) Reset() error { return e.v.Reset() }

// Counts are the numbers of bytes.
func (e *Elsewhere) Counts() (Counts, error) { return e.v.Counts() }

// Front is what is hashed before the payload, in six pieces: from the payload's head on and until the verdict. Otherwise it is nil.
func (e *Elsewhere) Front() ([][]byte, error) {
	if err := e.v.block.lock(); err != nil {
		return nil, err
	}
	defer e.v.block.mutex.Unlock()
	header := make([]byte, 1024)
	if e.v.large {
		header = make([]byte, 65535)
	}
	front := C.sized_front_pieces(e.v.large, e.v.block.at, (*C.uint8_t)(unsafe.Pointer(&header[0])), C.size_t(len(header)))
	if !front.is_there {
		return nil, nil
	}
	it := &front.pieces
	return [][]byte{
		beginning(unsafe.Pointer(&it.context), it.context_length),
		beginning(unsafe.Pointer(&it.protected_head), it.protected_head_length),
		header[:it.protected_length],
		beginning(unsafe.Pointer(&it.aad_head), it.aad_head_length),
		e.aad,
		beginning(unsafe.Pointer(&it.payload_head), it.payload_head_length),
	}, nil
}

// beginning is the first bytes of a field.
func beginning(at unsafe.Pointer, length C.uint8_t) []byte { return C.GoBytes(at, C.int(length)) }

// AskedKey is the key that was chosen: from the payload's head on and until the verdict. Otherwise it is nil.
func (e *Elsewhere) AskedKey() (*AskedKey, error) {
	if err := e.v.block.lock(); err != nil {
		return nil, err
	}
	defer e.v.block.mutex.Unlock()
	asked := C.sized_asked_key(e.v.large, e.v.block.at)
	if !asked.is_there {
		return nil, nil
	}
	found := &AskedKey{Algorithm: Algorithm(asked.key.alg)}
	if asked.key.has_kid == 1 {
		found.KID = taken(asked.key.kid, asked.key.kid_length)
	}
	if asked.key.crv == 0 {
		found.K = taken(asked.key.k, asked.key.k_length)
		return found, nil
	}
	var point C.struct_cose_signature_input
	point.crv, point.y_sign = asked.key.crv, asked.key.y_sign
	point.x_length = C.uint64_t(copy(fieldOf(&point.x), taken(asked.key.x, asked.key.x_length)))
	point.y_length = C.uint64_t(copy(fieldOf(&point.y), taken(asked.key.y, asked.key.y_length)))
	found.Point = signInputOf(&point)
	return found, nil
}

// fieldOf is the room of a coordinate.
func fieldOf(field *[66]C.uint8_t) []byte { return (*[66]byte)(unsafe.Pointer(field))[:] }

// taken are bytes of the key set, which is in memory of C.
func taken(at *C.uint8_t, length C.uint64_t) []byte {
	return append([]byte{}, C.GoBytes(unsafe.Pointer(at), C.int(length))...)
}

// AskedSignature is the signature of a complete COSE_Sign1, until the verdict. Otherwise it is nil.
func (e *Elsewhere) AskedSignature() ([]byte, error) {
	if err := e.v.block.lock(); err != nil {
		return nil, err
	}
	defer e.v.block.mutex.Unlock()
	found := C.sized_asked_signature(e.v.large, e.v.block.at)
	e.asked = found.message
	if !found.is_there {
		return nil, nil
	}
	return C.GoBytes(unsafe.Pointer(&found.signature.signature), C.int(found.signature.length)), nil
}

// VerdictOfMAC is the verdict on a complete COSE_Mac0, whose tag is compared with this MAC. It returns a *Refused where that is the
// verdict, and another error where no such MAC is asked for: of a COSE_Sign1, of another length, or after a verdict.
func (e *Elsewhere) VerdictOfMAC(mac []byte) (*Verdict, error) {
	if err := e.v.block.lock(); err != nil {
		return nil, err
	}
	defer e.v.block.mutex.Unlock()
	if err := e.v.end(); err != nil {
		return nil, err
	}
	return verdictOf(C.sized_verdict_of_mac(e.v.large, e.v.block.at, bytesOf(mac)))
}

// VerdictOfAnswer is the verdict on a complete COSE_Sign1, whose AskedSignature holds or doesn't. It returns a *Refused where that is the
// verdict, and another error where no such answer is asked for: of a COSE_Mac0, about the signature of another message, or after a verdict.
func (e *Elsewhere) VerdictOfAnswer(holds bool) (*Verdict, error) {
	if err := e.v.block.lock(); err != nil {
		return nil, err
	}
	defer e.v.block.mutex.Unlock()
	if err := e.v.end(); err != nil {
		return nil, err
	}
	return verdictOf(C.sized_verdict_of_answer(e.v.large, e.v.block.at, e.asked, C.bool(holds)))
}
