// COSE_Mac0 messages that are made.

package cose

// #include "sized.h"
import "C"

import (
	"bytes"
	"io"
	"runtime"
)

// Room for what precedes and what follows a payload.
const headRoom, tailRoom = 384, 128

// MakeOptions are what a message is made with beyond its key.
type MakeOptions struct {
	// Algorithm is HMAC256_64, HMAC256, HMAC384 or HMAC512 (RFC 9053 section 3.1); by default HMAC256.
	Algorithm Algorithm
	// KID is the key identifier to write, at most 255 bytes; none where it is empty.
	KID []byte
	// AAD is the externally supplied data, at most 65,535 bytes.
	AAD []byte
}

// Maker makes a COSE_Mac0 (RFC 9052 section 6.2) over a payload that is written to it, and passes it on.
type Maker struct {
	block block
	to    io.Writer
	fault error
}

// NewMaker begins a message, and writes what precedes its payload, which has so many bytes. key is a COSE_Key of a symmetric key.
func NewMaker(to io.Writer, key []byte, payloadLength uint64, options *MakeOptions) (*Maker, error) {
	o := MakeOptions{}
	if options != nil {
		o = *options
	}
	if o.Algorithm == 0 {
		o.Algorithm = HMAC256
	}
	m := &Maker{to: to}
	runtime.SetFinalizer(m, func(it *Maker) { it.block.free() })
	if !m.block.make(C.cose_maker_size(), C.cose_maker_align()) {
		return nil, errNoMemory
	}
	C.cose_maker_begin(m.block.at)
	var head [headRoom]byte
	room := bytesOf(head[:])
	made := C.sized_make(m.block.at, C.int32_t(o.Algorithm), bytesOf(key), bytesOf(o.KID), bytesOf(o.AAD), C.uint64_t(payloadLength),
		room.at, room.length)
	err := madeError(&made, C.COSE_MORE)
	if err == nil {
		_, err = to.Write(head[:made.length])
	}
	if err != nil {
		m.block.free()
		return nil, err
	}
	return m, nil
}

// madeError is why nothing was made, or nil where the status is the one that is wanted.
func madeError(made *C.struct_cose_made, wanted C.uint8_t) error {
	switch {
	case made.status == wanted:
		return nil
	case made.status == C.COSE_KEYS_REFUSED && made.reason == 0:
		return ErrWrongKey
	case made.status == C.COSE_MORE:
		return ErrIncomplete
	}
	return errorOf(made.status, made.reason, 0)
}

// Write hashes bytes of the payload, and passes them on. It returns ErrTooLong after as many bytes as were stated.
func (m *Maker) Write(piece []byte) (int, error) {
	if err := m.block.lock(); err != nil {
		return 0, err
	}
	defer m.block.mutex.Unlock()
	if m.fault != nil {
		return 0, m.fault
	}
	used := int(C.sized_make_piece(m.block.at, bytesOf(piece)))
	if _, m.fault = m.to.Write(piece[:used]); m.fault != nil {
		return 0, m.fault
	}
	if used < len(piece) {
		return used, ErrTooLong
	}
	return used, nil
}

// Close writes what follows the payload. It returns ErrIncomplete where bytes of that are missing.
func (m *Maker) Close() error {
	if err := m.block.lock(); err != nil {
		return err
	}
	defer m.block.mutex.Unlock()
	defer m.block.free()
	if m.fault != nil {
		return m.fault
	}
	var tail [tailRoom]byte
	room := bytesOf(tail[:])
	made := C.sized_make_end(m.block.at, room.at, room.length)
	if err := madeError(&made, C.COSE_COMPLETE); err != nil {
		return err
	}
	_, err := m.to.Write(tail[:made.length])
	return err
}

// Make makes a COSE_Mac0 of a payload in memory.
func Make(key, payload []byte, options *MakeOptions) ([]byte, error) {
	message := bytes.NewBuffer(make([]byte, 0, headRoom+len(payload)+tailRoom))
	maker, err := NewMaker(message, key, uint64(len(payload)), options)
	if err != nil {
		return nil, err
	}
	if _, err = maker.Write(payload); err != nil {
		return nil, err
	}
	if err = maker.Close(); err != nil {
		return nil, err
	}
	return message.Bytes(), nil
}
