// COSE_Sign1 messages that are made, with a signature of the caller's.

package cose

// #include "signing.h"
import "C"

import (
	"bytes"
	"crypto/ecdsa"
	"crypto/elliptic"
	"crypto/rand"
	"io"
	"runtime"
)

// Room for a digest, and for what follows a payload: a head, and a signature of at most 132 bytes.
const digestRoom, signatureRoom = 64, 134

// Sign makes the signature of a digest: r, then s, each as long as a coordinate (RFC 9053 section 2.1).
type Sign func(digest []byte) ([]byte, error)

// Sign1Maker makes a COSE_Sign1 (RFC 9052 section 4.2) over a payload that is written to it, and passes it on.
type Sign1Maker struct {
	block block
	to    io.Writer
	fault error
}

// NewSign1Maker begins a message, and writes what precedes its payload, which has so many bytes. The Algorithm of the options is one of
// signatures (RFC 9053 section 2.1, RFC 9864 section 2.1); by default ES256.
func NewSign1Maker(to io.Writer, payloadLength uint64, options *MakeOptions) (*Sign1Maker, error) {
	o := MakeOptions{}
	if options != nil {
		o = *options
	}
	if o.Algorithm == 0 {
		o.Algorithm = ES256
	}
	m := &Sign1Maker{to: to}
	runtime.SetFinalizer(m, func(it *Sign1Maker) { it.block.free() })
	if !m.block.make(C.cose_signer_size(), C.cose_signer_align()) {
		return nil, errNoMemory
	}
	C.cose_signer_begin(m.block.at)
	var head [headRoom]byte
	room := bytesOf(head[:])
	made := C.signing_begin(m.block.at, C.int32_t(o.Algorithm), bytesOf(o.KID), bytesOf(o.AAD), C.uint64_t(payloadLength),
		room.at, room.length)
	err := madeError(&made, C.COSE_MORE)
	if err == nil {
		_, err = to.Write(head[:made.length])
	}
	if err != nil {
		m.block.free()
		return nil, err
	}
	return m, nil
}

// Write hashes bytes of the payload, and passes them on. It returns ErrTooLong after as many bytes as were stated.
func (m *Sign1Maker) Write(piece []byte) (int, error) {
	if err := m.block.lock(); err != nil {
		return 0, err
	}
	defer m.block.mutex.Unlock()
	if m.fault != nil {
		return 0, m.fault
	}
	used := int(C.signing_piece(m.block.at, bytesOf(piece)))
	if _, m.fault = m.to.Write(piece[:used]); m.fault != nil {
		return 0, m.fault
	}
	if used < len(piece) {
		return used, ErrTooLong
	}
	return used, nil
}

// Digest is the digest of the Sig_structure (RFC 9052 section 4.4), which is to be signed. It returns ErrIncomplete where bytes of the
// payload are missing.
func (m *Sign1Maker) Digest() ([]byte, error) {
	if err := m.block.lock(); err != nil {
		return nil, err
	}
	defer m.block.mutex.Unlock()
	if m.fault != nil {
		return nil, m.fault
	}
	digest := make([]byte, digestRoom)
	room := bytesOf(digest)
	made := C.signing_digest(m.block.at, room.at, room.length)
	if err := madeError(&made, C.COSE_COMPLETE); err != nil {
		return nil, err
	}
	return digest[:made.length], nil
}

// End writes what follows the payload: the signature, which isn't verified. It returns ErrIncomplete where bytes of the payload are
// missing, and ErrBadArgument where the signature hasn't the length of those of the algorithm: another one may be given then.
func (m *Sign1Maker) End(signature []byte) error {
	if err := m.block.lock(); err != nil {
		return err
	}
	defer m.block.mutex.Unlock()
	if m.fault != nil {
		return m.fault
	}
	var tail [signatureRoom]byte
	room := bytesOf(tail[:])
	made := C.signing_end(m.block.at, bytesOf(signature), room.at, room.length)
	if err := madeError(&made, C.COSE_COMPLETE); err != nil {
		return err
	}
	m.block.free()
	_, err := m.to.Write(tail[:made.length])
	return err
}

// MakeSign1 makes a COSE_Sign1 of a payload in memory, with a signature that sign makes.
func MakeSign1(sign Sign, payload []byte, options *MakeOptions) ([]byte, error) {
	message := bytes.NewBuffer(make([]byte, 0, headRoom+len(payload)+signatureRoom))
	maker, err := NewSign1Maker(message, uint64(len(payload)), options)
	if err != nil {
		return nil, err
	}
	if _, err = maker.Write(payload); err != nil {
		return nil, err
	}
	digest, err := maker.Digest()
	if err != nil {
		return nil, err
	}
	signature, err := sign(digest)
	if err != nil {
		return nil, err
	}
	if err = maker.End(signature); err != nil {
		return nil, err
	}
	return message.Bytes(), nil
}

// SignECDSA signs by a private key of crypto/ecdsa on P-256, P-384 or P-521. For a digest of another curve's algorithm it returns
// ErrBadArgument.
func SignECDSA(key *ecdsa.PrivateKey) Sign {
	return func(digest []byte) ([]byte, error) {
		size, length := 0, 0
		switch key.Curve {
		case elliptic.P256():
			size, length = 32, 32
		case elliptic.P384():
			size, length = 48, 48
		case elliptic.P521():
			size, length = 66, 64
		}
		if size == 0 || len(digest) != length {
			return nil, ErrBadArgument
		}
		r, s, err := ecdsa.Sign(rand.Reader, key, digest)
		if err != nil {
			return nil, err
		}
		signature := make([]byte, 2*size)
		r.FillBytes(signature[:size])
		s.FillBytes(signature[size:])
		return signature, nil
	}
}
