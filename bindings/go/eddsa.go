// Messages that are signed by EdDSA (RFC 9053 section 2.2), whose signature another library verifies.

package cose

// #include "eddsa.h"
import "C"

import (
	"bytes"
	"crypto/ed25519"
	"errors"
	"unsafe"
)

// The curves of EdDSA (RFC 9053 section 7.1).
const (
	Ed25519 Curve = 6
	Ed448   Curve = 7
)

// ErrNoEd448 says that crypto/ed25519 has no Ed448: set EdDSAOptions.Verify for it.
var ErrNoEd448 = errors.New("cose: crypto/ed25519 doesn't verify Ed448")

// EdDSAInput is what an EdDSA signature is verified with.
type EdDSAInput struct {
	// Algorithm is -8 of EdDSA, -19 of Ed25519, -53 of Ed448.
	Algorithm Algorithm
	Curve     Curve
	// KID is the identifier of the key, nil where there is none.
	KID []byte
	// X is the public key.
	X []byte
	// Structure is what is signed (RFC 9052 section 4.4): EdDSA hashes it itself.
	Structure []byte
	Signature []byte
}

// EdDSAOptions are what a message is verified under, in addition to the keys. A nil pointer is all defaults.
type EdDSAOptions struct {
	// AAD is the externally supplied data (RFC 9052 section 4.3), at most 65,535 bytes.
	AAD []byte
	// Wanted is the kind of a message with its tag or without. By default the tag has to say it.
	Wanted Kind
	// Verify says whether a signature is good. By default it is VerifyEd25519. With an error there is no verdict.
	Verify func(*EdDSAInput) (bool, error)
}

// VerifyEd25519 says by crypto/ed25519 whether a signature is good. It returns ErrNoEd448 for a key on the other curve.
func VerifyEd25519(input *EdDSAInput) (bool, error) {
	if input.Curve != Ed25519 {
		return false, ErrNoEd448
	}
	return ed25519.Verify(ed25519.PublicKey(input.X), input.Structure, input.Signature), nil
}

// VerifyEdDSA is the payload of a COSE_Sign1 in memory that is signed by EdDSA, Ed25519 or Ed448, and authentic under one of the OKP keys
// of a key set (RFC 9053 section 7.2), of which exactly one has to fit. Verify refuses such a message: it knows no EdDSA. The bytes are
// one message: a byte after it is refused. It returns a *Refused or a *KeysRefused where that is the answer.
func VerifyEdDSA(keys, message []byte, options *EdDSAOptions) ([]byte, error) {
	return verifyEdDSA(keys, message, false, nil, options)
}

// VerifyEdDSADetached verifies a message in memory whose payload is detached, with its payload, as VerifyEdDSA does.
func VerifyEdDSADetached(keys, message, payload []byte, options *EdDSAOptions) ([]byte, error) {
	return verifyEdDSA(keys, message, true, payload, options)
}

func verifyEdDSA(keys, message []byte, isDetached bool, payload []byte, options *EdDSAOptions) ([]byte, error) {
	var o EdDSAOptions
	if options != nil {
		o = *options
	}
	verify := o.Verify
	if verify == nil {
		verify = VerifyEd25519
	}
	answer := C.eddsa_verify(bytesOf(keys), bytesOf(o.AAD), C.uint32_t(o.Wanted), bytesOf(message), C.bool(isDetached), bytesOf(payload))
	if answer.status != C.COSE_SIGNED {
		return nil, errorOf(answer.status, answer.reason, answer.place)
	}
	content := rangeOf(message, answer.payload)
	if isDetached {
		content = rangeOf(payload, answer.payload)
	}
	good, err := verify(eddsaInputOf(&answer, keys, message, o.AAD, content))
	if err != nil {
		return nil, err
	}
	if !good {
		return nil, &Refused{Reason: ReasonBadAuth, Place: uint64(answer.place)}
	}
	return content, nil
}

func eddsaInputOf(answer *C.struct_eddsa_answer, keys, message, aad, payload []byte) *EdDSAInput {
	it := &answer.pieces
	input := &EdDSAInput{
		Algorithm: Algorithm(answer.alg),
		Curve:     Curve(answer.crv),
		X:         rangeOf(keys, answer.x),
		Signature: rangeOf(message, answer.signature),
		Structure: bytes.Join([][]byte{
			beginning(unsafe.Pointer(&it.context), it.context_length),
			beginning(unsafe.Pointer(&it.protected_head), it.protected_head_length),
			rangeOf(message, answer.header),
			beginning(unsafe.Pointer(&it.aad_head), it.aad_head_length),
			aad,
			beginning(unsafe.Pointer(&it.payload_head), it.payload_head_length),
			payload,
		}, nil),
	}
	if answer.has_kid {
		input.KID = rangeOf(keys, answer.kid)
	}
	return input
}

// rangeOf is a part of the bytes, which aren't copied.
func rangeOf(data []byte, part C.struct_eddsa_range) []byte {
	end := part.at + part.length
	return data[part.at:end:end]
}
