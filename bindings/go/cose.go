// Package cose verifies COSE_Mac0 and COSE_Sign1 messages (RFC 9052) and CBOR Web Tokens (RFC 8392) by a library that is proved,
// and makes COSE_Mac0 messages. The package itself isn't proved: it is tested.
//
// HMAC is computed by the library. Of an ECDSA signature (ES256, ES384, ES512, ESP256, ESP384, ESP512) the library computes the
// digest, and crypto/ecdsa, or a function of the caller, verifies it.
//
// It is linked with the C library that pkg-config knows as cose, which ./install of the repository puts there.
package cose

// #cgo pkg-config: cose
// #include "sized.h"
import "C"

import "fmt"

// Kind is the kind of a message, by the number of its tag (RFC 9052 section 2).
type Kind uint8

// The kinds.
const (
	// Tagged is no kind of its own: the message's tag has to say it.
	Tagged Kind = 0
	Mac0   Kind = 17
	Sign1  Kind = 18
)

// String is the name of the kind, as rows of tests have it.
func (k Kind) String() string {
	switch k {
	case Tagged:
		return "tagged"
	case Mac0:
		return "mac0"
	case Sign1:
		return "sign1"
	}
	return fmt.Sprintf("kind %d", uint8(k))
}

// Options are what messages are verified with beyond keys. Nil means the zero Options.
type Options struct {
	// AAD is the externally supplied data (RFC 9052 section 4.3), at most 65,535 bytes.
	AAD []byte
	// Wanted is the kind of a message with its tag or without. By default the tag has to say it.
	Wanted Kind
	// ECDSA says whether a signature is good. By default it is VerifyECDSA. With an error there is no verdict.
	ECDSA func(*SignInput) (bool, error)
	// Large allows header buckets of 65,535 bytes, nested 16 deep, in place of 1,024 and 8.
	Large bool
}

func (o *Options) orDefault() Options {
	if o == nil {
		return Options{}
	}
	return *o
}

func (o *Options) isGood(input *C.struct_cose_signature_input) (bool, error) {
	ask := o.ECDSA
	if ask == nil {
		ask = VerifyECDSA
	}
	return ask(signInputOf(input))
}

// Message is an authentic message.
type Message struct {
	Kind      Kind
	Algorithm Algorithm
	// Payload is a part of the message that was passed, or the detached payload that was.
	Payload []byte
	// Taken is how many bytes the message has.
	Taken uint64
}

// Verify verifies a message in memory under a COSE_Key or a COSE_KeySet (RFC 9052 section 7), of which exactly one key has to fit.
// The bytes are one message: a byte after it is refused. It returns a *Refused or a *KeysRefused where that is the answer.
func Verify(keys, message []byte, options *Options) (*Message, error) {
	o := options.orDefault()
	answer := C.sized_verify(C.bool(o.Large), bytesOf(keys), bytesOf(o.AAD), C.uint32_t(o.Wanted), bytesOf(message))
	return o.decided(&answer, message, nil)
}

// VerifyDetached verifies a message in memory whose payload is detached (RFC 9052 section 4.1), with its payload.
func VerifyDetached(keys, message, payload []byte, options *Options) (*Message, error) {
	o := options.orDefault()
	if payload == nil {
		payload = []byte{}
	}
	answer := C.sized_verify_detached(C.bool(o.Large), bytesOf(keys), bytesOf(o.AAD), C.uint32_t(o.Wanted), bytesOf(message),
		bytesOf(payload))
	return o.decided(&answer, message, payload)
}

// decided is the verdict on a message, whose signature is asked about where it has one. A detached payload isn't nil.
func (o *Options) decided(answer *C.struct_sized_answer, message, payload []byte) (*Message, error) {
	verdict := &answer.verdict
	switch verdict.status {
	case C.COSE_AUTHENTIC:
	case C.COSE_SIGNED:
		good, err := o.isGood(&answer.input)
		if err != nil {
			return nil, err
		}
		if !good {
			return nil, &Refused{Reason: ReasonBadAuth, Place: uint64(answer.input.place)}
		}
	default:
		return nil, errorOf(verdict.status, verdict.reason, verdict.place)
	}
	if payload == nil {
		at, end := verdict.payload_at, verdict.payload_at+verdict.payload_length
		payload = message[at:end:end]
	}
	return &Message{Kind(verdict.kind), Algorithm(verdict.alg), payload, uint64(verdict.taken)}, nil
}

// Shape has the lengths of a message's parts in bytes. Nothing of it is authenticated.
type Shape struct {
	Kind          Kind
	PayloadLength uint64
	// AuthLength is that of the tag or signature.
	AuthLength uint64
	// Taken is that of the message.
	Taken uint64
}

// ShapeOf parses a message, and verifies nothing. It returns a *Refused where it isn't well formed.
func ShapeOf(message []byte, wanted Kind) (*Shape, error) {
	found := C.sized_shape(C.uint32_t(wanted), bytesOf(message))
	if found.status != C.COSE_COMPLETE {
		return nil, errorOf(found.status, found.reason, found.place)
	}
	return &Shape{Kind(found.kind), uint64(found.payload_length), uint64(found.auth_length), uint64(found.taken)}, nil
}
