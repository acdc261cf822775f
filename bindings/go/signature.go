// Signatures, by crypto/ecdsa.

package cose

// #include "sized.h"
import "C"

import (
	"crypto/ecdsa"
	"crypto/elliptic"
	"math/big"
	"unsafe"
)

// Curve is a curve (RFC 9053 section 7.1).
type Curve uint8

// The curves.
const (
	P256 Curve = 1
	P384 Curve = 2
	P521 Curve = 3
)

// elliptic is the curve of crypto/elliptic, or nil.
func (c Curve) elliptic() elliptic.Curve {
	switch c {
	case P256:
		return elliptic.P256()
	case P384:
		return elliptic.P384()
	case P521:
		return elliptic.P521()
	}
	return nil
}

// PublicKey is a point. Whether it is on its curve isn't known.
type PublicKey struct {
	Curve Curve
	X     []byte
	// Y is nil where the key has the sign of y alone, which Odd says.
	Y   []byte
	Odd bool
}

// SEC1 is the point as SEC 1 section 2.3.3 writes it: uncompressed, or compressed where the sign of y alone is known.
func (k *PublicKey) SEC1() []byte {
	first := byte(4)
	if k.Y == nil {
		first = 2
		if k.Odd {
			first = 3
		}
	}
	point := append(make([]byte, 0, 1+len(k.X)+len(k.Y)), first)
	return append(append(point, k.X...), k.Y...)
}

// ECDSA is the key for crypto/ecdsa. It returns ErrNoPoint where it isn't on its curve.
func (k *PublicKey) ECDSA() (*ecdsa.PublicKey, error) {
	curve := k.Curve.elliptic()
	if curve == nil {
		return nil, ErrNoPoint
	}
	read := elliptic.Unmarshal
	if k.Y == nil {
		read = elliptic.UnmarshalCompressed
	}
	x, y := read(curve, k.SEC1())
	if x == nil {
		return nil, ErrNoPoint
	}
	return &ecdsa.PublicKey{Curve: curve, X: x, Y: y}, nil
}

// SignInput is what an ECDSA signature is verified with.
type SignInput struct {
	Key PublicKey
	// Digest is that of the Sig_structure (RFC 9052 section 4.4): what was signed is hashed already.
	Digest []byte
	// Signature is r, then s, each as long as a coordinate (RFC 9053 section 2.1).
	Signature []byte
}

func signInputOf(input *C.struct_cose_signature_input) *SignInput {
	part := func(from unsafe.Pointer, length C.uint64_t) []byte { return C.GoBytes(from, C.int(length)) }
	key := PublicKey{Curve: Curve(input.crv), X: part(unsafe.Pointer(&input.x), input.x_length), Odd: input.y_sign == 2}
	if input.y_sign == 0 {
		key.Y = part(unsafe.Pointer(&input.y), input.y_length)
	}
	return &SignInput{
		Key:       key,
		Digest:    part(unsafe.Pointer(&input.digest), input.digest_length),
		Signature: part(unsafe.Pointer(&input.signature), input.signature_length),
	}
}

// VerifyECDSA says by crypto/ecdsa whether a signature is good. It returns ErrNoPoint where the key isn't on its curve.
func VerifyECDSA(input *SignInput) (bool, error) {
	key, err := input.Key.ECDSA()
	if err != nil {
		return false, err
	}
	half := len(input.Signature) / 2
	r, s := new(big.Int).SetBytes(input.Signature[:half]), new(big.Int).SetBytes(input.Signature[half:])
	return ecdsa.Verify(key, input.Digest, r, s), nil
}
