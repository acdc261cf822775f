// What the tests have in common: messages that Go's own library authenticates.

package cose_test

import (
	"bytes"
	"crypto"
	"crypto/ecdsa"
	"crypto/elliptic"
	"crypto/hmac"
	"crypto/rand"
	"crypto/sha256"
	"encoding/binary"
	"os"
	"path/filepath"
	"testing"

	_ "crypto/sha512" // the hash functions of ES384 and ES512

	"cose"
)

var secret = []byte("a secret of the tests")

// keys are a COSE_Key of the secret: {1: 4, -1: secret}.
var keys = joined([]byte{0xa2, 0x01, 0x04, 0x20}, str(2, secret))

func joined(parts ...[]byte) []byte {
	return bytes.Join(parts, nil)
}

// head is a head of CBOR in its shortest form (RFC 8949 section 3).
func head(major byte, argument uint64) []byte {
	var all [8]byte
	binary.BigEndian.PutUint64(all[:], argument)
	switch first := major << 5; {
	case argument < 24:
		return []byte{first | byte(argument)}
	case argument < 1<<8:
		return append([]byte{first | 24}, all[7:]...)
	case argument < 1<<16:
		return append([]byte{first | 25}, all[6:]...)
	default:
		return append([]byte{first | 26}, all[4:]...)
	}
}

// str is a byte string (2) or a text string (3).
func str(major byte, content []byte) []byte {
	return joined(head(major, uint64(len(content))), content)
}

// integer is an integer.
func integer(number int) []byte {
	if number < 0 {
		return head(1, uint64(-1-number))
	}
	return head(0, uint64(number))
}

// structure is a MAC_structure or a Sig_structure (RFC 9052 sections 6.3 and 4.4).
func structure(context string, protected, aad, payload []byte) []byte {
	return joined([]byte{0x84}, str(3, []byte(context)), str(2, protected), str(2, aad), str(2, payload))
}

// mac0 is a COSE_Mac0 with HMAC 256/256 under keys.
func mac0(payload, aad []byte) []byte {
	protected := []byte{0xa1, 0x01, 0x05}
	mac := hmac.New(sha256.New, secret)
	mac.Write(structure("MAC0", protected, aad, payload))
	return joined([]byte{0xd1, 0x84}, str(2, protected), []byte{0xa0}, str(2, payload), str(2, mac.Sum(nil)))
}

// detached is the same with its payload detached.
func detached(payload, aad []byte) []byte {
	return bytes.Replace(mac0(payload, aad), joined([]byte{0xa0}, str(2, payload)), []byte{0xa0, 0xf6}, 1)
}

// A signer makes a COSE_Sign1.
type signer struct {
	alg  cose.Algorithm
	hash crypto.Hash
	key  *ecdsa.PrivateKey
}

func newSigner(t *testing.T, alg cose.Algorithm, curve elliptic.Curve, hash crypto.Hash) *signer {
	key, err := ecdsa.GenerateKey(curve, rand.Reader)
	if err != nil {
		t.Fatal(err)
	}
	return &signer{alg, hash, key}
}

func (s *signer) coordinate() int {
	return (s.key.Curve.Params().BitSize + 7) / 8
}

// keys are a COSE_Key of the public key, with y or with its sign.
func (s *signer) keys(crv int, isCompressed bool) []byte {
	length := s.coordinate()
	y := str(2, s.key.Y.FillBytes(make([]byte, length)))
	if isCompressed {
		y = []byte{0xf4 | byte(s.key.Y.Bit(0))}
	}
	return joined([]byte{0xa4, 0x01, 0x02, 0x20}, integer(crv), []byte{0x21}, str(2, s.key.X.FillBytes(make([]byte, length))),
		[]byte{0x22}, y)
}

// sign1 is the message, and its signature where that is wanted.
func (s *signer) sign1(t *testing.T, payload []byte) []byte {
	protected := joined([]byte{0xa1, 0x01}, integer(int(s.alg)))
	hash := s.hash.New()
	hash.Write(structure("Signature1", protected, nil, payload))
	r, ss, err := ecdsa.Sign(rand.Reader, s.key, hash.Sum(nil))
	if err != nil {
		t.Fatal(err)
	}
	length := s.coordinate()
	signature := joined(r.FillBytes(make([]byte, length)), ss.FillBytes(make([]byte, length)))
	return joined([]byte{0xd2, 0x84}, str(2, protected), []byte{0xa0}, str(2, payload), str(2, signature))
}

// example is a file of examples/.
func example(t *testing.T, name string) []byte {
	content, err := os.ReadFile(filepath.Join("..", "..", "examples", name))
	if err != nil {
		t.Fatal(err)
	}
	return content
}

// flipped is a copy with another bit in its last byte.
func flipped(message []byte) []byte {
	other := append([]byte(nil), message...)
	other[len(other)-1] ^= 1
	return other
}
