// Which key of a set a message is verified with, in memory and fed.

package cose_test

import (
	"bytes"
	"errors"
	"fmt"
	"testing"

	"cose"
)

func TestKeyOf(t *testing.T) {
	own := []byte("\xa3\x01\x04\x03\x05\x20\x44Jefe")
	other := []byte("\xa3\x01\x04\x03\x06\x20\x44Jefe")
	message := []byte("\xd1\x84\x43\xa1\x01\x05\xa0\x42hi\x58\x20" +
		"\x7d\x81\xe9\x64\xaa\xee\x5f\xbd\x8a\xdf\xb3\xf5\x33\x65\x7a\x9e" +
		"\xf9\xf7\x82\xf0\x4b\x91\x87\x7b\x60\x04\x27\x2a\x03\x52\xf9\x60")
	keys := append(append([]byte{0x82}, other...), own...)
	terms := &cose.Terms{Options: cose.Options{Wanted: cose.Mac0}}
	place, item, err := cose.KeyOf(keys, message, terms)
	if err != nil || place != 12 || !bytes.Equal(item, own) {
		t.Errorf("the key: %d, %x, %v", place, item, err)
	}
	if _, _, err := cose.KeyOf(other, message, terms); !errors.Is(err, cose.ErrNoKey) {
		t.Errorf("no key: %v", err)
	}
	for place, wanted := range map[uint64]cose.Mismatch{1: cose.OtherAlgorithm, 12: cose.Fits} {
		if found, err := cose.KeyMismatch(keys, message, place, terms); err != nil || found != wanted {
			t.Errorf("the key at %d: %d, %v", place, found, err)
		}
	}
	if _, err := cose.KeyMismatch(keys, message, 1, nil); !errors.Is(err, cose.ErrBadArgument) {
		t.Errorf("no kind: %v", err)
	}
}

// Two keys of a set, of which the second one, at place 29, is that of the messages of mac0.
var (
	otherKey = joined([]byte{0xa3, 0x01, 0x04, 0x03, 0x06, 0x20}, str(2, secret))
	ownKey   = joined([]byte{0xa3, 0x01, 0x04, 0x03, 0x05, 0x20}, str(2, secret))
	bothKeys = joined([]byte{0x82}, otherKey, ownKey)
)

// headersLength is the number of bytes of such a message up to the end of its unprotected bucket.
const headersLength = 7

// underMac0 are terms for a COSE_Mac0.
func underMac0(large bool) *cose.Terms {
	return &cose.Terms{Options: cose.Options{Wanted: cose.Mac0, Large: large}}
}

// withUnprotected is the message with another unprotected bucket, which isn't authenticated.
func withUnprotected(message, bucket []byte) []byte {
	return bytes.Replace(message, []byte{0xa0}, bucket, 1)
}

// largeMessages have an unprotected bucket of more than 1,024 bytes, and one that nests 12 deep.
func largeMessages() map[cose.Reason][]byte {
	message := mac0([]byte("hi"), nil)
	return map[cose.Reason][]byte{
		cose.ReasonPastRoom: withUnprotected(message, joined([]byte{0xa1, 0x18, 0x64}, str(2, make([]byte, 2_000)))),
		cose.ReasonTooDeep:  withUnprotected(message, joined([]byte{0xa1, 0x18, 0x64}, bytes.Repeat([]byte{0x81}, 10), []byte{0x80})),
	}
}

// isOwn says what is wrong with an answer that should be the second key.
func isOwn(place uint64, item []byte, err error) error {
	if err != nil || place != 29 || !bytes.Equal(item, ownKey) {
		return fmt.Errorf("%d, %x, %v", place, item, err)
	}
	return nil
}

// isNone says what is wrong with an answer that should be no key.
func isNone(place uint64, item []byte, err error) error {
	if !errors.Is(err, cose.ErrNoKey) || place != 0 || item != nil {
		return fmt.Errorf("%d, %x, %v", place, item, err)
	}
	return nil
}

func TestKeyOfLarge(t *testing.T) {
	for reason, message := range largeMessages() {
		if err := isOwn(cose.KeyOf(bothKeys, message, underMac0(true))); err != nil {
			t.Errorf("%v: the key: %v", reason, err)
		}
		if err := isNone(cose.KeyOf(bothKeys, message, underMac0(false))); err != nil {
			t.Errorf("%v: not large: %v", reason, err)
		}
		for place, wanted := range map[uint64]cose.Mismatch{1: cose.OtherAlgorithm, 29: cose.Fits} {
			if found, err := cose.KeyMismatch(bothKeys, message, place, underMac0(true)); err != nil || found != wanted {
				t.Errorf("%v: the key at %d: %d, %v", reason, place, found, err)
			}
			if _, err := cose.KeyMismatch(bothKeys, message, place, underMac0(false)); !errors.Is(err, reason) {
				t.Errorf("%v: the key at %d, not large: %v", reason, place, err)
			}
		}
		terms := underMac0(true)
		terms.LeastSecret = uint64(len(secret)) + 1
		if err := isNone(cose.KeyOf(bothKeys, message, terms)); err != nil {
			t.Errorf("%v: a short secret: %v", reason, err)
		}
		if found, err := cose.KeyMismatch(bothKeys, message, 29, terms); err != nil || found != cose.NotPermitted {
			t.Errorf("%v: a short secret: %d, %v", reason, found, err)
		}
		terms = underMac0(true)
		terms.Wanted = cose.Sign1
		if _, err := cose.KeyMismatch(bothKeys, message, 29, terms); !errors.Is(err, cose.ReasonWrongTag) {
			t.Errorf("%v: another kind: %v", reason, err)
		}
	}
}

// TestKeyOfFed asks after each byte of a message, after its verdict, and after Reset.
func TestKeyOfFed(t *testing.T) {
	message := mac0([]byte("hi"), nil)
	for _, large := range []bool{false, true} {
		v := newVerifier(t, keys, &cose.Options{Large: large})
		for turn := 0; turn < 2; turn++ {
			if err := isNone(v.KeyOf(bothKeys, underMac0(false))); err != nil {
				t.Error("before the message:", err)
			}
			for at := range message {
				if _, err := v.Feed(message[at : at+1]); err != nil {
					t.Fatal(err)
				}
				check := isOwn
				if at+1 < headersLength {
					check = isNone
				}
				if err := check(v.KeyOf(bothKeys, underMac0(false))); err != nil {
					t.Errorf("after %d bytes: %v", at+1, err)
				}
			}
			found, err := v.Verdict()
			if err != nil {
				t.Fatal(err)
			}
			if err := isOwn(v.KeyOf(bothKeys, &cose.Terms{Options: cose.Options{Wanted: found.Kind}})); err != nil {
				t.Error("after the verdict:", err)
			}
			if err := v.Reset(); err != nil {
				t.Fatal(err)
			}
		}
		if err := isNone(v.KeyOf(bothKeys, underMac0(false))); err != nil {
			t.Error("after Reset:", err)
		}
		v.Close()
		if _, _, err := v.KeyOf(bothKeys, underMac0(false)); !errors.Is(err, cose.ErrClosed) {
			t.Error("closed:", err)
		}
	}
}

// TestKeyOfFedTerms has keys that the terms don't permit, other kinds and sets, and terms that are none.
func TestKeyOfFedTerms(t *testing.T) {
	v := newVerifier(t, keys, nil)
	defer v.Close()
	if _, err := v.Feed(mac0([]byte("hi"), nil)); err != nil {
		t.Fatal(err)
	}
	mac := cose.Options{Wanted: cose.Mac0}
	short := uint64(len(secret))
	for name, terms := range map[string]*cose.Terms{
		"no terms":          nil,
		"no kind":           {},
		"another kind":      {Options: cose.Options{Wanted: cose.Sign1}},
		"another algorithm": {Options: mac, Algorithms: []cose.Algorithm{cose.HMAC384}},
		"a short secret":    {Options: mac, LeastSecret: short + 1},
	} {
		if err := isNone(v.KeyOf(bothKeys, terms)); err != nil {
			t.Errorf("%s: %v", name, err)
		}
	}
	// a key that names no algorithm, and a set without the key
	for name, its := range map[string][]byte{"no algorithm": keys, "another key": otherKey, "no key": {0x80}, "no set": nil} {
		if err := isNone(v.KeyOf(its, underMac0(false))); err != nil {
			t.Errorf("%s: %v", name, err)
		}
	}
	terms := &cose.Terms{Options: mac, Algorithms: []cose.Algorithm{cose.HMAC256}, LeastSecret: short}
	if err := isOwn(v.KeyOf(bothKeys, terms)); err != nil {
		t.Error("the terms permit it:", err)
	}
	place, item, err := v.KeyOf(keys, &cose.Terms{Options: mac, ShortMAC: true, WithoutAlg: true})
	if err != nil || place != 0 || !bytes.Equal(item, keys) {
		t.Errorf("a key alone: %d, %x, %v", place, item, err)
	}
	if _, _, err := v.KeyOf(bothKeys, &cose.Terms{Algorithms: []cose.Algorithm{}}); !errors.Is(err, cose.ErrBadArgument) {
		t.Error("no algorithm is stated:", err)
	}
}

// TestKeyOfFedLarge has headers that a verifier of the usual size has no room for, whatever the terms say of it.
func TestKeyOfFedLarge(t *testing.T) {
	for reason, message := range largeMessages() {
		v := newVerifier(t, keys, &cose.Options{Large: true})
		if _, err := v.Feed(message); err != nil {
			t.Fatal(err)
		}
		if err := isOwn(v.KeyOf(bothKeys, underMac0(false))); err != nil {
			t.Errorf("%v: large: %v", reason, err)
		}
		usual := newVerifier(t, keys, nil)
		if _, err := usual.Feed(message); !errors.Is(err, reason) {
			t.Errorf("%v: %v", reason, err)
		}
		if err := isNone(usual.KeyOf(bothKeys, underMac0(true))); err != nil {
			t.Errorf("%v: not large: %v", reason, err)
		}
		v.Close()
		usual.Close()
	}
}
