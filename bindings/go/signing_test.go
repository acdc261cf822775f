// COSE_Sign1 messages that are made: the rows of rows/signed.json, and signatures of crypto/ecdsa.

package cose_test

import (
	"bytes"
	"crypto/ecdsa"
	"crypto/elliptic"
	"crypto/rand"
	"encoding/json"
	"errors"
	"fmt"
	"os"
	"path/filepath"
	"sync"
	"testing"

	"cose"
)

// signedRow is a row of rows/signed.json.
type signedRow struct {
	TcID          int
	Alg           int32
	KID           *octets
	AAD           octets
	PayloadLength string
	Payload       octets
	Signature     octets
	Result        struct {
		Verdict         string
		Digest, Message octets
		Left            int
	}
}

// signed is what comes of a row with pieces of a size: whether it fails, the message, the bytes that aren't taken, and the digest.
func signed(r *signedRow, size int) string {
	var length uint64
	if _, err := fmt.Sscan(r.PayloadLength, &length); err != nil {
		return err.Error()
	}
	options := &cose.MakeOptions{AAD: r.AAD, Algorithm: cose.Algorithm(r.Alg)}
	if r.KID != nil {
		options.KID = *r.KID
	}
	var message bytes.Buffer
	left := len(r.Payload)
	maker, err := cose.NewSign1Maker(&message, length, options)
	if err == nil {
		left, err = written(maker, r.Payload, size)
	}
	var digest []byte
	if err == nil {
		digest, err = maker.Digest()
	}
	if err == nil {
		err = maker.End(r.Signature)
	}
	if err != nil {
		digest = nil
	}
	return fmt.Sprintf("%v %x %d %x", err != nil, message.Bytes(), left, digest)
}

func TestSignedRows(t *testing.T) {
	text, err := os.ReadFile(filepath.Join("..", "..", "rows", "signed.json"))
	if err != nil {
		t.Fatal(err)
	}
	var file struct {
		NumberOfTests int
		TestGroups    []struct{ Tests []signedRow }
	}
	if err = json.Unmarshal(text, &file); err != nil {
		t.Fatal(err)
	}
	run, left := 0, 0
	for i := range file.TestGroups {
		for j := range file.TestGroups[i].Tests {
			r := &file.TestGroups[i].Tests[j]
			// an empty key identifier is none
			if r.KID != nil && len(*r.KID) == 0 {
				left++
				continue
			}
			run++
			wanted := fmt.Sprintf("%v %x %d %x", r.Result.Verdict == "fault", r.Result.Message, r.Result.Left, r.Result.Digest)
			for _, size := range []int{1, 64} {
				if seen := signed(r, size); seen != wanted {
					t.Errorf("signed %d, pieces of %d: %s, and not %s", r.TcID, size, seen, wanted)
				}
			}
		}
	}
	if left != 1 || run+left != file.NumberOfTests {
		t.Errorf("signed: %d run, %d left out of %d", run, left, file.NumberOfTests)
	}
}

func TestSign1IsAuthentic(t *testing.T) {
	for algorithm, curve := range map[cose.Algorithm]elliptic.Curve{
		cose.ES256: elliptic.P256(), cose.ES384: elliptic.P384(), cose.ES512: elliptic.P521(),
		cose.ESP256: elliptic.P256(), cose.ESP384: elliptic.P384(), cose.ESP512: elliptic.P521(),
	} {
		key, err := ecdsa.GenerateKey(curve, rand.Reader)
		if err != nil {
			t.Fatal(err)
		}
		message, err := cose.MakeSign1(cose.SignECDSA(key), []byte("hi"), &cose.MakeOptions{Algorithm: algorithm})
		if err != nil {
			t.Fatal(err)
		}
		size := (curve.Params().BitSize + 7) / 8
		x, y := key.X.FillBytes(make([]byte, size)), key.Y.FillBytes(make([]byte, size))
		crv := map[int]byte{32: 1, 48: 2, 66: 3}[size]
		set := append([]byte{0xa4, 1, 2, 0x20, crv, 0x21, 0x58, byte(size)}, x...)
		set = append(append(set, 0x22, 0x58, byte(size)), y...)
		found, err := cose.Verify(set, message, nil)
		if err != nil || string(found.Payload) != "hi" {
			t.Errorf("%v: %v", algorithm, err)
		}
		if _, err = cose.Verify(set, message, &cose.Options{AAD: []byte("a")}); err == nil {
			t.Errorf("%v: authentic with other external data", algorithm)
		}
	}
}

func TestSign1IsNotMade(t *testing.T) {
	key, err := ecdsa.GenerateKey(elliptic.P256(), rand.Reader)
	if err != nil {
		t.Fatal(err)
	}
	for _, options := range []*cose.MakeOptions{
		{Algorithm: cose.HMAC256}, {Algorithm: -8}, {KID: make([]byte, 256)}, {AAD: make([]byte, 65_536)}, {Algorithm: cose.ES384},
	} {
		if _, err := cose.MakeSign1(cose.SignECDSA(key), []byte("hi"), options); err == nil {
			t.Errorf("made with %v", options)
		}
	}
	maker, err := cose.NewSign1Maker(&bytes.Buffer{}, 2, nil)
	if err != nil {
		t.Fatal(err)
	}
	if _, err = maker.Digest(); !errors.Is(err, cose.ErrIncomplete) {
		t.Errorf("a digest of nothing: %v", err)
	}
	if _, err = maker.Write([]byte("hi")); err != nil {
		t.Error(err)
	}
	if err = maker.End(make([]byte, 63)); !errors.Is(err, cose.ErrBadArgument) {
		t.Errorf("a signature of 63 bytes: %v", err)
	}
	if err = maker.End(make([]byte, 64)); err != nil {
		t.Error(err)
	}
	if err = maker.End(make([]byte, 64)); !errors.Is(err, cose.ErrClosed) {
		t.Errorf("after the end: %v", err)
	}
}

// TestSign1OfGoroutines has each byte of four goroutines hashed once.
func TestSign1OfGoroutines(t *testing.T) {
	var message bytes.Buffer
	maker, err := cose.NewSign1Maker(&message, 16_000, nil)
	if err != nil {
		t.Fatal(err)
	}
	var group sync.WaitGroup
	for i := 0; i < 4; i++ {
		group.Add(1)
		go func() {
			defer group.Done()
			for j := 0; j < 40; j++ {
				if used, err := maker.Write(make([]byte, 100)); used != 100 || err != nil {
					t.Error(used, err)
				}
			}
		}()
	}
	group.Wait()
	digest, err := maker.Digest()
	if err != nil {
		t.Fatal(err)
	}
	var alone []byte
	sign := func(asked []byte) ([]byte, error) {
		alone = asked
		return make([]byte, 64), nil
	}
	if _, err = cose.MakeSign1(sign, make([]byte, 16_000), nil); err != nil || !bytes.Equal(alone, digest) {
		t.Errorf("the digest is %x, and not %x: %v", digest, alone, err)
	}
}
