// COSE_Sign1 messages that are signed by EdDSA: the rows of rows/further_messages.json, and signatures of crypto/ed25519.

package cose_test

import (
	"bytes"
	"crypto/ed25519"
	"crypto/rand"
	"encoding/json"
	"errors"
	"fmt"
	"os"
	"path/filepath"
	"testing"

	"cose"
)

// eddsaRow is a row of rows/further_messages.json.
type eddsaRow struct {
	TcID      int
	Message   octets
	Payload   *octets
	X         octets
	Structure octets
	Signature octets
	Holds     bool
	Result    struct {
		Verdict, Reason string
		Alg             int32
		Payload         octets
		Place           uint64
	}
}

// askedOf is what comes of a row: the payload and the algorithm, or the refusal.
func askedOf(g *group, r *eddsaRow) string {
	var alg cose.Algorithm
	options := &cose.EdDSAOptions{AAD: g.AAD, Wanted: kinds[g.Wanted], Verify: func(input *cose.EdDSAInput) (bool, error) {
		alg = input.Algorithm
		if !bytes.Equal(input.X, r.X) || !bytes.Equal(input.Structure, r.Structure) || !bytes.Equal(input.Signature, r.Signature) {
			return false, fmt.Errorf("asked about %x", input.Structure)
		}
		return r.Holds, nil
	}}
	payload, err := cose.VerifyEdDSA(g.Keys, r.Message, options)
	if r.Payload != nil {
		payload, err = cose.VerifyEdDSADetached(g.Keys, r.Message, *r.Payload, options)
	}
	if err != nil {
		return refusal(err)
	}
	return fmt.Sprintf("authentic %d %x", alg, payload)
}

func TestEdDSARows(t *testing.T) {
	text, err := os.ReadFile(filepath.Join("..", "..", "rows", "further_messages.json"))
	if err != nil {
		t.Fatal(err)
	}
	var file struct {
		TestGroups []struct {
			group
			Tests []eddsaRow
		}
	}
	if err = json.Unmarshal(text, &file); err != nil {
		t.Fatal(err)
	}
	run, left := 0, 0
	for _, g := range file.TestGroups {
		for _, r := range g.Tests {
			sizes, err := g.sizes(r.Result.Reason)
			// a byte after the message is refused before its signature, whose head has two bytes, is asked about
			end := int(r.Result.Place) + 2 + len(r.Signature)
			isFollowed := r.Result.Reason == "BadAuth" && len(r.Message) > end
			if err != nil || len(sizes) == 0 || sizes[0] || isFollowed {
				left++
				continue
			}
			wanted := fmt.Sprintf("refused %s %d", r.Result.Reason, r.Result.Place)
			if r.Result.Verdict == "authentic" {
				wanted = fmt.Sprintf("authentic %d %x", r.Result.Alg, []byte(r.Result.Payload))
			}
			if seen := askedOf(&g.group, &r); seen != wanted {
				t.Errorf("%d: %s, and not %s", r.TcID, seen, wanted)
			}
			run++
		}
	}
	if run == 0 || left != 11 {
		t.Errorf("%d rows run, %d left out", run, left)
	}
}

// ed25519Message is a key set, and a message of `hi` that its key signs by crypto/ed25519, with this external data.
func ed25519Message(t *testing.T, aad string) (keys, message []byte) {
	public, private, err := ed25519.GenerateKey(rand.Reader)
	if err != nil {
		t.Fatal(err)
	}
	structure := fmt.Sprintf("\x84\x6aSignature1\x43\xa1\x01\x32%c%s\x42hi", rune(0x40+len(aad)), aad)
	signature := ed25519.Sign(private, []byte(structure))
	keys = append([]byte("\xa3\x01\x01\x20\x06\x21\x58\x20"), public...)
	return keys, append([]byte("\xd2\x84\x43\xa1\x01\x32\xa0\x42hi\x58\x40"), signature...)
}

func TestEd25519(t *testing.T) {
	keys, message := ed25519Message(t, "a")
	payload, err := cose.VerifyEdDSA(keys, message, &cose.EdDSAOptions{AAD: []byte("a")})
	if err != nil || string(payload) != "hi" {
		t.Errorf("%q, %v", payload, err)
	}
	if _, err = cose.VerifyEdDSA(keys, message, nil); refusal(err) != "refused BadAuth 10" {
		t.Errorf("without the external data: %v", err)
	}
	other, _ := ed25519Message(t, "a")
	if _, err = cose.VerifyEdDSA(other, message, &cose.EdDSAOptions{AAD: []byte("a")}); !errors.Is(err, cose.ReasonBadAuth) {
		t.Errorf("under another key: %v", err)
	}
	// no other call knows the algorithm
	if _, err = cose.Verify(keys, message, nil); !errors.Is(err, cose.ReasonUnknownAlg) {
		t.Errorf("Verify: %v", err)
	}
	fails := errors.New("no answer")
	failing := func(*cose.EdDSAInput) (bool, error) { return true, fails }
	if _, err = cose.VerifyEdDSA(keys, message, &cose.EdDSAOptions{Verify: failing}); !errors.Is(err, fails) {
		t.Errorf("a verifier that fails: %v", err)
	}
}

func TestEd448IsNotInThePackage(t *testing.T) {
	keys := append([]byte("\xa3\x01\x01\x20\x07\x21\x58\x39"), make([]byte, 57)...)
	message := append([]byte("\xd2\x84\x43\xa1\x01\x27\xa0\x42hi\x58\x72"), make([]byte, 114)...)
	if _, err := cose.VerifyEdDSA(keys, message, nil); !errors.Is(err, cose.ErrNoEd448) {
		t.Errorf("%v", err)
	}
}
