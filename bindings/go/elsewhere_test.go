// The rows of messages, which are authenticated here and not by the library, with the same answers.

package cose_test

import (
	"bytes"
	"crypto"
	"crypto/hmac"
	_ "crypto/sha256"
	_ "crypto/sha512"
	"encoding/hex"
	"encoding/json"
	"errors"
	"fmt"
	"os"
	"path/filepath"
	"testing"

	"cose"
)

// hashes are those of the algorithms (RFC 9053 sections 2.1 and 3.1, RFC 9864 section 2.1).
var hashes = map[cose.Algorithm]crypto.Hash{
	4: crypto.SHA256, 5: crypto.SHA256, 6: crypto.SHA384, 7: crypto.SHA512,
	-7: crypto.SHA256, -9: crypto.SHA256, -35: crypto.SHA384, -51: crypto.SHA384, -36: crypto.SHA512, -52: crypto.SHA512,
}

// notAsked says that what isn't asked for has no verdict, and no refusal either.
func notAsked(how string, verdict *cose.Verdict, err error) error {
	var refused *cose.Refused
	if verdict != nil || err == nil || errors.As(err, &refused) {
		return fmt.Errorf("%s has a verdict: %w", how, err)
	}
	return nil
}

// stated is the verdict by what is computed here of a complete message.
func (r *row) stated(v *cose.Elsewhere, payload []byte) (verdict *cose.Verdict, err error) {
	if err := v.End(); err != nil {
		return nil, err
	}
	key, err := v.AskedKey()
	if err != nil || key == nil {
		return nil, fmt.Errorf("no key is asked about: %w", err)
	}
	front, err := v.Front()
	if err != nil {
		return nil, err
	}
	structure := append(bytes.Join(front, nil), payload...)
	if key.Point != nil {
		hash := hashes[key.Algorithm].New()
		hash.Write(structure)
		key.Point.Digest = hash.Sum(nil)
		if key.Point.Signature, err = v.AskedSignature(); err != nil {
			return nil, err
		}
		verdict, err = v.VerdictOfMAC(key.Point.Digest)
		if err = notAsked("a MAC of a COSE_Sign1", verdict, err); err != nil {
			return nil, err
		}
		holds, _ := r.ecdsa(key.Point)
		return v.VerdictOfAnswer(holds)
	}
	mac := hmac.New(hashes[key.Algorithm].New, key.K)
	mac.Write(structure)
	tag := mac.Sum(nil)
	if key.Algorithm == 4 {
		tag = tag[:8]
	}
	for _, other := range [][]byte{nil, tag[:len(tag)-1], append(append([]byte{}, tag...), 0)} {
		verdict, err = v.VerdictOfMAC(other)
		if err = notAsked(fmt.Sprintf("a MAC of %d bytes", len(other)), verdict, err); err != nil {
			return nil, err
		}
	}
	return v.VerdictOfMAC(tag)
}

// runElsewhere is a message in pieces, whose payload is detached where it has a length.
func (g *group) runElsewhere(r *row, length *uint64, large bool, size int) error {
	var v *cose.Elsewhere
	var err error
	if length == nil {
		v, err = cose.NewElsewhere(g.Keys, g.options(r, large))
	} else {
		v, err = cose.NewDetachedElsewhere(g.Keys, *length, g.options(r, large))
	}
	how := fmt.Sprintf("Elsewhere, pieces of %d", size)
	if err != nil {
		return differs(how, refusal(err), r.Result.refusal("refused"))
	}
	defer v.Close()
	var came bytes.Buffer
	used, err := feed(v, r.Message, size, &came)
	if err == nil && length != nil {
		for at := 0; at < len(r.Payload); at += size {
			last := at + size
			if last > len(r.Payload) {
				last = len(r.Payload)
			}
			taken, err := v.FeedPayload(r.Payload[at:last])
			if err != nil {
				return err
			}
			came.Write(r.Payload[at : at+taken])
		}
		_, err = feed(v, r.Message[used:], size, new(bytes.Buffer))
	}
	var verdict *cose.Verdict
	if err == nil {
		verdict, err = r.stated(v, came.Bytes())
	}
	wanted := uint64(came.Len())
	if length != nil {
		wanted = *length
	}
	if err = differs(how, decided(verdict, err), r.Result.expected(fmt.Sprint(wanted))); err != nil {
		return err
	}
	if verdict != nil {
		again, err := v.VerdictOfMAC(make([]byte, 32))
		if err = notAsked("a second MAC", again, err); err != nil {
			return err
		}
	}
	counts, err := v.Counts()
	if err != nil {
		return err
	}
	if err = differs(how+", taken", fmt.Sprint(counts.Taken), fmt.Sprint(*r.Result.Taken)); err != nil {
		return err
	}
	if length != nil {
		return differs(how+", taken of the payload", fmt.Sprint(came.Len()), fmt.Sprint(r.Result.PayloadTaken))
	}
	if !r.Result.isGood() {
		return nil
	}
	return differs(how+", payload", hex.EncodeToString(came.Bytes()), fmt.Sprint(r.Result.Payload))
}

// statedRow is a row of rows/elsewhere.json.
type statedRow struct {
	TcID    int
	Comment string
	Message octets
	Earlier *octets
	MAC     *octets
	Holds   bool
	Front   octets
	Key     octets
	Result  result
}

// said is the answer to what a row states of a message that is fed in pieces of so many bytes.
func (g *group) said(r *statedRow, large bool, size int) (string, error) {
	v, err := cose.NewElsewhere(g.Keys, &cose.Options{AAD: g.AAD, Wanted: kinds[g.Wanted], Large: large})
	if err != nil {
		return "", err
	}
	defer v.Close()
	var came bytes.Buffer
	_, err = feed(v, r.Message, size, &came)
	known, fault := knownOf(v)
	if fault != nil {
		return "", fault
	}
	var verdict *cose.Verdict
	if err == nil {
		verdict, err = r.state(v)
	}
	var refused *cose.Refused
	if err != nil && !errors.As(err, &refused) {
		return known + " none", nil
	}
	said := fmt.Sprintf("%s %s", known, decided(verdict, err))
	if err == nil {
		said += fmt.Sprintf(" %x", came.Bytes())
	}
	return said, nil
}

// knownOf is the structure before the payload and the key, where they are known.
func knownOf(v *cose.Elsewhere) (string, error) {
	front, err := v.Front()
	if err != nil {
		return "", err
	}
	key, err := v.AskedKey()
	if err != nil {
		return "", err
	}
	var material []byte
	if key != nil && key.Point != nil {
		material = key.Point.Key.X
	} else if key != nil {
		material = key.K
	}
	return fmt.Sprintf("%x %x", bytes.Join(front, nil), material), nil
}

// state says what a row states, and that is all where the message is complete.
func (r *statedRow) state(v *cose.Elsewhere) (*cose.Verdict, error) {
	if err := v.End(); err != nil {
		return nil, err
	}
	if r.Earlier != nil {
		// whatever comes of it, the second statement is what is asked about
		_, _ = v.VerdictOfMAC(*r.Earlier)
	}
	if r.MAC != nil {
		return v.VerdictOfMAC(*r.MAC)
	}
	if _, err := v.AskedSignature(); err != nil {
		return nil, err
	}
	return v.VerdictOfAnswer(r.Holds)
}

// expected is what a row says.
func (r *statedRow) expected() string {
	known := fmt.Sprintf("%x %x ", r.Front, r.Key)
	if r.Result.Verdict == "none" {
		return known + "none"
	}
	payload, _ := r.Result.Payload.(string)
	said := known + r.Result.expected(fmt.Sprint(len(payload)/2))
	if r.Result.isGood() {
		said += " " + payload
	}
	return said
}

func TestStatedRows(t *testing.T) {
	text, err := os.ReadFile(filepath.Join("..", "..", "rows", "elsewhere.json"))
	if err != nil {
		t.Fatal(err)
	}
	var file struct {
		NumberOfTests int
		TestGroups    []struct {
			group
			Tests []statedRow
		}
	}
	if err = json.Unmarshal(text, &file); err != nil {
		t.Fatal(err)
	}
	run := 0
	for i := range file.TestGroups {
		g := &file.TestGroups[i]
		for j := range g.Tests {
			r := &g.Tests[j]
			run++
			for _, size := range cuts {
				for _, large := range []bool{false, true} {
					seen, err := g.said(r, large, size)
					if err != nil || seen != r.expected() {
						t.Errorf("elsewhere %d, large %v, pieces of %d: %s, %v, and not %s", r.TcID, large, size, seen, err, r.expected())
					}
				}
			}
		}
	}
	if run == 0 || run != file.NumberOfTests {
		t.Errorf("elsewhere: %d run of %d", run, file.NumberOfTests)
	}
}
