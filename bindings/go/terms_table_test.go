// Keys that terms permit, which are read once: what the rows don't ask.

package cose_test

import (
	"bytes"
	"crypto"
	"crypto/elliptic"
	"errors"
	"fmt"
	"runtime"
	"sync"
	"testing"
	"time"

	"cose"
)

// keysOf5 are a COSE_Key of the secret that names HMAC 256/256: {1: 4, 3: 5, -1: secret}.
var keysOf5 = joined([]byte{0xa3, 0x01, 0x04, 0x03, 0x05, 0x20}, str(2, secret))

func newTermsTable(t *testing.T, keys []byte, terms *cose.Terms) *cose.TermsTable {
	table, err := cose.NewTermsTable(keys, terms)
	if err != nil {
		t.Fatal(err)
	}
	return table
}

// TestPermittedKeys has key sets in which the keys that aren't permitted take none of the 64 places.
func TestPermittedKeys(t *testing.T) {
	others := bytes.Repeat([]byte("\xa3\x01\x04\x03\x06\x20\x41a"), 80)
	set := joined(head(4, 81), others, keysOf5)
	table := newTermsTable(t, set, &cose.Terms{Algorithms: []cose.Algorithm{cose.HMAC256}})
	defer table.Close()
	if message, err := table.Authenticate(mac0([]byte("hi"), nil)); err != nil || string(message.Payload) != "hi" || table.Len() != 1 {
		t.Error(message, err, table.Len())
	}
	if full := newTermsTable(t, joined(head(4, 64), others[:64*8]), nil); full.Len() != 64 {
		t.Error(full.Len())
	}
	var refused *cose.KeysRefused
	_, err := cose.NewTermsTable(joined(head(4, 65), others[:65*8]), nil)
	if !errors.As(err, &refused) || refused.Reason != cose.ReasonBadKeySet {
		t.Error(err)
	}
}

// TestTermsOfTable has the terms that a table keeps, and those that are none.
func TestTermsOfTable(t *testing.T) {
	aad := []byte("data")
	table := newTermsTable(t, keysOf5, &cose.Terms{Options: cose.Options{AAD: aad}, PayloadLimit: 2})
	defer table.Close()
	aad[0] = 0
	runtime.GC()
	for name, message := range map[string][]byte{
		"other data":     mac0([]byte("hi"), nil),
		"a long payload": mac0([]byte("hi!"), []byte("data")),
		"a byte after":   append(mac0([]byte("hi"), []byte("data")), 0),
	} {
		var refused *cose.Refused
		if _, err := table.Authenticate(message); !errors.As(err, &refused) {
			t.Error(name, err)
		}
	}
	if _, err := table.Authenticate(mac0([]byte("hi"), []byte("data"))); err != nil {
		t.Error(err)
	}
	for name, terms := range map[string]*cose.Terms{
		"no algorithm": {Algorithms: []cose.Algorithm{}},
		"a label 0":    {Understood: []int64{0}},
		"a kind":       {Options: cose.Options{Wanted: 1}},
		"large":        {Options: cose.Options{Large: true}},
	} {
		if _, err := cose.NewTermsTable(keysOf5, terms); !errors.Is(err, cose.ErrBadArgument) {
			t.Error(name, err)
		}
	}
	long := &cose.Terms{Options: cose.Options{AAD: make([]byte, 65_536)}}
	if _, err := cose.NewTermsTable(keysOf5, long); !errors.Is(err, cose.ErrAADTooLong) {
		t.Error(err)
	}
}

// until1444064944 are the requirements under which claimsOfAs are admitted.
var until1444064944 = &cose.Requirements{CurrentTime: time.Unix(1444064943, 0)}

// TestSignedInTable has messages and tokens that are signed: the signature is asked about once, and the table may be used then.
func TestSignedInTable(t *testing.T) {
	s := newSigner(t, cose.ES256, elliptic.P256(), crypto.SHA256)
	token := joined([]byte{0xd8, 0x3d}, s.sign1(t, claimsOfAs))
	asked, set := 0, joined([]byte{0x82}, keysOf5, s.keys(1, false))
	var table *cose.TermsTable
	terms := &cose.Terms{WithoutAlg: true}
	terms.ECDSA = func(input *cose.SignInput) (bool, error) {
		asked++
		if _, err := table.Admit(mac0(claimsOfAs, nil), until1444064944); err != nil {
			t.Error(err)
		}
		return cose.VerifyECDSA(input)
	}
	table = newTermsTable(t, set, terms)
	defer table.Close()
	claims, err := table.Admit(token, until1444064944)
	if err != nil || *claims.Issuer != "as" || asked != 1 {
		t.Error(claims, err, asked)
	}
	message, err := table.Authenticate(token[2:])
	if err != nil || !bytes.Equal(message.Payload, claimsOfAs) || asked != 2 {
		t.Error(message, err, asked)
	}
	for name, call := range map[string]func() error{
		"Authenticate": func() error { _, err := table.Authenticate(flipped(token[2:])); return err },
		"Admit":        func() error { _, err := table.Admit(flipped(token), until1444064944); return err },
	} {
		if err := call(); !errors.Is(err, cose.ReasonBadAuth) {
			t.Error(name, err)
		}
	}
	var unmet *cose.Unmet
	other := "a"
	required := &cose.Requirements{CurrentTime: until1444064944.CurrentTime, Issuer: &other}
	if _, err = table.Admit(token, required); !errors.As(err, &unmet) || unmet.Requirement != cose.RequiredIssuer {
		t.Error(err)
	}
}

// TestRequirementsInTable has what is out of range, and the time of the machine's clock.
func TestRequirementsInTable(t *testing.T) {
	table := newTermsTable(t, keysOf5, nil)
	defer table.Close()
	token := mac0(claimsOfAs, nil)
	for name, requirements := range map[string]*cose.Requirements{
		"a claim 8":  {Present: []cose.Claim{8}},
		"the time 0": {CurrentTime: time.Unix(0, 0)},
	} {
		if _, err := table.Admit(token, requirements); !errors.Is(err, cose.ErrBadArgument) {
			t.Error(name, err)
		}
	}
	if _, err := table.Admit(token, nil); !errors.Is(err, cose.ReasonExpired) {
		t.Error(err)
	}
}

// TestTermsTable has goroutines over one table, of which each is answered about its own message and its own token.
func TestTermsTable(t *testing.T) {
	s := newSigner(t, cose.ES256, elliptic.P256(), crypto.SHA256)
	signed := s.sign1(t, []byte("signed"))
	set := joined([]byte{0x82}, keysOf5, s.keys(1, true))
	table := newTermsTable(t, set, &cose.Terms{WithoutAlg: true})
	var group sync.WaitGroup
	for worker := 0; worker < 4; worker++ {
		group.Add(1)
		go func() {
			defer group.Done()
			for turn := 0; turn < 40; turn++ {
				payload := []byte(fmt.Sprint("payload ", turn))
				message, err := table.Authenticate(mac0(payload, nil))
				if err != nil || !bytes.Equal(message.Payload, payload) {
					t.Error(err)
				}
				if claims, err := table.Admit(mac0(claimsOfAs, nil), until1444064944); err != nil || *claims.Issuer != "as" {
					t.Error(claims, err)
				}
				if message, err = table.Authenticate(signed); err != nil || string(message.Payload) != "signed" {
					t.Error(err)
				}
			}
		}()
	}
	group.Wait()
	if err := table.Close(); err != nil || table.Len() != 2 {
		t.Error(err)
	}
	_, ofMessage := table.Authenticate(signed)
	_, ofToken := table.Admit(signed, nil)
	for _, err := range []error{ofMessage, ofToken, table.Close()} {
		if !errors.Is(err, cose.ErrClosed) {
			t.Error(err)
		}
	}
}
