// Messages and tokens in memory, keys, and messages that are made.

package cose_test

import (
	"bytes"
	"crypto"
	"crypto/elliptic"
	"errors"
	"fmt"
	"os"
	"regexp"
	"strconv"
	"strings"
	"testing"
	"time"

	"cose"
)

func ExampleVerify() {
	keys := []byte("\xa2\x01\x04\x20\x44Jefe")
	data, err := os.ReadFile("../../examples/mac0.cbor")
	if err != nil {
		panic(err)
	}
	message, err := cose.Verify(keys, data, nil)
	if err != nil {
		panic(err)
	}
	fmt.Printf("%v %s\n", message.Kind, message.Payload)
	_, err = cose.Verify(keys, data[:43], nil)
	var refused *cose.Refused
	if errors.As(err, &refused) {
		fmt.Println(refused.Reason, refused.Place, errors.Is(err, cose.ReasonTruncated))
	}
	// Output:
	// mac0 hi
	// Truncated 43 true
}

func ExampleVerifyCWT() {
	keys := []byte("\xa2\x01\x04\x20\x44Jefe")
	token, err := cose.Make(keys, []byte("\xa2\x02\x65erikw\x04\x1a\x56\x12\xae\xb0"), nil)
	if err != nil {
		panic(err)
	}
	for _, now := range []int64{1444064943, 1444064944} {
		claims, err := cose.VerifyCWT(keys, token, &cose.Policy{CurrentTime: time.Unix(now, 0)}, nil)
		if err != nil {
			fmt.Println(err)
			continue
		}
		fmt.Println(*claims.Subject, claims.Expires)
	}
	// Output:
	// erikw 1444064944
	// cose: claims refused: Expired at 9
}

// TestReasons compares the names with the page.
func TestReasons(t *testing.T) {
	page, err := os.ReadFile("../../docs/REASONS.md")
	if err != nil {
		t.Fatal(err)
	}
	rows := regexp.MustCompile("(?m)^\\| (\\d+) \\| `(\\w+)`").FindAllStringSubmatch(string(page), -1)
	for i, row := range rows {
		number, err := strconv.Atoi(row[1])
		if err != nil || number != i+1 || cose.Reason(number).String() != row[2] {
			t.Errorf("%s is %v", row[0], cose.Reason(number))
		}
	}
	if len(rows) != 43 || cose.Reason(44).String() != "reason 44" || cose.Reason(0).String() != "reason 0" {
		t.Errorf("%d reasons", len(rows))
	}
}

// TestSignatures verifies signatures of crypto/ecdsa of each algorithm, under points with y and with its sign.
func TestSignatures(t *testing.T) {
	p256, p384, p521 := elliptic.P256(), elliptic.P384(), elliptic.P521()
	for _, one := range []struct {
		alg   cose.Algorithm
		curve elliptic.Curve
		crv   int
		hash  crypto.Hash
	}{
		{cose.ES256, p256, 1, crypto.SHA256},
		{cose.ESP256, p256, 1, crypto.SHA256},
		{cose.ES384, p384, 2, crypto.SHA384},
		{cose.ESP384, p384, 2, crypto.SHA384},
		{cose.ES512, p521, 3, crypto.SHA512},
		{cose.ESP512, p521, 3, crypto.SHA512},
	} {
		s := newSigner(t, one.alg, one.curve, one.hash)
		data := s.sign1(t, []byte("payload"))
		for _, isCompressed := range []bool{false, true} {
			its := s.keys(one.crv, isCompressed)
			message, err := cose.Verify(its, data, nil)
			if err != nil || message.Algorithm != one.alg || message.Kind != cose.Sign1 || string(message.Payload) != "payload" {
				t.Errorf("%d: %v %v", one.alg, message, err)
			}
			_, err = cose.Verify(its, flipped(data), nil)
			place := len(data) - 2*s.coordinate() - 2
			if refusal(err) != fmt.Sprintf("refused BadAuth %d", place) {
				t.Errorf("%d, another signature: %v", one.alg, err)
			}
		}
	}
}

// TestExample verifies the example of RFC 9052 appendix C.2.1.
func TestExample(t *testing.T) {
	message, err := cose.Verify(example(t, "sign1_key.cbor"), example(t, "sign1.cbor"), nil)
	if err != nil || string(message.Payload) != "This is the content." {
		t.Fatal(message, err)
	}
}

// TestNoPoint is asked about a key that is on no curve.
func TestNoPoint(t *testing.T) {
	its := example(t, "sign1_key.cbor")
	_, err := cose.Verify(flipped(its), example(t, "sign1.cbor"), nil)
	var refused *cose.Refused
	if !errors.Is(err, cose.ErrNoPoint) || errors.As(err, &refused) {
		t.Fatal(err)
	}
}

// TestAsked has an error of the function that is asked about a signature, and one that is asked about none.
func TestAsked(t *testing.T) {
	its, data, fault := example(t, "sign1_key.cbor"), example(t, "sign1.cbor"), errors.New("no device")
	table, err := cose.NewKeyTable(its)
	if err != nil {
		t.Fatal(err)
	}
	failing := &cose.Options{ECDSA: func(*cose.SignInput) (bool, error) { return true, fault }}
	if _, err = cose.Verify(its, data, failing); !errors.Is(err, fault) {
		t.Error(err)
	}
	if _, err = table.Verify(data, failing); !errors.Is(err, fault) {
		t.Error(err)
	}
	if _, err = cose.Verify(keys, mac0([]byte("hi"), nil), failing); err != nil {
		t.Error(err)
	}
}

// TestArguments has what is no message.
func TestArguments(t *testing.T) {
	message := mac0(nil, nil)
	long := &cose.Options{AAD: make([]byte, 65_536)}
	now, wrong := time.Unix(0, 0), "\xff"
	token := mac0([]byte{0xa0}, nil)
	for name, err := range map[string]error{
		"aad":      second(cose.Verify(keys, message, long)),
		"verifier": second(cose.NewVerifier(keys, long)),
		"kind":     second(cose.Verify(keys, message, &cose.Options{Wanted: 16})),
		"leeway":   second(cose.VerifyCWT(keys, token, &cose.Policy{Leeway: time.Millisecond}, nil)),
		"past":     second(cose.VerifyCWT(keys, token, &cose.Policy{Leeway: -time.Second}, nil)),
		"audience": second(cose.VerifyCWT(keys, token, &cose.Policy{CurrentTime: now, Audience: &wrong}, nil)),
		"wrong":    second(cose.Make(example(t, "sign1_key.cbor"), nil, nil)),
		"alg":      second(cose.Make(keys, nil, &cose.MakeOptions{Algorithm: cose.ES256})),
		"kid":      second(cose.Make(keys, nil, &cose.MakeOptions{KID: make([]byte, 256)})),
	} {
		wanted := map[string]error{"aad": cose.ErrAADTooLong, "verifier": cose.ErrAADTooLong, "audience": cose.ErrBadAudience, "wrong": cose.ErrWrongKey}[name]
		if wanted == nil {
			wanted = cose.ErrBadArgument
		}
		if !errors.Is(err, wanted) {
			t.Errorf("%s: %v", name, err)
		}
	}
	var refused *cose.KeysRefused
	if _, err := cose.Verify([]byte{0x80}, message, nil); !errors.As(err, &refused) || refused.Reason != cose.ReasonBadKeySet {
		t.Error(err)
	}
}

func second[T any](_ T, err error) error { return err }

// TestPayload has a payload that is a part of what was passed, and nothing that can be appended to over the rest.
func TestPayload(t *testing.T) {
	data := mac0([]byte("hi"), []byte("aad"))
	message, err := cose.Verify(keys, data, &cose.Options{AAD: []byte("aad")})
	if err != nil || &message.Payload[0] != &data[bytes.Index(data, []byte("hi"))] || cap(message.Payload) != 2 {
		t.Fatal(message, err)
	}
}

// TestTokenClock has a token that expires by the machine's clock.
func TestTokenClock(t *testing.T) {
	until := func(moment time.Time) []byte {
		return mac0(joined([]byte{0xa1, 0x04}, integer(int(moment.Unix()))), nil)
	}
	if _, err := cose.VerifyCWT(keys, until(time.Now().Add(time.Hour)), nil, nil); err != nil {
		t.Error(err)
	}
	if _, err := cose.VerifyCWT(keys, until(time.Now().Add(-time.Hour)), nil, nil); !errors.Is(err, cose.ReasonExpired) {
		t.Error(err)
	}
}

// TestSignedToken has a token that is a COSE_Sign1, under keys and under a table.
func TestSignedToken(t *testing.T) {
	s := newSigner(t, cose.ES256, elliptic.P256(), crypto.SHA256)
	token := joined([]byte{0xd8, 0x3d}, s.sign1(t, []byte("\xa2\x02\x65erikw\x03\x82\x61a\x61b")))
	its := s.keys(1, false)
	table, err := cose.NewKeyTable(its)
	if err != nil {
		t.Fatal(err)
	}
	for name, call := range map[string]func([]byte, *cose.Policy, *cose.Options) (*cose.Claims, error){
		"keys": func(token []byte, p *cose.Policy, o *cose.Options) (*cose.Claims, error) {
			return cose.VerifyCWT(its, token, p, o)
		},
		"table": table.VerifyCWT,
	} {
		claims, err := call(token, nil, nil)
		if err != nil || *claims.Subject != "erikw" || fmt.Sprint(claims.Audience) != "[a b]" {
			t.Error(name, claims, err)
		}
		if _, err = call(flipped(token), nil, nil); !errors.Is(err, cose.ReasonBadAuth) {
			t.Error(name, err)
		}
	}
}

// TestManyAudiences reads texts whose heads have one byte, two, three and five.
func TestManyAudiences(t *testing.T) {
	var texts []byte
	lengths := []int{0, 1, 23, 24, 25, 255, 256, 300, 65_536, 24, 0}
	for _, length := range lengths {
		texts = append(texts, str(3, bytes.Repeat([]byte("a"), length))...)
	}
	payload := joined([]byte{0xa1, 0x03}, head(4, uint64(len(lengths))), texts)
	claims, err := cose.ClaimsOf(payload, nil, false)
	if err != nil || len(claims.Audience) != len(lengths) {
		t.Fatal(claims, err)
	}
	for i, length := range lengths {
		if claims.Audience[i] != strings.Repeat("a", length) {
			t.Errorf("the audience %d has %d bytes", i, len(claims.Audience[i]))
		}
	}
}

// TestConfirmation has the key of a token's presenter, with y and with its sign.
func TestConfirmation(t *testing.T) {
	s := newSigner(t, cose.ES256, elliptic.P256(), crypto.SHA256)
	for _, isCompressed := range []bool{false, true} {
		payload := joined([]byte{0xa1, 0x08, 0xa1, 0x01}, s.keys(1, isCompressed))
		claims, err := cose.ClaimsOf(payload, nil, false)
		if err != nil {
			t.Fatal(err)
		}
		key, err := claims.Confirmation.Key.ECDSA()
		if err != nil || !key.Equal(&s.key.PublicKey) {
			t.Error(key, err)
		}
	}
}

// TestDates has dates at the ends of what a token can say.
func TestDates(t *testing.T) {
	least := append([]byte{0x3b}, bytes.Repeat([]byte{0xff}, 8)...)
	claims, err := cose.ClaimsOf(joined([]byte{0xa2, 0x05}, least, []byte{0x06, 0x21}), nil, false)
	if err != nil || claims.NotBefore.String() != "-18446744073709551616" {
		t.Fatal(claims, err)
	}
	if _, is := claims.NotBefore.Time(); is {
		t.Error("a time before all times")
	}
	if moment, is := claims.IssuedAt.Time(); !is || moment.Unix() != -2 {
		t.Error(moment)
	}
}

// TestMake compares what is made with what Go's HMAC makes.
func TestMake(t *testing.T) {
	payload := bytes.Repeat([]byte("payload "), 1_000)
	message, err := cose.Make(keys, payload, &cose.MakeOptions{AAD: []byte("aad")})
	if err != nil || !bytes.Equal(message, mac0(payload, []byte("aad"))) {
		t.Fatal(err)
	}
	var to bytes.Buffer
	maker, err := cose.NewMaker(&to, keys, 2, nil)
	if err != nil {
		t.Fatal(err)
	}
	if count, err := maker.Write([]byte("hi!")); count != 2 || !errors.Is(err, cose.ErrTooLong) {
		t.Error(count, err)
	}
	if err = maker.Close(); err != nil || !bytes.Equal(to.Bytes(), mac0([]byte("hi"), nil)) {
		t.Error(err)
	}
	if err = maker.Close(); !errors.Is(err, cose.ErrClosed) {
		t.Error(err)
	}
	if maker, err = cose.NewMaker(&to, keys, 2, nil); err != nil {
		t.Fatal(err)
	}
	if err = maker.Close(); !errors.Is(err, cose.ErrIncomplete) {
		t.Error(err)
	}
}
