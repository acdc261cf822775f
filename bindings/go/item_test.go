// Claims of any label: the cases of bindings/items.json.

package cose_test

import (
	"encoding/hex"
	"encoding/json"
	"errors"
	"math"
	"math/big"
	"os"
	"reflect"
	"strconv"
	"testing"
	"time"

	"cose"
)

// A described value has one field, and Value where that is Tag.
type described struct {
	Integer, Float *string
	Bytes          *octets
	Text           *string
	Array          []described
	Map            [][]described
	Tag            *uint64
	Value          *described
	Simple         *int
}

func (d described) value(t *testing.T) any {
	switch {
	case d.Integer != nil:
		number, _ := new(big.Int).SetString(*d.Integer, 10)
		if number.IsInt64() {
			return number.Int64()
		}
		return number
	case d.Float != nil:
		number, err := strconv.ParseFloat(*d.Float, 64)
		if err != nil {
			t.Fatal(err)
		}
		return number
	case d.Bytes != nil:
		return []byte(*d.Bytes)
	case d.Text != nil:
		return *d.Text
	case d.Array != nil:
		found := []any{}
		for _, it := range d.Array {
			found = append(found, it.value(t))
		}
		return found
	case d.Map != nil:
		found := map[any]any{}
		for _, pair := range d.Map {
			found[pair[0].value(t)] = pair[1].value(t)
		}
		return found
	case d.Tag != nil:
		return cose.Tag{Number: *d.Tag, Value: d.Value.value(t)}
	}
	switch *d.Simple {
	case 20, 21:
		return *d.Simple == 21
	case 22:
		return nil
	}
	return cose.Simple(*d.Simple)
}

type itemCases struct {
	Items struct {
		Rows []struct {
			Bytes octets
			Value described
		}
	}
	Claims struct {
		Payload octets
		Rows    []struct{ Label, Value described }
		Absent  []described
	}
	Parameters struct {
		Message                octets
		Protected, Unprotected []struct{ Label, Value described }
		Absent                 []described
	}
	Refused struct{ Rows []string }
}

func readItemCases(t *testing.T) (cases itemCases) {
	t.Helper()
	data, err := os.ReadFile("../items.json")
	if err != nil {
		t.Fatal(err)
	}
	if err := json.Unmarshal(data, &cases); err != nil {
		t.Fatal(err)
	}
	return cases
}

// claimsOf are the claims of a payload, which nothing restricts.
func claimsOf(t *testing.T, payload []byte) *cose.Claims {
	t.Helper()
	claims, err := cose.VerifyCWT(keys, mac0(payload, nil), &cose.Policy{CurrentTime: time.Unix(1, 0)}, nil)
	if err != nil {
		t.Fatal(err)
	}
	return claims
}

func claim(claims *cose.Claims, label any) (any, error) {
	if name, is := label.(string); is {
		return claims.ClaimNamed(name)
	}
	return claims.Claim(label.(int64))
}

func same(a, b any) bool {
	x, isFloat := a.(float64)
	y, areFloats := b.(float64)
	if isFloat && areFloats && math.IsNaN(x) {
		return math.IsNaN(y)
	}
	return reflect.DeepEqual(a, b)
}

func TestClaimOfEachLabel(t *testing.T) {
	cases := readItemCases(t)
	claims := claimsOf(t, cases.Claims.Payload)
	for _, row := range cases.Claims.Rows {
		label, wanted := row.Label.value(t), row.Value.value(t)
		if found, err := claim(claims, label); err != nil || !same(found, wanted) {
			t.Errorf("the claim %v is %v, %v, not %v", label, found, err, wanted)
		}
	}
	for _, it := range cases.Claims.Absent {
		label := it.value(t)
		if found, err := claim(claims, label); !errors.Is(err, cose.ErrNoClaim) {
			t.Errorf("the claim %v is %v, %v", label, found, err)
		}
	}
}

// Each example is the claim 2500 of a token.
func TestItems(t *testing.T) {
	cases := readItemCases(t)
	front := []byte{0xa1, 0x19, 0x09, 0xc4}
	for _, row := range cases.Items.Rows {
		wanted := row.Value.value(t)
		found, err := claimsOf(t, joined(front, row.Bytes)).Claim(2500)
		if err != nil || !same(found, wanted) {
			t.Errorf("%x is %v, %v, not %v", row.Bytes, found, err, wanted)
		}
	}
	for _, digits := range cases.Refused.Rows {
		data, err := hex.DecodeString(digits)
		if err != nil {
			t.Fatal(err)
		}
		if found, err := claimsOf(t, joined(front, data)).Claim(2500); !errors.Is(err, cose.ErrBadValue) {
			t.Errorf("%s is %v, %v", digits, found, err)
		}
	}
}

func parameter(message []byte, bucket cose.Bucket, label any, options *cose.Options) (any, error) {
	if name, is := label.(string); is {
		return cose.ParameterNamed(message, bucket, name, options)
	}
	return cose.Parameter(message, bucket, label.(int64), options)
}

func TestParameterOfEachBucket(t *testing.T) {
	cases := readItemCases(t).Parameters
	if _, err := cose.Verify([]byte("\xa2\x01\x04\x20\x44Jefe"), cases.Message, nil); err != nil {
		t.Fatal(err)
	}
	rows := map[cose.Bucket][]struct{ Label, Value described }{cose.Protected: cases.Protected, cose.Unprotected: cases.Unprotected}
	for _, options := range []*cose.Options{nil, {Large: true}} {
		for bucket := range rows {
			for _, row := range rows[bucket] {
				label, wanted := row.Label.value(t), row.Value.value(t)
				if found, err := parameter(cases.Message, bucket, label, options); err != nil || !same(found, wanted) {
					t.Errorf("the parameter %v of %v is %v, %v, not %v", label, bucket, found, err, wanted)
				}
			}
			absent := cases.Absent
			for _, row := range rows[1-bucket] {
				absent = append(absent, row.Label)
			}
			for _, it := range absent {
				label := it.value(t)
				if found, err := parameter(cases.Message, bucket, label, options); !errors.Is(err, cose.ErrNoParameter) {
					t.Errorf("the parameter %v of %v is %v, %v", label, bucket, found, err)
				}
			}
		}
	}
}

func TestParameterOfAMessageInPieces(t *testing.T) {
	cases := readItemCases(t).Parameters
	for _, options := range []*cose.Options{nil, {Large: true}} {
		v, err := cose.NewVerifier([]byte("\xa2\x01\x04\x20\x44Jefe"), options)
		if err != nil {
			t.Fatal(err)
		}
		if found, err := v.Parameter(cose.Protected, cose.LabelKID); !errors.Is(err, cose.ErrNoParameter) {
			t.Errorf("a parameter of no message is %v, %v", found, err)
		}
		for i := range cases.Message {
			if _, err := v.Feed(cases.Message[i : i+1]); err != nil {
				t.Fatal(err)
			}
		}
		for _, row := range cases.Protected {
			label, wanted := row.Label.value(t), row.Value.value(t)
			get := func(bucket cose.Bucket) (any, error) {
				if name, is := label.(string); is {
					return v.ParameterNamed(bucket, name)
				}
				return v.Parameter(bucket, label.(int64))
			}
			if found, err := get(cose.Protected); err != nil || !same(found, wanted) {
				t.Errorf("the parameter %v is %v, %v, not %v", label, found, err, wanted)
			}
			if found, err := get(cose.Unprotected); !errors.Is(err, cose.ErrNoParameter) {
				t.Errorf("the other parameter %v is %v, %v", label, found, err)
			}
		}
		if found, err := v.Parameter(cose.Unprotected, cose.LabelIV); err != nil || !same(found, []byte{1, 2, 3}) {
			t.Errorf("the unprotected IV is %v, %v", found, err)
		}
		if err := v.Close(); err != nil {
			t.Fatal(err)
		}
	}
}
