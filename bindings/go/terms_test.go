// What a caller states and requires: what the rows of terms.json don't ask.

package cose_test

import (
	"encoding/hex"
	"errors"
	"testing"
	"time"

	"cose"
)

// claimsOfAs are {1: "as", 4: 1444064944}.
var claimsOfAs, _ = hex.DecodeString("a201626173041a5612aeb0")

func TestStatedOutOfRange(t *testing.T) {
	empty, wrong := "", "\xff"
	for name, terms := range map[string]*cose.Terms{
		"no algorithm":    {Algorithms: []cose.Algorithm{}},
		"a zero":          {Algorithms: []cose.Algorithm{0}},
		"many algorithms": {Algorithms: make([]cose.Algorithm, 17)},
		"a label 0":       {Understood: []int64{0}},
		"many labels":     {Understood: make([]int64, 17)},
		"a kind":          {Options: cose.Options{Wanted: 1}},
	} {
		if _, err := cose.Authenticate(nil, nil, terms); !errors.Is(err, cose.ErrBadArgument) {
			t.Errorf("%s: %v", name, err)
		}
		if _, err := cose.AuthenticateDetached(nil, nil, nil, terms); !errors.Is(err, cose.ErrBadArgument) {
			t.Errorf("%s, detached: %v", name, err)
		}
		if _, err := cose.Admit(nil, nil, nil, terms); !errors.Is(err, cose.ErrBadArgument) {
			t.Errorf("%s, a token: %v", name, err)
		}
	}
	for name, requirements := range map[string]*cose.Requirements{
		"an empty issuer":   {Issuer: &empty},
		"an empty subject":  {Subject: &empty},
		"an empty audience": {Audience: &empty},
		"no UTF-8":          {Issuer: &wrong},
		"a claim 0":         {Present: []cose.Claim{0}},
		"a claim 8":         {Present: []cose.Claim{8}},
		"a leeway":          {Leeway: time.Millisecond},
		"a lifetime":        {MaxLifetime: -time.Second},
		"an age":            {MaxAge: time.Millisecond},
		"the time 0":        {CurrentTime: time.Unix(0, 0)},
	} {
		if _, err := cose.AdmitClaims(claimsOfAs, requirements, false); !errors.Is(err, cose.ErrBadArgument) {
			t.Errorf("%s: %v", name, err)
		}
	}
}

func TestUnmet(t *testing.T) {
	issuer, other := "as", "a"
	now := time.Unix(1444064943, 0)
	claims, err := cose.AdmitClaims(claimsOfAs, &cose.Requirements{CurrentTime: now, Issuer: &issuer}, false)
	if err != nil || *claims.Issuer != issuer {
		t.Fatal(claims, err)
	}
	var unmet *cose.Unmet
	_, err = cose.AdmitClaims(claimsOfAs, &cose.Requirements{CurrentTime: now, Issuer: &other}, true)
	if !errors.As(err, &unmet) || unmet.Requirement != cose.RequiredIssuer || unmet.Place != 2 {
		t.Error(err)
	}
	// by default the time is that of the machine's clock
	var refused *cose.Refused
	if _, err = cose.AdmitClaims(claimsOfAs, nil, false); !errors.As(err, &refused) || refused.Reason != cose.ReasonExpired {
		t.Error(err)
	}
}
