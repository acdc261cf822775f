// Messages and tokens under what a caller states and requires of them. What isn't stated is safe.

package cose

// #include "terms.h"
import "C"

import (
	"fmt"
	"math"
	"time"
	"unicode/utf8"
)

// Terms are what a caller states of messages. With the zero Terms, which nil means too, keys for HMAC 256/64 and keys that name no
// algorithm are left out.
type Terms struct {
	Options
	// Algorithms are those that are allowed, at most 16: a key has to name one of them as its own. With nil none is stated.
	Algorithms []Algorithm
	// LeastSecret is the fewest bytes of a secret.
	LeastSecret uint64
	// PayloadLimit is the most bytes of a payload. With 0 there may be as many as in any.
	PayloadLimit uint64
	// Understood are the labels that crit may list in addition to those of RFC 9052, at most 16.
	Understood []int64
	// ShortMAC allows keys for HMAC 256/64, whose tag one guess in 2^64 meets, where no algorithm is stated.
	ShortMAC bool
	// WithoutAlg allows keys that name no algorithm where none is stated, a secret only with ShortMAC too: the sender chooses it.
	WithoutAlg bool
}

// Claim is a registered claim (RFC 8392 section 3.1), by its label.
type Claim uint8

// The claims.
const (
	ClaimIss Claim = 1
	ClaimSub Claim = 2
	ClaimAud Claim = 3
	ClaimExp Claim = 4
	ClaimNbf Claim = 5
	ClaimIat Claim = 6
	ClaimCti Claim = 7
)

// Requirements are what a caller requires of tokens. With the zero Requirements, which nil means too, a token has to have exp.
type Requirements struct {
	// CurrentTime is the current time. By default it is that of the machine's clock.
	CurrentTime time.Time
	// Leeway is by how much the clocks of issuer and caller may differ, in whole seconds.
	Leeway time.Duration
	// Issuer and Subject are what iss and sub have to be. With nil any will do.
	Issuer, Subject *string
	// Audience is what aud has to name. With nil any will do, and none.
	Audience *string
	// Present are the claims that have to be there.
	Present []Claim
	// MaxLifetime bounds exp after now, and after iat where that is there, in whole seconds. With 0 any will do.
	MaxLifetime time.Duration
	// MaxAge bounds now after iat, which isn't in the future, in whole seconds. With 0 any will do.
	MaxAge time.Duration
	// WithoutExp admits a token without exp, which never expires.
	WithoutExp bool
}

// Requirement is what a token doesn't meet, by its number: first the claims that aren't there, by their labels.
type Requirement uint8

// The other requirements.
const (
	RequiredIssuer   Requirement = 8
	RequiredSubject  Requirement = 9
	RequiredAudience Requirement = 10
	RequiredLifetime Requirement = 11
	RequiredAge      Requirement = 12
	RequiredIssued   Requirement = 13
)

var requirementNames = [...]string{"", "iss", "sub", "aud", "exp", "nbf", "iat", "cti", "issuer", "subject", "audience", "lifetime",
	"age", "issued"}

// String is the name of the requirement: that of the claim that isn't there, or as "issuer".
func (r Requirement) String() string {
	if int(r) < len(requirementNames) {
		return requirementNames[r]
	}
	return fmt.Sprintf("requirement %d", uint8(r))
}

// Unmet says which requirement a token doesn't meet: of several the first.
type Unmet struct {
	Requirement Requirement
	// Place is that of the claim's value in the payload, or 0 where the claim isn't there.
	Place uint64
}

// Error names the requirement and the place.
func (u *Unmet) Error() string {
	return fmt.Sprintf("cose: requirement not met: %v at %d", u.Requirement, u.Place)
}

func outOfRange(what string) error {
	return fmt.Errorf("%w: %s", ErrBadArgument, what)
}

// given are the terms as the library has them, without keys and external data.
func (t *Terms) given() (given C.struct_sized_terms, err error) {
	if t.Algorithms != nil && len(t.Algorithms) == 0 || len(t.Algorithms) > len(given.algorithms) || len(t.Understood) > len(given.understood) {
		return given, outOfRange("from 1 to 16 algorithms, and up to 16 labels may be stated")
	}
	for at, algorithm := range t.Algorithms {
		if algorithm == 0 {
			return given, outOfRange("0 is no algorithm")
		}
		given.algorithms[at] = C.int32_t(algorithm)
	}
	for at, label := range t.Understood {
		if label == 0 {
			return given, outOfRange("0 is no label")
		}
		given.understood[at] = C.int64_t(label)
	}
	given.kind, given.least_secret, given.payload_limit = C.uint8_t(t.Wanted), C.uint64_t(t.LeastSecret), C.uint64_t(t.PayloadLimit)
	if t.ShortMAC {
		given.permitted |= C.COSE_SHORT_MAC
	}
	if t.WithoutAlg {
		given.permitted |= C.COSE_WITHOUT_ALG
	}
	return given, nil
}

// seconds are the whole seconds of a duration that isn't negative.
func seconds(duration time.Duration, what string) (uint64, error) {
	if duration < 0 || duration%time.Second != 0 {
		return 0, outOfRange(what + " is a number of whole seconds from 0 on")
	}
	return uint64(duration / time.Second), nil
}

// named are the bytes of a text that is stated.
func named(text *string, what string) ([]byte, error) {
	if text == nil {
		return nil, nil
	}
	if *text == "" || !utf8.ValidString(*text) {
		return nil, outOfRange(what + " is empty, or isn't UTF-8")
	}
	return []byte(*text), nil
}

// required are requirements as the library has them, and the bytes of their texts.
type required struct {
	given         C.struct_sized_requirements
	iss, sub, aud []byte
}

func (r *Requirements) required() (found required, err error) {
	if r == nil {
		r = new(Requirements)
	}
	now := r.CurrentTime
	if now.IsZero() {
		now = time.Now()
	}
	leeway, err := seconds(r.Leeway, "the leeway")
	if err == nil && leeway > math.MaxUint32 {
		err = outOfRange("the leeway is at most 2^32 - 1 seconds")
	}
	if err != nil {
		return found, err
	}
	lifetime, err := seconds(r.MaxLifetime, "the longest lifetime")
	if err != nil {
		return found, err
	}
	age, err := seconds(r.MaxAge, "the greatest age")
	if err != nil {
		return found, err
	}
	for _, text := range []struct {
		to     *[]byte
		stated *string
		name   string
	}{{&found.iss, r.Issuer, "the issuer"}, {&found.sub, r.Subject, "the subject"}, {&found.aud, r.Audience, "the audience"}} {
		if *text.to, err = named(text.stated, text.name); err != nil {
			return found, err
		}
	}
	found.given = C.struct_sized_requirements{leeway: C.uint32_t(leeway), now: C.int64_t(now.Unix()), lifetime: C.uint64_t(lifetime),
		age: C.uint64_t(age)}
	for _, claim := range r.Present {
		if claim < ClaimIss || claim > ClaimCti {
			return found, outOfRange("a claim has a label from 1 to 7")
		}
		found.given.present |= 1 << (claim - 1)
	}
	if r.WithoutExp {
		found.given.permitted = C.COSE_WITHOUT_EXP
	}
	return found, nil
}

// claimsOrUnmet are the claims of a payload that begins so many bytes after the first of these.
func claimsOrUnmet(data []byte, found *C.struct_cose_claims_set) (*Claims, error) {
	if found.status == C.COSE_UNMET {
		return nil, &Unmet{Requirement(found.reason), uint64(found.place)}
	}
	if found.status != C.COSE_AUTHENTIC {
		return nil, errorOf(found.status, found.reason, found.place)
	}
	end := found.payload_at + found.payload_length
	return claimsOf(data[found.payload_at:end:end], found), nil
}

func (t *Terms) orDefault() Terms {
	if t == nil {
		return Terms{}
	}
	return *t
}

// authentic is the message of an answer under terms, whose signature is asked about where it has one.
func (t *Terms) authentic(answer *C.struct_sized_answer, message, payload []byte) (*Message, error) {
	if answer.verdict.status == C.COSE_SIGNED {
		good, err := t.isGood(&answer.input)
		if err != nil {
			return nil, err
		}
		if !good {
			return nil, &Refused{Reason: ReasonBadAuth, Place: uint64(answer.input.place)}
		}
		answer.verdict.status = C.COSE_AUTHENTIC
	}
	return t.decided(answer, message, payload)
}

// Authenticate verifies a message in memory as Verify does, under terms. A key that they leave out fits no message.
func Authenticate(keys, message []byte, terms *Terms) (*Message, error) {
	t := terms.orDefault()
	given, err := t.given()
	if err != nil {
		return nil, err
	}
	answer := C.sized_authenticate(C.bool(t.Large), given, bytesOf(keys), bytesOf(t.AAD), bytesOf(message))
	return t.authentic(&answer, message, nil)
}

// AuthenticateDetached verifies a message in memory whose payload is detached, as VerifyDetached does, under terms.
func AuthenticateDetached(keys, message, payload []byte, terms *Terms) (*Message, error) {
	t := terms.orDefault()
	given, err := t.given()
	if err != nil {
		return nil, err
	}
	if payload == nil {
		payload = []byte{}
	}
	answer := C.sized_authenticate_detached(C.bool(t.Large), given, bytesOf(keys), bytesOf(t.AAD), bytesOf(message), bytesOf(payload))
	return t.authentic(&answer, message, payload)
}

// AdmitClaims are the claims of a payload that is known to be authentic, where they meet the requirements. large allows them to nest 16
// deep. It returns a *Refused whose Claims is set, or an *Unmet, where they don't.
func AdmitClaims(payload []byte, requirements *Requirements, large bool) (*Claims, error) {
	r, err := requirements.required()
	if err != nil {
		return nil, err
	}
	return r.claims(payload, large)
}

// claims are those of an authentic payload, where they meet the requirements.
func (r *required) claims(payload []byte, large bool) (*Claims, error) {
	found := C.sized_admit_claims(C.bool(large), r.given, bytesOf(r.iss), bytesOf(r.sub), bytesOf(r.aud), bytesOf(payload))
	return claimsOrUnmet(payload, &found)
}

// Admit verifies a token in memory, with its CWT tag or without, under terms, and returns its claims where they meet the requirements.
// It returns a *Refused for the message and, with Claims set, for its claims, and an *Unmet for what they don't meet.
func Admit(keys, token []byte, requirements *Requirements, terms *Terms) (*Claims, error) {
	t := terms.orDefault()
	given, err := t.given()
	if err != nil {
		return nil, err
	}
	r, err := requirements.required()
	if err != nil {
		return nil, err
	}
	found := C.sized_admit(C.bool(t.Large), given, bytesOf(keys), bytesOf(t.AAD), r.given, bytesOf(r.iss), bytesOf(r.sub), bytesOf(r.aud),
		bytesOf(token))
	if found.status != C.COSE_SIGNED {
		return claimsOrUnmet(token, &found)
	}
	message, err := Authenticate(keys, token, &t)
	if err != nil {
		return nil, err
	}
	return r.claims(message.Payload, t.Large)
}
