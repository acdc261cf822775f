// CBOR Web Tokens (RFC 8392).

package cose

// #include "sized.h"
import "C"

import (
	"bytes"
	"encoding/binary"
	"fmt"
	"math"
	"math/big"
	"time"
	"unicode/utf8"
)

// Policy says when a token is admitted (RFC 8392 sections 3.1.3 to 3.1.5). Nil means the zero Policy.
type Policy struct {
	// CurrentTime is the current time. By default it is that of the machine's clock.
	CurrentTime time.Time
	// Leeway is by how much the clocks of issuer and caller may differ, in whole seconds.
	Leeway time.Duration
	// Audience is what one of the token's audiences has to be, where it names any. With nil any may be.
	Audience *string
}

// given is the policy as the library has it, and the bytes of its audience.
func (p *Policy) given() (policy C.struct_sized_policy, audience []byte, err error) {
	if p == nil {
		p = new(Policy)
	}
	now, leeway := p.CurrentTime, p.Leeway/time.Second
	if now.IsZero() {
		now = time.Now()
	}
	if p.Leeway%time.Second != 0 || leeway < 0 || leeway > math.MaxUint32 {
		return policy, nil, fmt.Errorf("%w: the leeway isn't from 0 to 2^32 - 1 whole seconds", ErrBadArgument)
	}
	if p.Audience != nil {
		audience = []byte(*p.Audience)
		if !utf8.Valid(audience) {
			return policy, nil, ErrBadAudience
		}
	}
	policy = C.struct_sized_policy{now: C.int64_t(now.Unix()), leeway: C.uint32_t(leeway), has_audience: C.bool(p.Audience != nil)}
	return policy, audience, nil
}

// Date is a date of a token, in seconds since 1970: from -2^64 to 2^64 - 1.
type Date struct {
	number     uint64
	isNegative bool
}

// Int is the number of seconds.
func (d Date) Int() *big.Int {
	number := new(big.Int).SetUint64(d.number)
	if d.isNegative {
		return number.Not(number)
	}
	return number
}

// String is the number of seconds in decimal digits.
func (d Date) String() string {
	return d.Int().String()
}

// Time is the time, and whether 64 bits say its seconds.
func (d Date) Time() (time.Time, bool) {
	if d.number > math.MaxInt64 {
		return time.Time{}, false
	}
	seconds := int64(d.number)
	if d.isNegative {
		seconds = ^seconds
	}
	return time.Unix(seconds, 0), true
}

// Confirmation is what the presenter of a token has to prove the possession of (RFC 8747 section 3).
type Confirmation struct {
	// KID is the identifier of the presenter's key, or nil.
	KID []byte
	// Key is the presenter's key, or nil.
	Key *PublicKey
}

// Claims are those of an admitted token (RFC 8392 section 3.1). What isn't there is nil.
type Claims struct {
	// Payload has all claims, those too that have no field here, as CBOR: a part of what was passed.
	Payload                      []byte
	Issuer, Subject              *string
	Audience                     []string
	Expires, NotBefore, IssuedAt *Date
	// CTI is the token's identifier.
	CTI          []byte
	Confirmation *Confirmation
}

func part(payload []byte, place C.struct_cose_range) []byte {
	if place.present == 0 {
		return nil
	}
	end := place.at + place.length
	return payload[place.at:end:end]
}

func text(payload []byte, place C.struct_cose_range) *string {
	if place.present == 0 {
		return nil
	}
	found := string(part(payload, place))
	return &found
}

func date(given C.struct_cose_date) *Date {
	if given.present == 0 {
		return nil
	}
	return &Date{uint64(given.number), given.negative != 0}
}

// texts are so many text strings, one after the other, of which the first has its bytes at this place. The library has read them:
// each has a head with its length (RFC 8949 section 3).
func texts(payload []byte, first C.struct_cose_range, count uint64) []string {
	var found []string
	at, length := uint64(first.at), uint64(first.length)
	for ; count > 0; count-- {
		end := at + length
		found = append(found, string(payload[at:end]))
		if count == 1 {
			break
		}
		at, length = end+1, uint64(payload[end]&31)
		if length >= 24 {
			width := uint64(1) << (length - 24)
			var argument [8]byte
			copy(argument[8-width:], payload[at:at+width])
			at, length = at+width, binary.BigEndian.Uint64(argument[:])
		}
	}
	return found
}

func confirmation(payload []byte, claims *C.struct_cose_claims_set) *Confirmation {
	found := Confirmation{KID: part(payload, claims.cnf_kid)}
	if claims.cnf_crv != 0 {
		found.Key = &PublicKey{Curve: Curve(claims.cnf_crv), X: part(payload, claims.cnf_x), Odd: claims.cnf_y_sign == 2}
		if claims.cnf_y_sign == 0 {
			found.Key.Y = part(payload, claims.cnf_y)
		}
	}
	if found.KID == nil && found.Key == nil {
		return nil
	}
	return &found
}

func claimsOf(payload []byte, claims *C.struct_cose_claims_set) *Claims {
	return &Claims{
		Payload:      payload,
		Issuer:       text(payload, claims.iss),
		Subject:      text(payload, claims.sub),
		Audience:     texts(payload, claims.aud, uint64(claims.aud_count)),
		Expires:      date(claims.exp),
		NotBefore:    date(claims.nbf),
		IssuedAt:     date(claims.iat),
		CTI:          part(payload, claims.cti),
		Confirmation: confirmation(payload, claims),
	}
}

// ClaimsOf are the claims of a payload that is known to be authentic, where they are admitted. large allows them to nest 16 deep. It
// returns a *Refused whose Claims is set where they aren't admitted.
func ClaimsOf(payload []byte, policy *Policy, large bool) (*Claims, error) {
	given, audience, err := policy.given()
	if err != nil {
		return nil, err
	}
	return admitted(payload, given, audience, large)
}

// VerifyCWT verifies a token in memory, with its CWT tag or without, and returns its admitted claims. It returns a *Refused for the
// message and, with Claims set, for its claims.
func VerifyCWT(keys, token []byte, policy *Policy, options *Options) (*Claims, error) {
	o := options.orDefault()
	return verifyCWT(token, policy, &o,
		func(given C.struct_sized_policy, audience []byte) (C.struct_cose_claims_set, error) {
			return C.sized_verify_cwt(C.bool(o.Large), bytesOf(keys), bytesOf(o.AAD), given, bytesOf(audience), bytesOf(token)), nil
		},
		func() (*Message, error) { return Verify(keys, token, &o) })
}

// VerifyCWT verifies a token in memory, as the function VerifyCWT does.
func (t *KeyTable) VerifyCWT(token []byte, policy *Policy, options *Options) (*Claims, error) {
	o := options.orDefault()
	return verifyCWT(token, policy, &o,
		func(given C.struct_sized_policy, audience []byte) (found C.struct_cose_claims_set, err error) {
			if err = t.block.share(); err != nil {
				return found, err
			}
			defer t.block.mutex.RUnlock()
			external, data := bytesOf(o.AAD), bytesOf(token)
			if o.Large {
				return C.sized_verify_cwt(true, bytesOf(t.block.copies[0]), external, given, bytesOf(audience), data), nil
			}
			return C.sized_table_verify_cwt(t.block.at, external, given, bytesOf(audience), data), nil
		},
		func() (*Message, error) { return t.Verify(token, &o) })
}

// isSign1 says whether a token begins as a COSE_Sign1 does, after a CWT tag or without. Where it says no, the library knows better.
func isSign1(token []byte) bool {
	return bytes.HasPrefix(bytes.TrimPrefix(token, []byte{0xd8, 0x3d}), []byte{0xd2})
}

// verifyCWT asks for the claims of a COSE_Mac0 at once. Of a COSE_Sign1, and of a token whose tag doesn't have to say what it is, the
// message is verified first.
func verifyCWT(token []byte, policy *Policy, o *Options, read func(C.struct_sized_policy, []byte) (C.struct_cose_claims_set, error),
	verify func() (*Message, error)) (*Claims, error) {
	given, audience, err := policy.given()
	if err != nil {
		return nil, err
	}
	if o.Wanted == Tagged && !isSign1(token) {
		found, err := read(given, audience)
		if err != nil {
			return nil, err
		}
		if found.status == C.COSE_AUTHENTIC {
			end := found.payload_at + found.payload_length
			return claimsOf(token[found.payload_at:end:end], &found), nil
		}
		if found.status != C.COSE_SIGNED {
			return nil, errorOf(found.status, found.reason, found.place)
		}
	}
	message, err := verify()
	if err != nil {
		return nil, err
	}
	return admitted(message.Payload, given, audience, o.Large)
}

// admitted are the claims of an authentic payload.
func admitted(payload []byte, given C.struct_sized_policy, audience []byte, large bool) (*Claims, error) {
	found := C.sized_claims(C.bool(large), bytesOf(payload), given, bytesOf(audience))
	if found.status != C.COSE_AUTHENTIC {
		return nil, errorOf(found.status, found.reason, found.place)
	}
	return claimsOf(payload, &found), nil
}
