// Claims of any label, as types of Go's.

package cose

// #include "sized.h"
import "C"

import (
	"encoding/binary"
	"errors"
	"math"
	"math/big"
	"unicode/utf8"
)

// ErrNoClaim comes of a label that no claim has.
var ErrNoClaim = errors.New("cose: there is no claim of this label")

// ErrNoParameter comes of a label that no header parameter of the bucket has.
var ErrNoParameter = errors.New("cose: there is no header parameter of this label")

// ErrBadValue comes of a value that Go has no type for: a text that isn't UTF-8, or a map that has a key twice, or one that is an
// array, a map, a tag or an integer beyond 64 bits.
var ErrBadValue = errors.New("cose: the value is a text that isn't UTF-8, or a map that Go's can't be")

// Tag is an item under a tag (RFC 8949 section 3.4).
type Tag struct {
	Number uint64
	Value  any
}

// Simple is a simple value that Go has no type for (RFC 8949 section 3.3): 23 is undefined.
type Simple uint8

// Claim is the value of the claim of an integer label: an int64, or a *big.Int where it is beyond it, a []byte, a string, a
// []any, a map[any]any (whose keys of bytes are strings of the type Bytes), a bool, nil, a float64, a Tag or a Simple.
func (c *Claims) Claim(label int64) (any, error) {
	return valueOf(c.Payload, C.sized_claim(bytesOf(c.Payload), C.int64_t(label)), ErrNoClaim)
}

// ClaimNamed is the value of the claim of a text label, as of Claim.
func (c *Claims) ClaimNamed(label string) (any, error) {
	return valueOf(c.Payload, C.sized_claim_named(bytesOf(c.Payload), bytesOf([]byte(label))), ErrNoClaim)
}

// Bytes is a key of a map that is a byte string.
type Bytes string

// valueOf is the value of an item, or this error where there is none.
func valueOf(payload []byte, found C.struct_cose_item, none error) (any, error) {
	if found.present == 0 {
		return nil, none
	}
	rest := decoder{payload[found.at : found.at+found.length], nil}
	value := rest.item()
	return value, rest.err
}

// A decoder reads items that the library has read: they are well-formed, of definite lengths, and nest at most 32 deep.
type decoder struct {
	bytes []byte
	err   error
}

// head is the next head: its major type, its argument, and how many bytes the argument has.
func (d *decoder) head() (major byte, argument uint64, width int) {
	first := d.bytes[0]
	d.bytes = d.bytes[1:]
	major, argument = first>>5, uint64(first&31)
	if argument >= 24 {
		width = 1 << (argument - 24)
		var all [8]byte
		copy(all[8-width:], d.bytes)
		argument, d.bytes = binary.BigEndian.Uint64(all[:]), d.bytes[width:]
	}
	return major, argument, width
}

func (d *decoder) item() any {
	major, argument, width := d.head()
	switch major {
	case 0, 1:
		return integer(major == 1, argument)
	case 2, 3:
		content := d.bytes[:argument:argument]
		d.bytes = d.bytes[argument:]
		if major == 2 {
			return content
		}
		if !utf8.Valid(content) {
			d.err = ErrBadValue
		}
		return string(content)
	case 4:
		return d.items(argument)
	case 5:
		return d.pairs(d.items(2 * argument))
	case 6:
		return Tag{argument, d.item()}
	}
	return simple(argument, width)
}

func integer(isNegative bool, argument uint64) any {
	switch {
	case argument <= math.MaxInt64 && isNegative:
		return -1 - int64(argument)
	case argument <= math.MaxInt64:
		return int64(argument)
	}
	return Date{argument, isNegative}.Int()
}

func (d *decoder) items(count uint64) []any {
	found := []any{}
	for ; count > 0; count-- {
		found = append(found, d.item())
	}
	return found
}

func (d *decoder) pairs(items []any) map[any]any {
	found := map[any]any{}
	for ; len(items) > 0; items = items[2:] {
		key := items[0]
		switch it := key.(type) {
		case []byte:
			key = Bytes(it)
		case []any, map[any]any, Tag, *big.Int:
			d.err = ErrBadValue
			continue
		}
		if _, isTwice := found[key]; isTwice {
			d.err = ErrBadValue
		}
		found[key] = items[1]
	}
	return found
}

// simple is a simple value, or a float, whose argument has more than one byte.
func simple(argument uint64, width int) any {
	switch width {
	case 2:
		return half(uint16(argument))
	case 4:
		return float64(math.Float32frombits(uint32(argument)))
	case 8:
		return math.Float64frombits(argument)
	}
	switch argument {
	case 20, 21:
		return argument == 21
	case 22:
		return nil
	}
	return Simple(argument)
}

// half is a float of 16 bits (RFC 8949 appendix D).
func half(bits uint16) float64 {
	exponent, fraction := int(bits>>10&31), float64(bits&1023)
	value := math.Ldexp(fraction, -24)
	switch {
	case exponent == 31 && fraction == 0:
		value = math.Inf(1)
	case exponent == 31:
		value = math.NaN()
	case exponent > 0:
		value = math.Ldexp(fraction+1024, exponent-25)
	}
	return math.Copysign(value, 1-2*float64(bits>>15))
}
