// The reasons of refusals, numbered and named as in docs/REASONS.md.

package cose

import "strconv"

// Reason is why bytes are refused. Numbers and names never change.
type Reason uint8

// made by ci/edge_tables: reasons

// The reasons.
const (
	// The bytes end before the message or the item is complete.
	ReasonTruncated Reason = 1
	// The low five bits of an initial byte are 28 to 30, or 31 in the major types 0, 1 and 6 (RFC 8949 section 3).
	ReasonReserved Reason = 2
	// An indefinite length or a break, which this profile refuses (RFC 8949 section 3.2).
	ReasonIndefinite Reason = 3
	// A simple value below 32 in two bytes (RFC 8949 section 3.3).
	ReasonBadSimple Reason = 4
	// An array, map or CBOR tag where no nesting is left.
	ReasonTooDeep Reason = 5
	// A head, a string or the children don't fit into the room.
	ReasonPastRoom Reason = 6
	// A CBOR tag that isn't wanted here (RFC 9052 section 2).
	ReasonWrongTag Reason = 7
	// COSE_Encrypt0 or COSE_Encrypt (RFC 9052 section 5), which this profile leaves out.
	ReasonEncrypted Reason = 8
	// COSE_Mac or COSE_Sign (RFC 9052 sections 6.1 and 4.1), which this profile leaves out.
	ReasonSeveralParties Reason = 9
	// The array of the message doesn't have four elements (RFC 9052 sections 4.2 and 6.2).
	ReasonNotFour Reason = 10
	// A head has another major type than the one required.
	ReasonWrongType Reason = 11
	// A header bucket, key or claims set that isn't a map.
	ReasonNotMap Reason = 12
	// A label that is neither an integer nor a text string (RFC 9052 section 1.5).
	ReasonBadLabel Reason = 13
	// A label that equals an earlier one of its map (RFC 9052 section 3).
	ReasonDuplicateLabel Reason = 14
	// A label that is in both header buckets (RFC 9052 section 3).
	ReasonBothBuckets Reason = 15
	// A value that doesn't have the form that its label requires.
	ReasonBadValue Reason = 16
	// A crit parameter in the unprotected bucket (RFC 9052 section 3.1).
	ReasonCritUnprotected Reason = 17
	// A label of crit that isn't in the protected bucket (RFC 9052 section 3.1).
	ReasonCritAbsent Reason = 18
	// A label of crit that isn't understood (RFC 9052 section 3.1).
	ReasonCritUnknown Reason = 19
	// IV and Partial IV are both present (RFC 9052 section 3.1).
	ReasonBothIvs Reason = 20
	// The message names no algorithm, and no key fits it.
	ReasonNoAlg Reason = 21
	// The message names an algorithm that isn't one of its kind.
	ReasonUnknownAlg Reason = 22
	// Only the unprotected bucket names an algorithm, and no key with that algorithm as its own fits.
	ReasonAlgUnprotected Reason = 23
	// The protected bucket names an algorithm, and no key fits.
	ReasonNoKey Reason = 24
	// Two or more keys fit the message.
	ReasonAmbiguousKey Reason = 25
	// The payload is nil (RFC 9052 sections 4.2 and 6.2).
	ReasonDetached Reason = 26
	// The authentication tag or the signature doesn't have the length of its algorithm.
	ReasonBadAuthLength Reason = 27
	// The authentication tag or the signature isn't valid.
	ReasonBadAuth Reason = 28
	// The payload is longer than its limit.
	ReasonPayloadTooLong Reason = 29
	// The CBOR tag of a CWT without that of a COSE message (RFC 8392 section 6).
	ReasonCwtTagAlone Reason = 30
	// A key set that is neither a map nor an array of one or more items (RFC 9052 section 7), that has more than 65,535 bytes, or
	// that has more usable keys than its table holds.
	ReasonBadKeySet Reason = 31
	// A key of a type or curve that isn't known.
	ReasonUnknownKey Reason = 32
	// A date that is a float, which this profile refuses.
	ReasonFloatDate Reason = 33
	// A date with CBOR tag 1 (RFC 8392 section 2).
	ReasonTaggedDate Reason = 34
	// The token has expired (RFC 8392 section 3.1.4).
	ReasonExpired Reason = 35
	// The token isn't valid yet (RFC 8392 section 3.1.5).
	ReasonNotYet Reason = 36
	// The token is for another audience (RFC 8392 section 3.1.3).
	ReasonWrongAudience Reason = 37
	// A confirmation key that is encrypted (RFC 8747 section 3.3).
	ReasonEncryptedKey Reason = 38
	// A symmetric confirmation key that isn't encrypted (RFC 8747 section 3.2).
	ReasonPlainKey Reason = 39
	// A confirmation whose key is refused, or that has both a key and an encrypted one (RFC 8747 section 3).
	ReasonBadConfirmation Reason = 40
	// Claims that are themselves a COSE message or a CWT (RFC 8392 section 7).
	ReasonNestedCwt Reason = 41
	// A byte after the end.
	ReasonTrailing Reason = 42
	// The payload is in the message, where a detached one is wanted (RFC 9052 sections 4.2 and 6.2).
	ReasonAttached Reason = 43
)

// reasonNames are by number.
var reasonNames = [...]string{
	1:  "Truncated",
	2:  "Reserved",
	3:  "Indefinite",
	4:  "BadSimple",
	5:  "TooDeep",
	6:  "PastRoom",
	7:  "WrongTag",
	8:  "Encrypted",
	9:  "SeveralParties",
	10: "NotFour",
	11: "WrongType",
	12: "NotMap",
	13: "BadLabel",
	14: "DuplicateLabel",
	15: "BothBuckets",
	16: "BadValue",
	17: "CritUnprotected",
	18: "CritAbsent",
	19: "CritUnknown",
	20: "BothIvs",
	21: "NoAlg",
	22: "UnknownAlg",
	23: "AlgUnprotected",
	24: "NoKey",
	25: "AmbiguousKey",
	26: "Detached",
	27: "BadAuthLength",
	28: "BadAuth",
	29: "PayloadTooLong",
	30: "CwtTagAlone",
	31: "BadKeySet",
	32: "UnknownKey",
	33: "FloatDate",
	34: "TaggedDate",
	35: "Expired",
	36: "NotYet",
	37: "WrongAudience",
	38: "EncryptedKey",
	39: "PlainKey",
	40: "BadConfirmation",
	41: "NestedCwt",
	42: "Trailing",
	43: "Attached",
}

// end of what ci/edge_tables makes

// String is the name.
func (r Reason) String() string {
	if r > 0 && int(r) < len(reasonNames) {
		return reasonNames[r]
	}
	return "reason " + strconv.Itoa(int(r))
}

// Error is the name, so that errors.Is compares a Refused with a reason.
func (r Reason) Error() string {
	return r.String()
}
