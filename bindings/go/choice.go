// Which key of a set a message is verified with, and why a key isn't.

package cose

// #include "terms.h"
import "C"

import "errors"

// ErrNoKey says that no key of the set is the one that a message is verified with.
var ErrNoKey = errors.New("cose: no key of the set is the message's")

// Mismatch is a condition under which a key fits a message (RFC 9052 section 7.1), in the order in which they are checked.
type Mismatch uint8

// The conditions.
const (
	// Fits says that the key fails none.
	Fits Mismatch = C.COSE_FITS
	// OtherAlgorithm: the algorithm isn't one for messages of the kind, or isn't the key's own.
	OtherAlgorithm Mismatch = C.COSE_OTHER_ALGORITHM
	// OtherKeyType: the algorithm takes a secret and the key is a point, or the other way round.
	OtherKeyType Mismatch = C.COSE_OTHER_KEY_TYPE
	// OtherCurve: the point isn't on the algorithm's curve.
	OtherCurve Mismatch = C.COSE_OTHER_CURVE
	// OtherOperation: the key lists operations, and not the one that verifies the message.
	OtherOperation Mismatch = C.COSE_OTHER_OPERATION
	// OtherIdentifier: message and key have an identifier each, and these differ.
	OtherIdentifier Mismatch = C.COSE_OTHER_IDENTIFIER
	// NotPermitted: the terms don't permit the key.
	NotPermitted Mismatch = C.COSE_NOT_PERMITTED
)

// KeyOf is which key of a set a message is verified with, by Authenticate under the same terms, whose Wanted is the kind of the message:
// where its item begins in the set, and its bytes. Nothing is authenticated: ask after the verdict. It returns ErrNoKey where no key fits.
func KeyOf(keys, message []byte, terms *Terms) (place uint64, item []byte, err error) {
	t := terms.orDefault()
	given, err := t.given()
	if err != nil {
		return 0, nil, err
	}
	return keyAt(keys, C.sized_key_of(C.bool(t.Large), given, bytesOf(keys), bytesOf(message)))
}

// KeyOf is which key of a set the message so far is verified with, as the function KeyOf says it of one in memory: from the end of its
// header on, where both buckets were found good, and until Reset. Before that it returns ErrNoKey. Nothing is authenticated: ask after the
// Verdict, which has the Kind that Wanted of the terms is. Large is that of the verifier.
func (v *Verifier) KeyOf(keys []byte, terms *Terms) (place uint64, item []byte, err error) {
	t := terms.orDefault()
	given, err := t.given()
	if err != nil {
		return 0, nil, err
	}
	if err := v.block.lock(); err != nil {
		return 0, nil, err
	}
	defer v.block.mutex.Unlock()
	if err := v.shareTable(); err != nil {
		return 0, nil, err
	}
	defer v.leaveTable()
	return keyAt(keys, C.sized_fed_key_of(v.large, v.block.at, given, bytesOf(keys)))
}

// keyAt is the key of a set that an answer names.
func keyAt(keys []byte, found C.struct_cose_item) (place uint64, item []byte, err error) {
	if found.present == 0 {
		return 0, nil, ErrNoKey
	}
	return uint64(found.at), keys[found.at : found.at+found.length], nil
}

// KeyMismatch is the first condition that the key at a place of the set fails for a message, as cose_mismatch of C gives it. Wanted of
// the terms is the kind of the message.
func KeyMismatch(keys, message []byte, place uint64, terms *Terms) (Mismatch, error) {
	t := terms.orDefault()
	given, err := t.given()
	if err != nil {
		return Fits, err
	}
	fit := C.sized_mismatch(C.bool(t.Large), given, bytesOf(keys), bytesOf(message), C.uint64_t(place))
	if fit.status != C.COSE_COMPLETE {
		return Fits, errorOf(fit.status, fit.reason, fit.place)
	}
	return Mismatch(fit.condition), nil
}
