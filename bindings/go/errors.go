// What calls fail with.

package cose

// #include "sized.h"
import "C"

import (
	"errors"
	"fmt"
)

// The errors of arguments and of use. Nothing is known of a message then.
var (
	ErrAADTooLong  = errors.New("cose: the externally supplied data has more than 65,535 bytes")
	ErrBadArgument = errors.New("cose: an argument is out of range")
	ErrBadAudience = errors.New("cose: the audience of the policy isn't UTF-8")
	// ErrClosed comes of what was closed.
	ErrClosed = errors.New("cose: it is closed")
	// ErrInUse comes of a verifier that asks about a signature, or reads a message: of each call from there, and of each call of
	// another goroutine meanwhile.
	ErrInUse = errors.New("cose: the verifier is in use")
	// ErrIncomplete comes of a message that is made, and lacks bytes of its payload.
	ErrIncomplete = errors.New("cose: bytes of the payload are to come")
	// ErrTooLong comes of bytes beyond the payload's stated length.
	ErrTooLong = errors.New("cose: the payload is longer than its stated length")
	// ErrWrongKey comes of a key that makes no MAC by the algorithm.
	ErrWrongKey = errors.New("cose: the key makes no MAC by this algorithm")
	// ErrNoPoint comes of a key whose coordinates are no point of its curve.
	ErrNoPoint = errors.New("cose: the key that fits isn't a point of its curve")

	errNoMemory     = errors.New("cose: there is no memory")
	errOtherLibrary = errors.New("cose: the library that is linked isn't that of this package")
)

// Refused says why and where a message is refused, or the claims of an authentic one. errors.Is compares it with a Reason too.
type Refused struct {
	Reason Reason
	// Place is how many bytes are before the fault: of the message, or of its payload where Claims is set.
	Place uint64
	// Claims says that the message is authentic, and its claims are refused.
	Claims bool
}

// Error names the reason and the place.
func (r *Refused) Error() string {
	subject := "message"
	if r.Claims {
		subject = "claims"
	}
	return fmt.Sprintf("cose: %s refused: %v at %d", subject, r.Reason, r.Place)
}

// Is says whether the target is the reason.
func (r *Refused) Is(target error) bool {
	reason, is := target.(Reason)
	return is && reason == r.Reason
}

// KeysRefused says why and where the key set itself is refused, so that no message was looked at.
type KeysRefused struct {
	Reason Reason
	// Place is how many bytes of the key set are before the fault; of the key of a message that is made 0.
	Place uint64
}

// Error names the reason and the place.
func (r *KeysRefused) Error() string {
	return fmt.Sprintf("cose: keys refused: %v at %d", r.Reason, r.Place)
}

// errorOf is what an answer says that is no success.
func errorOf(status, reason C.uint8_t, place C.uint64_t) error {
	switch status {
	case C.COSE_REFUSED, C.COSE_CLAIMS_REFUSED:
		return &Refused{Reason(reason), uint64(place), status == C.COSE_CLAIMS_REFUSED}
	case C.COSE_KEYS_REFUSED:
		return &KeysRefused{Reason(reason), uint64(place)}
	case C.COSE_AAD_TOO_LONG:
		return ErrAADTooLong
	case C.COSE_BAD_AUDIENCE:
		return ErrBadAudience
	case C.COSE_BAD_ARGUMENT:
		return ErrBadArgument
	case C.COSE_CLOSED:
		return ErrClosed
	}
	return fmt.Errorf("%w: it answers the status %d", errOtherLibrary, status)
}
