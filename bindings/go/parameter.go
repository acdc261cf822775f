// Header parameters of a message.

package cose

// #include "sized.h"
import "C"

import "unsafe"

// The labels of header parameters: RFC 9052 section 3.1, and RFC 9360 section 2 for certificates.
const (
	LabelAlg         = 1
	LabelCrit        = 2
	LabelContentType = 3
	LabelKID         = 4
	LabelIV          = 5
	LabelPartialIV   = 6
	LabelX5Bag       = 32
	LabelX5Chain     = 33
	LabelX5T         = 34
	LabelX5U         = 35
)

// Bucket is a bucket of a message's header (RFC 9052 section 3).
type Bucket uint8

// The buckets. The unprotected one is not authentic: anyone may have changed it.
const (
	Unprotected Bucket = 0
	Protected   Bucket = 1
)

// Parameter is a header parameter of a message that is known to be authentic, as Claims.Claim gives a claim. It returns ErrNoParameter
// where the bucket doesn't have it.
func Parameter(message []byte, bucket Bucket, label int64, options *Options) (any, error) {
	o := options.orDefault()
	found := C.sized_parameter(C.bool(o.Large), C.uint32_t(o.Wanted), bytesOf(message), C.bool(bucket == Protected), C.int64_t(label))
	return valueOf(message, found, ErrNoParameter)
}

// ParameterNamed is the same of a label that is a text.
func ParameterNamed(message []byte, bucket Bucket, label string, options *Options) (any, error) {
	o := options.orDefault()
	found := C.sized_parameter_named(C.bool(o.Large), C.uint32_t(o.Wanted), bytesOf(message), C.bool(bucket == Protected),
		bytesOf([]byte(label)))
	return valueOf(message, found, ErrNoParameter)
}

// Parameter is a header parameter of the message so far, as the function Parameter gives it. Nothing of it is authentic before the
// verdict.
func (v *Verifier) Parameter(bucket Bucket, label int64) (any, error) {
	return v.parameter(func(into *C.uint8_t, room C.size_t) C.struct_cose_item {
		return C.sized_header(v.large, v.block.at, C.bool(bucket == Protected), C.int64_t(label), into, room)
	})
}

// ParameterNamed is the same of a label that is a text.
func (v *Verifier) ParameterNamed(bucket Bucket, label string) (any, error) {
	return v.parameter(func(into *C.uint8_t, room C.size_t) C.struct_cose_item {
		return C.sized_header_named(v.large, v.block.at, C.bool(bucket == Protected), bytesOf([]byte(label)), into, room)
	})
}

func (v *Verifier) parameter(read func(*C.uint8_t, C.size_t) C.struct_cose_item) (any, error) {
	if err := v.block.lock(); err != nil {
		return nil, err
	}
	defer v.block.mutex.Unlock()
	if err := v.shareTable(); err != nil {
		return nil, err
	}
	defer v.leaveTable()
	room := make([]byte, 1_024)
	if v.options.Large {
		room = make([]byte, 65_535)
	}
	found := read((*C.uint8_t)(unsafe.Pointer(&room[0])), C.size_t(len(room)))
	// what is there was copied, so its place is that of the copy
	found.at = 0
	return valueOf(room, found, ErrNoParameter)
}
