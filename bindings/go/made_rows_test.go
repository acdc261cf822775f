// COSE_Mac0 messages that are made: the rows of rows/made.json.

package cose_test

import (
	"bytes"
	"errors"
	"fmt"
	"io"

	"cose"
)

// written passes a payload on in pieces of so many bytes, and returns how many of its bytes aren't used.
func written(maker io.Writer, payload []byte, size int) (left int, err error) {
	left = len(payload)
	for at := 0; err == nil && at < len(payload); at += size {
		end := at + size
		if end > len(payload) {
			end = len(payload)
		}
		var used int
		used, err = maker.Write(payload[at:end])
		left -= used
	}
	if errors.Is(err, cose.ErrTooLong) {
		err = nil
	}
	return left, err
}

func runMade(g *group, r *row) error {
	if r.KID != nil && len(*r.KID) == 0 {
		return leftOut("an empty key identifier is none")
	}
	var length uint64
	if _, err := fmt.Sscan(r.PayloadLength, &length); err != nil {
		return err
	}
	options := &cose.MakeOptions{AAD: r.AAD, Algorithm: cose.Algorithm(r.Alg.(float64))}
	if r.KID != nil {
		options.KID = *r.KID
	}
	wanted := fmt.Sprintf("%v %x %d", r.Result.Verdict == "fault", r.Result.Message, r.Result.Left)
	for _, size := range []int{1, 64} {
		var message bytes.Buffer
		left := len(r.Payload)
		maker, err := cose.NewMaker(&message, g.Key, length, options)
		if err == nil {
			left, err = written(maker, r.Payload, size)
		}
		if err == nil {
			err = maker.Close()
		}
		seen := fmt.Sprintf("%v %x %d", err != nil, message.Bytes(), left)
		if err := differs(fmt.Sprintf("Maker, pieces of %d", size), seen, wanted); err != nil {
			return err
		}
	}
	return nil
}
