// Messages that come from readers.

package cose

import "io"

// roomLength is how many bytes are read at once.
const roomLength = 32 << 10

// VerifyFrom begins a message, reads it, and writes its payload. What was written is dropped unless it returns a Verdict: it isn't
// authentic before. No byte after the message is read, so a further call reads the next one. It returns io.EOF where no byte comes at
// all, and the error of the reader or the writer where one fails.
func (v *Verifier) VerifyFrom(message io.Reader, payload io.Writer) (*Verdict, error) {
	if v.isDetached {
		return nil, ErrBadArgument
	}
	return v.verifyFrom(message, nil, payload)
}

// VerifyDetachedFrom begins a message whose payload is detached, and reads both. No byte after either is read.
func (v *Verifier) VerifyDetachedFrom(message, payload io.Reader) (*Verdict, error) {
	if !v.isDetached {
		return nil, ErrBadArgument
	}
	return v.verifyFrom(message, payload, io.Discard)
}

func (v *Verifier) verifyFrom(message, detached io.Reader, payload io.Writer) (*Verdict, error) {
	if err := v.block.lend(); err != nil {
		return nil, err
	}
	defer v.block.takeBack()
	if v.room == nil {
		v.room = make([]byte, roomLength)
	}
	if err := v.reset(); err != nil {
		return nil, err
	}
	fed, err := v.feed(nil)
	for err == nil && fed.Status != Complete {
		var isEnd bool
		if fed.Status == PayloadNext {
			isEnd, err = v.readPayload(detached)
		} else {
			isEnd, err = v.readPiece(message, payload)
		}
		if isEnd || err != nil {
			break
		}
		fed, err = v.feed(nil)
	}
	if err != nil {
		return nil, err
	}
	return v.verdict()
}

// readPiece feeds what one read gives, and says whether the reader has ended.
func (v *Verifier) readPiece(message io.Reader, payload io.Writer) (isEnd bool, err error) {
	counts, err := v.counts()
	if err != nil {
		return false, err
	}
	count, failure := message.Read(v.room[:atMost(counts.Wanted)])
	fed, err := v.feed(v.room[:count])
	if err != nil {
		return false, err
	}
	if len(fed.Payload) > 0 {
		if _, err = payload.Write(fed.Payload); err != nil {
			return false, err
		}
	}
	if failure == io.EOF && counts.Taken == 0 && count == 0 {
		return false, io.EOF
	}
	return ended(failure)
}

// readPayload is the same of a detached payload.
func (v *Verifier) readPayload(payload io.Reader) (isEnd bool, err error) {
	counts, err := v.counts()
	if err != nil {
		return false, err
	}
	count, failure := payload.Read(v.room[:atMost(counts.PayloadWanted)])
	if _, err = v.feedPayload(v.room[:count]); err != nil {
		return false, err
	}
	return ended(failure)
}

// atMost is how many bytes are read where so many are wanted.
func atMost(wanted uint64) int {
	if wanted < 1 {
		return 1
	}
	if wanted > roomLength {
		return roomLength
	}
	return int(wanted)
}

// ended is what the error of a reader says.
func ended(failure error) (bool, error) {
	if failure == io.EOF {
		return true, nil
	}
	return false, failure
}
