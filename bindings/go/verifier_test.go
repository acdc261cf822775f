// Messages that come in pieces and from readers; goroutines over one verifier, and functions that re-enter it.

package cose_test

import (
	"bytes"
	"crypto/hmac"
	"crypto/sha256"
	"errors"
	"fmt"
	"io"
	"runtime"
	"sync"
	"sync/atomic"
	"testing"
	"testing/iotest"
	"time"

	"cose"
)

func newVerifier(t *testing.T, its []byte, options *cose.Options) *cose.Verifier {
	v, err := cose.NewVerifier(its, options)
	if err != nil {
		t.Fatal(err)
	}
	return v
}

// forged is the example, well formed, with another payload, whose signature nobody made.
func forged(t *testing.T) []byte {
	return bytes.Replace(example(t, "sign1.cbor"), []byte("\x54This is the content."), []byte("\x4fThis was forged"), 1)
}

func TestForged(t *testing.T) {
	if _, err := cose.Verify(example(t, "sign1_key.cbor"), forged(t), nil); !errors.Is(err, cose.ReasonBadAuth) {
		t.Fatal(err)
	}
}

// TestReentry has a function that is asked about one message, and can't put another one into its place.
func TestReentry(t *testing.T) {
	var v *cose.Verifier
	var asked [][]byte
	bad := forged(t)
	options := &cose.Options{ECDSA: func(input *cose.SignInput) (bool, error) {
		asked = append(asked, input.Digest)
		for name, call := range map[string]func() error{
			"Reset":       v.Reset,
			"Feed":        func() error { return second(v.Feed(bad)) },
			"FeedPayload": func() error { return second(v.FeedPayload(nil)) },
			"End":         v.End,
			"Verdict":     func() error { return second(v.Verdict()) },
			"VerifyFrom":  func() error { return second(v.VerifyFrom(bytes.NewReader(bad), io.Discard)) },
			"Counts":      func() error { return second(v.Counts()) },
			"KeyOf":       func() error { _, _, err := v.KeyOf(keys, nil); return err },
			"Close":       v.Close,
		} {
			if err := call(); !errors.Is(err, cose.ErrInUse) {
				t.Errorf("%s: %v", name, err)
			}
		}
		return bytes.Equal(input.Digest, asked[0]), nil
	}}
	v = newVerifier(t, example(t, "sign1_key.cbor"), options)
	defer v.Close()
	if _, err := v.Feed(example(t, "sign1.cbor")); err != nil {
		t.Fatal(err)
	}
	if found, err := v.Verdict(); err != nil || found.PayloadLength != 20 {
		t.Fatal(found, err)
	}
	// it serves again, and the answer about the first message counts for it alone
	if err := v.Reset(); err != nil {
		t.Fatal(err)
	}
	if _, err := v.VerifyFrom(bytes.NewReader(bad), io.Discard); !errors.Is(err, cose.ReasonBadAuth) || len(asked) != 2 {
		t.Fatal(err)
	}
}

// TestPanic has a function that panics: the verifier serves then.
func TestPanic(t *testing.T) {
	isFirst := true
	v := newVerifier(t, example(t, "sign1_key.cbor"), &cose.Options{ECDSA: func(input *cose.SignInput) (bool, error) {
		if isFirst {
			isFirst = false
			panic("no answer")
		}
		return cose.VerifyECDSA(input)
	}})
	if _, err := v.Feed(example(t, "sign1.cbor")); err != nil {
		t.Fatal(err)
	}
	func() {
		defer func() {
			if recover() == nil {
				t.Error("no panic")
			}
		}()
		_, err := v.Verdict()
		t.Error(err)
	}()
	if _, err := v.Verdict(); err != nil {
		t.Error(err)
	}
}

// TestOtherGoroutine has another goroutine that puts a forged message into the place of the one that is asked about: it can't before
// there is a verdict.
func TestOtherGoroutine(t *testing.T) {
	var v *cose.Verifier
	var asked [][]byte
	genuine, bad, swapped := example(t, "sign1.cbor"), forged(t), make(chan int)
	swap := func() {
		tries := 0
		for errors.Is(v.Reset(), cose.ErrInUse) {
			tries++
			runtime.Gosched()
		}
		_, _ = v.Feed(bad)
		swapped <- tries
	}
	v = newVerifier(t, example(t, "sign1_key.cbor"), &cose.Options{ECDSA: func(input *cose.SignInput) (bool, error) {
		if asked = append(asked, input.Digest); len(asked) == 1 {
			go swap()
			// time enough for it, if nothing held it back
			time.Sleep(100 * time.Millisecond)
		}
		return bytes.Equal(input.Digest, asked[0]), nil
	}})
	if _, err := v.Feed(genuine); err != nil {
		t.Fatal(err)
	}
	if found, err := v.Verdict(); err != nil || found.PayloadLength != 20 || found.Taken != uint64(len(genuine)) {
		t.Error(found, err)
	}
	if tries := <-swapped; tries == 0 {
		t.Error("nothing held it back")
	}
	if found, err := v.Verdict(); !errors.Is(err, cose.ReasonBadAuth) {
		t.Error(found, err)
	}
}

// TestGoroutines has goroutines that feed genuine and forged messages to one verifier, and ask for verdicts: none accepts a message but
// the genuine one.
func TestGoroutines(t *testing.T) {
	genuine, bad := example(t, "sign1.cbor"), forged(t)
	v := newVerifier(t, example(t, "sign1_key.cbor"), nil)
	defer v.Close()
	var group sync.WaitGroup
	var accepted int64
	for worker := 0; worker < 8; worker++ {
		message := genuine
		if worker%2 == 1 {
			message = bad
		}
		group.Add(1)
		go func() {
			defer group.Done()
			for turn := 0; turn < 100; turn++ {
				err := cose.ErrInUse
				for errors.Is(err, cose.ErrInUse) {
					runtime.Gosched()
					err = v.Reset()
				}
				_, _ = v.Feed(message)
				found, err := v.Verdict()
				if err != nil {
					continue
				}
				atomic.AddInt64(&accepted, 1)
				if found.PayloadLength != 20 || found.Taken != uint64(len(genuine)) {
					t.Errorf("a verdict on a forged message: %v", found)
				}
			}
		}()
	}
	group.Wait()
	if accepted == 0 {
		t.Error("nothing is accepted")
	}
}

// TestReaders has goroutines that read from readers of their own by one verifier: what gets a verdict is whole.
func TestReaders(t *testing.T) {
	v := newVerifier(t, keys, nil)
	defer v.Close()
	var group sync.WaitGroup
	for worker := 0; worker < 4; worker++ {
		payload := bytes.Repeat([]byte{byte(worker)}, 1_000+worker)
		message := mac0(payload, nil)
		group.Add(1)
		go func() {
			defer group.Done()
			for turn := 0; turn < 50; {
				var came bytes.Buffer
				_, err := v.VerifyFrom(iotest.HalfReader(bytes.NewReader(message)), &came)
				if errors.Is(err, cose.ErrInUse) {
					runtime.Gosched()
					continue
				}
				turn++
				if err != nil || !bytes.Equal(came.Bytes(), payload) {
					t.Error(err)
				}
			}
		}()
	}
	group.Wait()
}

// TestTable has goroutines over one table, and over one maker.
func TestTable(t *testing.T) {
	table, err := cose.NewKeyTable(keys)
	if err != nil {
		t.Fatal(err)
	}
	var to bytes.Buffer
	maker, err := cose.NewMaker(&to, keys, 4*40*100, nil)
	if err != nil {
		t.Fatal(err)
	}
	var group sync.WaitGroup
	for worker := 0; worker < 4; worker++ {
		group.Add(1)
		go func() {
			defer group.Done()
			for turn := 0; turn < 40; turn++ {
				payload := []byte(fmt.Sprint("payload ", turn))
				message, err := table.Verify(mac0(payload, nil), nil)
				if err != nil || !bytes.Equal(message.Payload, payload) {
					t.Error(err)
				}
				if count, err := maker.Write(make([]byte, 100)); count != 100 || err != nil {
					t.Error(count, err)
				}
			}
		}()
	}
	group.Wait()
	if err = maker.Close(); err != nil || !bytes.Equal(to.Bytes(), mac0(make([]byte, 16_000), nil)) {
		t.Error(err)
	}
	if err = table.Close(); err != nil || table.Len() != 1 {
		t.Error(err)
	}
	if _, err = table.Verify(mac0(nil, nil), nil); !errors.Is(err, cose.ErrClosed) {
		t.Error(err)
	}
}

// TestPart has what follows the payload in a piece out of the reach of its part.
func TestPart(t *testing.T) {
	v := newVerifier(t, keys, nil)
	defer v.Close()
	fed, err := v.Feed(mac0([]byte("hi"), nil))
	if err != nil || string(fed.Payload) != "hi" || cap(fed.Payload) != 2 {
		t.Error(fed, cap(fed.Payload), err)
	}
	// what is held isn't counted by what was taken
	if counts, err := v.Counts(); err != nil || counts.Held == 0 || counts.Held == counts.Taken {
		t.Error(counts, err)
	}
}

// TestLargeTable verifies a token under a table whose header has room within the large limits alone.
func TestLargeTable(t *testing.T) {
	table, err := cose.NewKeyTable(keys)
	if err != nil {
		t.Fatal(err)
	}
	defer table.Close()
	protected := joined([]byte{0xa2, 0x01, 0x05, 0x04}, str(2, make([]byte, 2_000)))
	mac := hmac.New(sha256.New, secret)
	mac.Write(structure("MAC0", protected, nil, []byte{0xa0}))
	token := joined([]byte{0xd1, 0x84}, str(2, protected), []byte{0xa0}, str(2, []byte{0xa0}), str(2, mac.Sum(nil)))
	if _, err = table.VerifyCWT(token, nil, &cose.Options{Large: true}); err != nil {
		t.Error(err)
	}
	if _, err = table.Verify(token, &cose.Options{Large: true}); err != nil {
		t.Error(err)
	}
	if _, err = table.VerifyCWT(token, nil, nil); !errors.Is(err, cose.ReasonPastRoom) {
		t.Error(err)
	}
}

// TestSequence has messages one after the other in a reader, of which nothing is read beyond the message.
func TestSequence(t *testing.T) {
	v := newVerifier(t, keys, nil)
	large := bytes.Repeat([]byte("payload"), 30_000)
	for _, wrap := range []func(io.Reader) io.Reader{iotest.OneByteReader, iotest.HalfReader, iotest.DataErrReader} {
		reader := wrap(bytes.NewReader(joined(mac0([]byte("hi"), nil), mac0(large, nil), mac0(nil, nil))))
		for _, payload := range [][]byte{[]byte("hi"), large, nil} {
			var came bytes.Buffer
			if _, err := v.VerifyFrom(reader, &came); err != nil || !bytes.Equal(came.Bytes(), payload) {
				t.Error(err)
			}
		}
		if _, err := v.VerifyFrom(reader, io.Discard); err != io.EOF {
			t.Error(err)
		}
	}
}

// TestFailures has readers and writers that fail, and messages that end early.
func TestFailures(t *testing.T) {
	v, message, fault := newVerifier(t, keys, nil), mac0([]byte("hi"), nil), errors.New("no disk")
	if _, err := v.VerifyFrom(iotest.ErrReader(fault), io.Discard); !errors.Is(err, fault) {
		t.Error(err)
	}
	failing := io.MultiReader(bytes.NewReader(message[:20]), iotest.ErrReader(fault))
	if _, err := v.VerifyFrom(failing, io.Discard); !errors.Is(err, fault) {
		t.Error(err)
	}
	if _, err := v.VerifyFrom(bytes.NewReader(message), failingWriter{fault}); !errors.Is(err, fault) {
		t.Error(err)
	}
	if _, err := v.VerifyFrom(bytes.NewReader(message[:20]), io.Discard); refusal(err) != truncated(20) {
		t.Error(err)
	}
	if _, err := v.VerifyDetachedFrom(nil, nil); !errors.Is(err, cose.ErrBadArgument) {
		t.Error(err)
	}
}

type failingWriter struct{ fault error }

func (w failingWriter) Write([]byte) (int, error) { return 0, w.fault }

// TestDetached has a payload in a reader of its own, whole and too short.
func TestDetached(t *testing.T) {
	payload := bytes.Repeat([]byte("payload"), 10_000)
	message := detached(payload, nil)
	v, err := cose.NewDetachedVerifier(keys, uint64(len(payload)), nil)
	if err != nil {
		t.Fatal(err)
	}
	content := bytes.NewReader(joined(payload, []byte("more")))
	found, err := v.VerifyDetachedFrom(bytes.NewReader(message), content)
	if err != nil || found.PayloadLength != uint64(len(payload)) || content.Len() != 4 {
		t.Error(found, err)
	}
	_, err = v.VerifyDetachedFrom(bytes.NewReader(message), bytes.NewReader(payload[1:]))
	if !errors.Is(err, cose.ReasonTruncated) {
		t.Error(err)
	}
	if _, err = cose.VerifyDetached(keys, detached(nil, nil), nil, nil); err != nil {
		t.Error(err)
	}
	if _, err = v.VerifyFrom(bytes.NewReader(message), io.Discard); !errors.Is(err, cose.ErrBadArgument) {
		t.Error(err)
	}
}

// TestCallersBytes has keys and data that change once a verifier and a table have them: both have copies of their own.
func TestCallersBytes(t *testing.T) {
	its, aad := append([]byte(nil), keys...), []byte("aad")
	v := newVerifier(t, its, &cose.Options{AAD: aad})
	table, err := cose.NewKeyTable(its)
	if err != nil {
		t.Fatal(err)
	}
	for i := range its {
		its[i] = 0
	}
	aad[0] = 0
	runtime.GC()
	if _, err = v.VerifyFrom(bytes.NewReader(mac0([]byte("hi"), []byte("aad"))), io.Discard); err != nil {
		t.Error(err)
	}
	if _, err = table.Verify(mac0([]byte("hi"), nil), nil); err != nil {
		t.Error(err)
	}
}

// TestCollected has verifiers that nobody closes: the garbage collector gives their memory back.
func TestCollected(t *testing.T) {
	for turn := 0; turn < 2_000; turn++ {
		v := newVerifier(t, keys, &cose.Options{Large: turn%10 == 0})
		if _, err := v.Feed(mac0(nil, nil)); err != nil {
			t.Fatal(err)
		}
	}
	runtime.GC()
	if v := newVerifier(t, keys, nil); v.Close() != nil || !errors.Is(v.Close(), cose.ErrClosed) {
		t.Error("a second Close")
	}
}
