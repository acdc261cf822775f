// Verifiers under tables: keys that are read once, and messages that come in pieces.

package cose_test

import (
	"bytes"
	"errors"
	"fmt"
	"io"
	"runtime"
	"sync"
	"testing"
	"testing/iotest"

	"cose"
)

// sizes are options of either size.
var sizes = map[string]*cose.Options{"small": nil, "large": {Large: true}}

func underTable(t *testing.T, table *cose.KeyTable, options *cose.Options) *cose.Verifier {
	v, err := cose.NewVerifierUnderTable(table, options)
	if err != nil {
		t.Fatal(err)
	}
	return v
}

func detachedUnderTable(t *testing.T, table *cose.KeyTable, length int, options *cose.Options) *cose.Verifier {
	v, err := cose.NewDetachedVerifierUnderTable(table, uint64(length), options)
	if err != nil {
		t.Fatal(err)
	}
	return v
}

// An opener makes a verifier.
type opener func(*cose.Options) (*cose.Verifier, error)

// openers make verifiers under keys and, where these make one, under a table of them.
func openers(its []byte) map[string]opener {
	under := map[string]opener{
		"keys": func(options *cose.Options) (*cose.Verifier, error) { return cose.NewVerifier(its, options) },
	}
	if table, err := cose.NewKeyTable(its); err == nil {
		under["table"] = func(options *cose.Options) (*cose.Verifier, error) { return cose.NewVerifierUnderTable(table, options) }
	}
	return under
}

// detachedOpeners make the same of messages whose payload is detached.
func detachedOpeners(its []byte, length uint64) map[string]opener {
	under := map[string]opener{
		"keys": func(options *cose.Options) (*cose.Verifier, error) {
			return cose.NewDetachedVerifier(its, length, options)
		},
	}
	if table, err := cose.NewKeyTable(its); err == nil {
		under["table"] = func(options *cose.Options) (*cose.Verifier, error) {
			return cose.NewDetachedVerifierUnderTable(table, length, options)
		}
	}
	return under
}

// fed is the payload of a message that is fed in two pieces, as the next of a verifier.
func fed(v *cose.Verifier, message []byte) (payload string, err error) {
	if err = v.Reset(); err != nil {
		return "", err
	}
	for _, piece := range [][]byte{message[:9], message[9:]} {
		fed, err := v.Feed(piece)
		if err != nil {
			return "", err
		}
		payload += string(fed.Payload)
	}
	_, err = v.Verdict()
	return payload, err
}

// withKID is a message with an identifier in its unprotected bucket, which no MAC covers.
func withKID(payload, kid []byte) []byte {
	content := str(2, payload)
	return bytes.Replace(mac0(payload, nil), joined([]byte{0xa0}, content), joined([]byte{0xa1, 0x04}, str(2, kid), content), 1)
}

// TestUnderTable has messages one after the other, good and forged, in pieces and from readers.
func TestUnderTable(t *testing.T) {
	table := newKeyTable(t, keys)
	defer table.Close()
	for name, options := range sizes {
		v := underTable(t, table, options)
		defer v.Close()
		for _, payload := range []string{"one", "two"} {
			message := mac0([]byte(payload), nil)
			if found, err := fed(v, message); err != nil || found != payload {
				t.Error(name, found, err)
			}
			if _, err := fed(v, flipped(message)); !errors.Is(err, cose.ReasonBadAuth) {
				t.Error(name, err)
			}
			var came bytes.Buffer
			if _, err := v.VerifyFrom(iotest.HalfReader(bytes.NewReader(message)), &came); err != nil || came.String() != payload {
				t.Error(name, err)
			}
			if _, err := v.VerifyFrom(bytes.NewReader(message[:20]), io.Discard); refusal(err) != truncated(20) {
				t.Error(name, err)
			}
		}
	}
}

// TestTwoKeysUnderTable has keys with identifiers, by which one is chosen.
func TestTwoKeysUnderTable(t *testing.T) {
	key := func(kid byte, its []byte) []byte {
		return joined([]byte{0xa3, 0x01, 0x04, 0x02, 0x41, kid, 0x20}, str(2, its))
	}
	set := joined([]byte{0x82}, key('1', secret), key('2', []byte("another")))
	table := newKeyTable(t, set)
	defer table.Close()
	for name, options := range sizes {
		v := underTable(t, table, options)
		defer v.Close()
		if payload, err := fed(v, withKID([]byte("hi"), []byte("1"))); err != nil || payload != "hi" {
			t.Error(name, payload, err)
		}
		terms := &cose.Terms{Options: cose.Options{Wanted: cose.Mac0}, ShortMAC: true, WithoutAlg: true}
		if place, item, err := v.KeyOf(set, terms); err != nil || place != 1 || !bytes.Equal(item, key('1', secret)) {
			t.Error(name, place, item, err)
		}
		if kid, err := v.Parameter(cose.Unprotected, cose.LabelKID); err != nil || string(kid.([]byte)) != "1" {
			t.Error(name, kid, err)
		}
		for _, bad := range []struct {
			message []byte
			reason  cose.Reason
		}{
			{withKID([]byte("hi"), []byte("2")), cose.ReasonBadAuth},
			{withKID([]byte("hi"), []byte("3")), cose.ReasonNoKey},
			{mac0([]byte("hi"), nil), cose.ReasonAmbiguousKey},
		} {
			if _, err := fed(v, bad.message); !errors.Is(err, bad.reason) {
				t.Error(name, bad.reason, err)
			}
		}
	}
}

// TestNoKeyUnderTable has tables without a key for the message.
func TestNoKeyUnderTable(t *testing.T) {
	for _, its := range [][]byte{{0xa1, 0x01, 0x04}, []byte("\xa3\x01\x04\x03\x06\x20\x41a")} {
		v := underTable(t, newKeyTable(t, its), nil)
		if _, err := fed(v, mac0([]byte("hi"), nil)); !errors.Is(err, cose.ReasonNoKey) {
			t.Error(err)
		}
	}
}

// TestDetachedUnderTable has detached payloads, good and bad ones, in pieces and from readers.
func TestDetachedUnderTable(t *testing.T) {
	table, payload := newKeyTable(t, keys), bytes.Repeat([]byte("payload"), 1_000)
	defer table.Close()
	message := detached(payload, nil)
	for name, options := range sizes {
		v := detachedUnderTable(t, table, len(payload), options)
		defer v.Close()
		first, err := v.Feed(message)
		if err != nil || first.Status != cose.PayloadNext {
			t.Fatal(name, first, err)
		}
		if counts, err := v.Counts(); err != nil || counts.PayloadWanted != 7_000 {
			t.Error(name, counts, err)
		}
		if used, err := v.FeedPayload(append(payload[:7_000:7_000], 0)); err != nil || used != 7_000 {
			t.Error(name, used, err)
		}
		if _, err = v.Feed(message[first.Used:]); err != nil || v.End() != nil {
			t.Error(name, err)
		}
		if found, err := v.Verdict(); err != nil || found.PayloadLength != 7_000 {
			t.Error(name, found, err)
		}
		for reason, content := range map[cose.Reason][]byte{
			cose.ReasonBadAuth:   flipped(payload),
			cose.ReasonTruncated: payload[1:],
		} {
			if _, err = v.VerifyDetachedFrom(bytes.NewReader(message), bytes.NewReader(content)); !errors.Is(err, reason) {
				t.Error(name, err)
			}
		}
		if _, err = v.VerifyDetachedFrom(bytes.NewReader(message), bytes.NewReader(payload)); err != nil {
			t.Error(name, err)
		}
		if _, err = fed(v, mac0(payload, nil)); !errors.Is(err, cose.ReasonAttached) {
			t.Error(name, err)
		}
	}
}

// TestLargeUnderTable has headers that the large size has room for alone.
func TestLargeUnderTable(t *testing.T) {
	table, message := newKeyTable(t, keys), withKID([]byte("hi"), make([]byte, 2_000))
	defer table.Close()
	if payload, err := fed(underTable(t, table, sizes["large"]), message); err != nil || payload != "hi" {
		t.Error(payload, err)
	}
	if _, err := fed(underTable(t, table, nil), message); !errors.Is(err, cose.ReasonPastRoom) {
		t.Error(err)
	}
	message = bytes.Replace(message, str(2, []byte("hi")), []byte{0xf6}, 1)
	v := detachedUnderTable(t, table, 2, sizes["large"])
	if _, err := v.VerifyDetachedFrom(bytes.NewReader(message), bytes.NewReader([]byte("hi"))); err != nil {
		t.Error(err)
	}
	v = detachedUnderTable(t, table, 2, nil)
	_, err := v.VerifyDetachedFrom(bytes.NewReader(message), bytes.NewReader([]byte("hi")))
	if !errors.Is(err, cose.ReasonPastRoom) {
		t.Error(err)
	}
}

// TestOptionsUnderTable has external data, of which the verifier has a copy, and a kind that is wanted.
func TestOptionsUnderTable(t *testing.T) {
	table, hi := newKeyTable(t, keys), []byte("hi")
	defer table.Close()
	for _, large := range []bool{false, true} {
		aad := []byte("data")
		v := underTable(t, table, &cose.Options{AAD: aad, Wanted: cose.Mac0, Large: large})
		d := detachedUnderTable(t, table, 2, &cose.Options{AAD: aad, Wanted: cose.Mac0, Large: large})
		aad[0] = 0
		runtime.GC()
		if payload, err := fed(v, mac0(hi, []byte("data"))[1:]); err != nil || payload != "hi" {
			t.Error(payload, err)
		}
		if _, err := fed(v, mac0(hi, nil)); !errors.Is(err, cose.ReasonBadAuth) {
			t.Error(err)
		}
		if _, err := d.VerifyDetachedFrom(bytes.NewReader(detached(hi, []byte("data"))[1:]), bytes.NewReader(hi)); err != nil {
			t.Error(err)
		}
		if _, err := d.VerifyDetachedFrom(bytes.NewReader(detached(hi, nil)), bytes.NewReader(hi)); !errors.Is(err, cose.ReasonBadAuth) {
			t.Error(err)
		}
		if _, err := fed(underTable(t, table, &cose.Options{Large: large}), mac0(hi, nil)[1:]); !errors.Is(err, cose.ReasonWrongTag) {
			t.Error(err)
		}
		long := &cose.Options{AAD: make([]byte, 65_536), Large: large}
		if _, err := cose.NewVerifierUnderTable(table, long); !errors.Is(err, cose.ErrAADTooLong) {
			t.Error(err)
		}
		if _, err := cose.NewDetachedVerifierUnderTable(table, 2, long); !errors.Is(err, cose.ErrAADTooLong) {
			t.Error(err)
		}
	}
}

// TestSignatureUnderTable has a function that is asked about a signature: it may use the table, and close it, after which there is no
// verdict.
func TestSignatureUnderTable(t *testing.T) {
	table := newKeyTable(t, joined([]byte{0x82}, keys, example(t, "sign1_key.cbor")))
	isLast := false
	v := underTable(t, table, &cose.Options{ECDSA: func(input *cose.SignInput) (bool, error) {
		if isLast {
			return true, table.Close()
		}
		if _, err := table.Verify(mac0([]byte("hi"), nil), nil); err != nil {
			t.Error(err)
		}
		return cose.VerifyECDSA(input)
	}})
	if payload, err := fed(v, example(t, "sign1.cbor")); err != nil || payload != "This is the content." {
		t.Error(payload, err)
	}
	if _, err := fed(v, forged(t)); !errors.Is(err, cose.ReasonBadAuth) {
		t.Error(err)
	}
	isLast = true
	if _, err := fed(v, example(t, "sign1.cbor")); !errors.Is(err, cose.ErrClosed) {
		t.Error(err)
	}
}

// closing is a reader and a writer that close a table.
type closing struct {
	from  io.Reader
	table *cose.KeyTable
}

func (c closing) Read(to []byte) (int, error) {
	if err := c.table.Close(); err != nil {
		return 0, err
	}
	return c.from.Read(to)
}

func (c closing) Write(from []byte) (int, error) { return len(from), c.table.Close() }

// TestClosedUnderTable has calls of verifiers whose table is closed: before a call, and by the readers and the writer of one.
func TestClosedUnderTable(t *testing.T) {
	message, payload := mac0([]byte("hi"), nil), []byte("hi")
	for name, options := range sizes {
		table := newKeyTable(t, keys)
		v, d := underTable(t, table, options), detachedUnderTable(t, table, 2, options)
		if err := table.Close(); err != nil {
			t.Fatal(name, err)
		}
		for call, err := range map[string]error{
			"NewVerifierUnderTable":         second(cose.NewVerifierUnderTable(table, options)),
			"NewDetachedVerifierUnderTable": second(cose.NewDetachedVerifierUnderTable(table, 2, options)),
			"Feed":                          second(v.Feed(message)),
			"FeedPayload":                   second(d.FeedPayload(payload)),
			"End":                           v.End(),
			"Verdict":                       second(v.Verdict()),
			"VerifyFrom":                    second(v.VerifyFrom(bytes.NewReader(message), io.Discard)),
			"VerifyDetachedFrom":            second(d.VerifyDetachedFrom(bytes.NewReader(message), bytes.NewReader(payload))),
			"Counts":                        second(v.Counts()),
			"KeyOf":                         func() error { _, _, err := v.KeyOf(keys, nil); return err }(),
			"Parameter":                     second(v.Parameter(cose.Protected, cose.LabelAlg)),
			"ParameterNamed":                second(v.ParameterNamed(cose.Protected, "name")),
			"Reset":                         v.Reset(),
		} {
			if !errors.Is(err, cose.ErrClosed) {
				t.Error(name, call, err)
			}
		}
		if v.Close() != nil || d.Close() != nil {
			t.Error(name, "a verifier isn't closed")
		}
	}
	for name, call := range map[string]func(table *cose.KeyTable) error{
		"the reader": func(table *cose.KeyTable) error {
			return second(underTable(t, table, nil).VerifyFrom(closing{bytes.NewReader(message), table}, io.Discard))
		},
		"the writer": func(table *cose.KeyTable) error {
			return second(underTable(t, table, nil).VerifyFrom(bytes.NewReader(message), closing{nil, table}))
		},
		"the reader of a payload": func(table *cose.KeyTable) error {
			v := detachedUnderTable(t, table, 2, nil)
			return second(v.VerifyDetachedFrom(bytes.NewReader(detached(payload, nil)), closing{bytes.NewReader(payload), table}))
		},
	} {
		if err := call(newKeyTable(t, keys)); !errors.Is(err, cose.ErrClosed) {
			t.Error(name, err)
		}
	}
}

// TestClosedWhileFed closes tables while goroutines feed verifiers under them: a call is answered, or returns ErrClosed.
func TestClosedWhileFed(t *testing.T) {
	message := mac0(make([]byte, 10_000), nil)
	for turn := 0; turn < 50; turn++ {
		table := newKeyTable(t, keys)
		var begun, group sync.WaitGroup
		for worker := 0; worker < 4; worker++ {
			begun.Add(1)
			group.Add(1)
			go func() {
				defer group.Done()
				v, err := cose.NewVerifierUnderTable(table, nil)
				begun.Done()
				for err == nil {
					_, err = fed(v, message)
				}
				if !errors.Is(err, cose.ErrClosed) {
					t.Error(err)
				}
			}()
		}
		begun.Wait()
		if err := table.Close(); err != nil {
			t.Error(err)
		}
		group.Wait()
	}
}

// TestGoroutinesUnderTable has goroutines with a verifier each under one table, which are answered about their own messages.
func TestGoroutinesUnderTable(t *testing.T) {
	table := newKeyTable(t, keys)
	defer table.Close()
	var group sync.WaitGroup
	for worker := 0; worker < 8; worker++ {
		group.Add(1)
		go func(worker int) {
			defer group.Done()
			for turn := 0; turn < 50; turn++ {
				v, err := cose.NewVerifierUnderTable(table, &cose.Options{Large: (worker+turn)%2 == 1})
				if err != nil {
					t.Error(err)
					return
				}
				payload := fmt.Sprint("worker ", worker, ", turn ", turn)
				message := mac0([]byte(payload), nil)
				for again := 0; again < 3; again++ {
					if found, err := fed(v, message); err != nil || found != payload {
						t.Error(found, err)
					}
					if _, err := fed(v, flipped(message)); !errors.Is(err, cose.ReasonBadAuth) {
						t.Error(err)
					}
				}
				if err = v.Close(); err != nil {
					t.Error(err)
				}
			}
		}(worker)
	}
	group.Wait()
}

// TestCollectedUnderTable has tables to which verifiers alone refer: the memory is there for these, and is given back with them.
func TestCollectedUnderTable(t *testing.T) {
	message := mac0(make([]byte, 10_000), nil)
	for turn := 0; turn < 200; turn++ {
		v := underTable(t, newKeyTable(t, keys), &cose.Options{Large: turn%10 == 0})
		if turn%2 == 0 {
			runtime.GC()
		}
		// others that would take the memory
		other := newKeyTable(t, keysOf5)
		collected := make(chan struct{})
		go func() {
			runtime.GC()
			close(collected)
		}()
		if payload, err := fed(v, message); err != nil || len(payload) != 10_000 || other.Len() != 1 {
			t.Error(len(payload), err)
		}
		<-collected
	}
}
