// Blocks that calls share.

package cose

import (
	"errors"
	"os"
	"path/filepath"
	"testing"
	"time"
)

// TestShare has a call under each table that has begun: others are answered meanwhile, and Close waits for it.
func TestShare(t *testing.T) {
	message, err := os.ReadFile(filepath.Join("..", "..", "examples", "mac0.cbor"))
	if err != nil {
		t.Fatal(err)
	}
	// a secret that names HMAC 256/256
	keys := []byte("\xa3\x01\x04\x03\x05\x20\x44Jefe")
	ofKeys, err := NewKeyTable(keys)
	if err != nil {
		t.Fatal(err)
	}
	ofTerms, err := NewTermsTable(keys, nil)
	if err != nil {
		t.Fatal(err)
	}
	ofVerifier, err := NewKeyTable(keys)
	if err != nil {
		t.Fatal(err)
	}
	v, err := NewVerifierUnderTable(ofVerifier, nil)
	if err != nil {
		t.Fatal(err)
	}
	for _, table := range []struct {
		block  *block
		verify func() (*Message, error)
		close  func() error
	}{
		{&ofKeys.block, func() (*Message, error) { return ofKeys.Verify(message, nil) }, ofKeys.Close},
		{&ofTerms.block, func() (*Message, error) { return ofTerms.Authenticate(message) }, ofTerms.Close},
		{&ofVerifier.block, func() (*Message, error) {
			fed, err := v.Feed(message)
			return &Message{Payload: fed.Payload}, err
		}, ofVerifier.Close},
	} {
		if err := table.block.share(); err != nil {
			t.Fatal(err)
		}
		if found, err := table.verify(); err != nil || string(found.Payload) != "hi" {
			t.Error(found, err)
		}
		closed := make(chan error)
		go func(close func() error) { closed <- close() }(table.close)
		select {
		case <-closed:
			t.Error("Close doesn't wait")
		case <-time.After(50 * time.Millisecond):
		}
		table.block.mutex.RUnlock()
		if err := <-closed; err != nil {
			t.Error(err)
		}
		if _, err := table.verify(); !errors.Is(err, ErrClosed) {
			t.Error(err)
		}
	}
}
