// Tables that goroutines share.

package cose_test

import (
	"errors"
	"fmt"
	"runtime"
	"sync"
	"testing"

	"cose"
)

// tokenOf is a token of a subject, which expires in 1444064944.
func tokenOf(subject string) []byte {
	return mac0(joined([]byte{0xa2, 0x02}, str(3, []byte(subject)), []byte{0x04}, integer(1444064944)), nil)
}

func newKeyTable(t *testing.T, keys []byte) *cose.KeyTable {
	table, err := cose.NewKeyTable(keys)
	if err != nil {
		t.Fatal(err)
	}
	return table
}

// TestSharedTables has goroutines over two tables, of which each is answered about its own messages and tokens, good and forged.
func TestSharedTables(t *testing.T) {
	ofKeys, ofTerms := newKeyTable(t, keysOf5), newTermsTable(t, keysOf5, nil)
	policy := &cose.Policy{CurrentTime: until1444064944.CurrentTime}
	messages := map[string]func([]byte) (*cose.Message, error){
		"Verify":       func(data []byte) (*cose.Message, error) { return ofKeys.Verify(data, nil) },
		"Authenticate": ofTerms.Authenticate,
	}
	tokens := map[string]func([]byte) (*cose.Claims, error){
		"VerifyCWT": func(data []byte) (*cose.Claims, error) { return ofKeys.VerifyCWT(data, policy, nil) },
		"Admit":     func(data []byte) (*cose.Claims, error) { return ofTerms.Admit(data, until1444064944) },
	}
	ask := func(name string) {
		message, token := mac0([]byte(name), nil), tokenOf(name)
		for call, verify := range messages {
			if found, err := verify(message); err != nil || string(found.Payload) != name {
				t.Error(call, name, found, err)
			}
			if _, err := verify(flipped(message)); !errors.Is(err, cose.ReasonBadAuth) {
				t.Error(call, name, err)
			}
		}
		for call, verify := range tokens {
			if found, err := verify(token); err != nil || *found.Subject != name {
				t.Error(call, name, found, err)
			}
			if _, err := verify(flipped(token)); !errors.Is(err, cose.ReasonBadAuth) {
				t.Error(call, name, err)
			}
		}
	}
	var group sync.WaitGroup
	for worker := 0; worker < 4; worker++ {
		group.Add(1)
		go func(worker int) {
			defer group.Done()
			for turn := 0; turn < 200; turn++ {
				ask(fmt.Sprint("worker ", worker, ", turn ", turn))
			}
		}(worker)
	}
	group.Wait()
}

// TestClosedTable closes tables while goroutines use them: a call that has begun is answered, and one that hasn't returns
// ErrClosed.
func TestClosedTable(t *testing.T) {
	message := mac0(make([]byte, 10_000), nil)
	for turn := 0; turn < 50; turn++ {
		table := newKeyTable(t, keysOf5)
		var begun, group sync.WaitGroup
		for worker := 0; worker < 4; worker++ {
			begun.Add(1)
			group.Add(1)
			go func() {
				defer group.Done()
				_, err := table.Verify(message, nil)
				begun.Done()
				for err == nil {
					_, err = table.Verify(message, nil)
				}
				if !errors.Is(err, cose.ErrClosed) {
					t.Error(err)
				}
			}()
		}
		begun.Wait()
		if err := table.Close(); err != nil {
			t.Error(err)
		}
		group.Wait()
	}
}

// TestCollectedTable has calls under tables to which nothing else refers: their memory is given back after the call.
func TestCollectedTable(t *testing.T) {
	message := mac0(make([]byte, 10_000), nil)
	for turn := 0; turn < 200; turn++ {
		collected := make(chan struct{})
		go func() {
			runtime.GC()
			close(collected)
		}()
		if found, err := newKeyTable(t, keysOf5).Verify(message, nil); err != nil || len(found.Payload) != 10_000 {
			t.Error(found, err)
		}
		<-collected
	}
}
