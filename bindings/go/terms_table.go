// Keys that terms permit, which are read once.

package cose

// #include "terms.h"
import "C"

import "runtime"

// TermsTable has the keys that terms permit, at most 64, read once for many messages, and what the terms state besides.
// Any number of goroutines may use it at once, and so may the terms' ECDSA while it is asked.
type TermsTable struct {
	block   block
	options Options
	usable  int
}

// NewTermsTable reads the keys that terms permit. It returns a *KeysRefused where they are refused, or where more than 64 are permitted.
// A table reads no large headers: terms that are Large are ErrBadArgument.
func NewTermsTable(keys []byte, terms *Terms) (*TermsTable, error) {
	t := terms.orDefault()
	given, err := t.given()
	if err == nil && t.Large {
		err = outOfRange("a table reads no large headers")
	}
	if err != nil {
		return nil, err
	}
	table := &TermsTable{options: Options{ECDSA: t.ECDSA}}
	runtime.SetFinalizer(table, func(it *TermsTable) { it.block.free() })
	data, isDataKept := table.block.keep(keys)
	external, isExternalKept := table.block.keep(t.AAD)
	table.usable, err = table.block.read(isDataKept && isExternalKept, func() C.struct_cose_key_set {
		return C.sized_table_read_under(table.block.at, given, data, external)
	})
	if err != nil {
		return nil, err
	}
	return table, nil
}

// Len is how many keys are usable and permitted.
func (t *TermsTable) Len() int {
	return t.usable
}

// Close waits for the calls that have begun, and gives the memory back, which the garbage collector does too. Other calls return
// ErrClosed then.
func (t *TermsTable) Close() error {
	if err := t.block.lock(); err != nil {
		return err
	}
	defer t.block.mutex.Unlock()
	t.block.free()
	return nil
}

// Authenticate verifies a message in memory under the table's terms, as the function Authenticate does.
func (t *TermsTable) Authenticate(message []byte) (*Message, error) {
	answer, err := t.answer(message)
	if err != nil {
		return nil, err
	}
	return t.options.decided(&answer, message, nil)
}

// answer is the library's.
func (t *TermsTable) answer(message []byte) (answer C.struct_sized_answer, err error) {
	if err = t.block.share(); err != nil {
		return answer, err
	}
	defer t.block.mutex.RUnlock()
	return C.sized_table_authenticate(t.block.at, bytesOf(message)), nil
}

// Admit verifies a token in memory under the table's terms, as the function Admit does, and returns its claims where they meet the
// requirements.
func (t *TermsTable) Admit(token []byte, requirements *Requirements) (*Claims, error) {
	r, err := requirements.required()
	if err != nil {
		return nil, err
	}
	found, err := t.found(token, &r)
	if err != nil {
		return nil, err
	}
	if found.status != C.COSE_SIGNED {
		return claimsOrUnmet(token, &found)
	}
	message, err := t.Authenticate(token)
	if err != nil {
		return nil, err
	}
	return r.claims(message.Payload, false)
}

// found is what the library finds in a token.
func (t *TermsTable) found(token []byte, r *required) (claims C.struct_cose_claims_set, err error) {
	if err = t.block.share(); err != nil {
		return claims, err
	}
	defer t.block.mutex.RUnlock()
	return C.sized_table_admit(t.block.at, r.given, bytesOf(r.iss), bytesOf(r.sub), bytesOf(r.aud), bytesOf(token)), nil
}
