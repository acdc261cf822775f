// Key sets that are read once.

package cose

// #include "sized.h"
import "C"

import "runtime"

// KeyTable is a COSE_Key or a COSE_KeySet (RFC 9052 section 7) that is read once, for many messages. It has up to 64 usable keys.
// Any number of goroutines may use it at once, and any number of verifiers may be under it (NewVerifierUnderTable).
type KeyTable struct {
	block  block
	usable int
}

// NewKeyTable reads keys. It returns a *KeysRefused where they are refused.
func NewKeyTable(keys []byte) (*KeyTable, error) {
	table := new(KeyTable)
	runtime.SetFinalizer(table, func(it *KeyTable) { it.block.free() })
	data, isKept := table.block.keep(keys)
	var err error
	table.usable, err = table.block.read(isKept, func() C.struct_cose_key_set { return C.sized_table_read(table.block.at, data) })
	if err != nil {
		return nil, err
	}
	return table, nil
}

// read makes the block that of a table, whose keys are read then: how many are usable. Where that fails, the block is free again.
func (b *block) read(isKept bool, read func() C.struct_cose_key_set) (usable int, err error) {
	if !isKept || !b.make(C.cose_table_size(), C.cose_table_align()) {
		b.free()
		return 0, errNoMemory
	}
	C.cose_table_begin(b.at)
	found := read()
	if found.status != C.COSE_COMPLETE {
		b.free()
		return 0, errorOf(found.status, found.reason, found.place)
	}
	return int(found.usable), nil
}

// Len is how many keys are usable.
func (t *KeyTable) Len() int {
	return t.usable
}

// Close waits for the calls that have begun, and gives the memory back, which the garbage collector does too. Other calls return
// ErrClosed then, those of verifiers under the table too.
func (t *KeyTable) Close() error {
	if err := t.block.lock(); err != nil {
		return err
	}
	defer t.block.mutex.Unlock()
	t.block.free()
	return nil
}

// Verify verifies a message in memory, as the function Verify does.
func (t *KeyTable) Verify(message []byte, options *Options) (*Message, error) {
	o := options.orDefault()
	answer, err := t.answer(message, &o)
	if err != nil {
		return nil, err
	}
	return o.decided(&answer, message, nil)
}

// answer is the library's.
func (t *KeyTable) answer(message []byte, o *Options) (answer C.struct_sized_answer, err error) {
	if err = t.block.share(); err != nil {
		return answer, err
	}
	defer t.block.mutex.RUnlock()
	if o.Large {
		kept := bytesOf(t.block.copies[0])
		return C.sized_verify(true, kept, bytesOf(o.AAD), C.uint32_t(o.Wanted), bytesOf(message)), nil
	}
	return C.sized_table_verify(t.block.at, bytesOf(o.AAD), C.uint32_t(o.Wanted), bytesOf(message)), nil
}

// CountKeys is how many keys of a COSE_Key or a COSE_KeySet are usable. It returns a *KeysRefused where they are refused.
func CountKeys(keys []byte) (int, error) {
	read := C.sized_read_keys(bytesOf(keys))
	if read.status != C.COSE_COMPLETE {
		return 0, errorOf(read.status, read.reason, read.place)
	}
	return int(read.usable), nil
}
