// Memory of C's, which stays where it is: C keeps no pointer to memory of Go's when a call has returned.

package cose

// #include <stdlib.h>
// #include "sized.h"
import "C"

import (
	"sync"
	"unsafe"
)

// bytesOf is a slice as an argument, for the time of a call.
func bytesOf(slice []byte) C.struct_sized_bytes {
	if len(slice) == 0 {
		return C.struct_sized_bytes{}
	}
	return C.struct_sized_bytes{at: (*C.uint8_t)(unsafe.Pointer(&slice[0])), length: C.size_t(len(slice))}
}

// allocate is memory of C's, or nil where there is none.
func allocate(length int) []byte {
	at := C.calloc(1, C.size_t(length)+1)
	if at == nil {
		return nil
	}
	return unsafe.Slice((*byte)(at), length+1)[:length]
}

// release overwrites memory of C's, and gives it back.
func release(memory []byte) {
	if memory == nil {
		return
	}
	if bytes := bytesOf(memory); bytes.length > 0 {
		C.cose_wipe_bytes((*C.uint8_t)(unsafe.Pointer(&memory[0])), bytes.length)
	}
	C.free(unsafe.Pointer(&memory[:1][0]))
}

// A block has what the library keeps between calls, and copies of the bytes that this leads to. One call at a time uses it,
// but for those that verify under a table, which only read it, as do those of a verifier that is under one.
type block struct {
	mutex sync.RWMutex
	// lent is set while code of the caller runs between calls of the library that belong together
	lent   bool
	at     *C.uint8_t
	memory []byte
	copies [][]byte
}

// make gives the block its memory, at a multiple of the alignment.
func (b *block) make(size, align C.uint64_t) bool {
	b.memory = allocate(int(size + align))
	if b.memory == nil {
		return false
	}
	start := uintptr(unsafe.Pointer(&b.memory[0]))
	from := (uintptr(align) - start%uintptr(align)) % uintptr(align)
	b.at = (*C.uint8_t)(unsafe.Pointer(&b.memory[from]))
	return true
}

// keep copies bytes, for as long as the block is there.
func (b *block) keep(slice []byte) (C.struct_sized_bytes, bool) {
	kept := allocate(len(slice))
	copy(kept, slice)
	b.copies = append(b.copies, kept)
	return bytesOf(kept), kept != nil
}

// lock begins a use of the block, which mutex.Unlock ends.
func (b *block) lock() error {
	b.mutex.Lock()
	if b.lent {
		b.mutex.Unlock()
		return ErrInUse
	}
	if b.memory == nil {
		b.mutex.Unlock()
		return ErrClosed
	}
	return nil
}

// share begins a use of the block that only reads it, which a deferred mutex.RUnlock ends. Any number of these run at once,
// each call of the library with a handle of its own. What frees the memory waits for them: Close for the lock, and the
// finalizer because the deferred call still refers to the block.
func (b *block) share() error {
	b.mutex.RLock()
	if b.memory == nil {
		b.mutex.RUnlock()
		return ErrClosed
	}
	return nil
}

// lend begins a use of the block in which code of the caller runs: until takeBack, lock answers ErrInUse.
func (b *block) lend() error {
	if err := b.lock(); err != nil {
		return err
	}
	b.lent = true
	b.mutex.Unlock()
	return nil
}

func (b *block) takeBack() {
	b.mutex.Lock()
	b.lent = false
	b.mutex.Unlock()
}

// free gives the memory back.
func (b *block) free() {
	release(b.memory)
	for _, kept := range b.copies {
		release(kept)
	}
	b.memory, b.copies, b.at = nil, nil, nil
}
