package aclck

// #include <stdlib.h>
// #include <aclck.h>
import "C"

import "unsafe"

// memory is a block of C for one call. C may not follow a pointer in memory of Go to other memory of Go, so structures
// with pointers point into such a block.
type memory struct {
	at   unsafe.Pointer
	used uintptr
	size uintptr
}

// aligned returns the size that a part of the block takes.
func aligned(size uintptr) uintptr {
	return (size + 7) &^ 7
}

// newMemory returns a block for parts of these sizes. It must be freed.
func newMemory(sizes ...uintptr) *memory {
	block := &memory{size: 8}
	for _, size := range sizes {
		block.size += aligned(size)
	}
	block.at = C.malloc(C.size_t(block.size))
	return block
}

func (block *memory) free() {
	C.free(block.at)
}

// part returns the next part of the block.
func (block *memory) part(size uintptr) unsafe.Pointer {
	if aligned(size) > block.size-block.used {
		panic("aclck: a block of memory is too short")
	}
	part := unsafe.Add(block.at, block.used)
	block.used += aligned(size)
	return part
}

// bytes copies bytes into the block.
func (block *memory) bytes(data string) C.aclck_bytes {
	part := block.part(uintptr(len(data)))
	copy(unsafe.Slice((*byte)(part), len(data)), data)
	return C.aclck_bytes{at: part, len: C.size_t(len(data))}
}

// sizeOfTexts returns the sizes of the texts, and of an array of them.
func sizeOfTexts(texts []string) uintptr {
	size := uintptr(len(texts)) * unsafe.Sizeof(C.aclck_bytes{})
	for _, text := range texts {
		size += aligned(uintptr(len(text)))
	}
	return size
}

// texts copies texts into the block, and an array of them.
func (block *memory) texts(texts []string) *C.aclck_bytes {
	array := (*C.aclck_bytes)(block.part(uintptr(len(texts)) * unsafe.Sizeof(C.aclck_bytes{})))
	rows := unsafe.Slice(array, len(texts))
	for place, text := range texts {
		rows[place] = block.bytes(text)
	}
	return array
}
