// Package aclck checks, converts and compares access control lists of NFSv4 (RFC 8881, section 6.2.1) and POSIX
// (acl(5)). It calls the static library libaclck, in which each call is proved to keep its contract. The comments of
// aclck.h say more of each call.
//
// An NFSv4 list is the bytes of nfsace4<>, which is what the extended attribute system.nfs4_acl has. Names are compared
// byte for byte. The package copies what it gives to the library, and keeps none of it, so any number of goroutines may
// call at once.
//
// The package links libaclck.a from its directory lib, from the directory library/out of the sources of aclck, or from
// where the linker looks. The environment variable CGO_LDFLAGS names another directory as -L/DIRECTORY.
package aclck

// #cgo CFLAGS: -I${SRCDIR}/include -I${SRCDIR}/../../include
// #cgo LDFLAGS: -L${SRCDIR}/lib -L${SRCDIR}/../../library/out -l:libaclck.a
// #include <aclck.h>
import "C"

import (
	"errors"
	"fmt"
	"unsafe"
)

// Profile says which rights and flags a list may have.
type Profile uint32

const (
	// Full has every right and every flag of RFC 8881.
	Full Profile = C.ACLCK_FULL
	// Narrow has the rights and flags of the narrow profile (docs/reference/formats.md).
	Narrow Profile = C.ACLCK_NARROW
)

// Object is an object: its owner and its owning group. No name may be empty.
type Object struct {
	Owner string
	Group string
}

// Requester is a user, and the groups of that user. No name may be empty.
type Requester struct {
	User   string
	Groups []string
}

// Fault says why and where a list, a text or a value is refused. What a reason does not use is 0. The comment of
// aclck_fault in aclck.h says which fields a reason uses.
type Fault struct {
	Reason uint32
	Offset uint64
	Line   uint64
	Column uint64
	// List is 1 if the second of two lists is refused.
	List uint32
	// Part is 1 for the default ACL of a POSIX text.
	Part uint32
	// Tag is that of the entry that a POSIX ACL lacks.
	Tag uint32
}

// Error returns the name of the reason, with the place.
func (fault *Fault) Error() string {
	if fault.Line != 0 {
		return fmt.Sprintf("aclck: refused: %s at line %d, column %d", fault.Name(), fault.Line, fault.Column)
	}
	return fmt.Sprintf("aclck: refused: %s at %d", fault.Name(), fault.Offset)
}

// Name returns the name of the reason, as the program aclck prints it.
func (fault *Fault) Name() string {
	name, _ := shortText(func(out C.aclck_buffer, needed *C.size_t) C.enum_aclck_status {
		return C.aclck_reason_text(C.enum_aclck_reason(fault.Reason), out, needed)
	})
	return name
}

var (
	// ErrArgument says that a name is empty, or that a number means nothing.
	ErrArgument = errors.New("aclck: bad argument")
	// ErrMemory says that memory ran out.
	ErrMemory = errors.New("aclck: out of memory")
)

// Version returns the version of the library: major * 65536 + minor * 256 + patch.
func Version() uint32 {
	return uint32(C.aclck_version())
}

// errorOf returns nil if a call is done, and otherwise the error: a *Fault if something is refused.
func errorOf(status C.enum_aclck_status, fault *C.aclck_fault) error {
	switch status {
	case C.ACLCK_DONE:
		return nil
	case C.ACLCK_REFUSED:
		return &Fault{
			Reason: uint32(fault.reason), Offset: uint64(fault.offset), Line: uint64(fault.line),
			Column: uint64(fault.column), List: uint32(fault.list), Part: uint32(fault.part), Tag: uint32(fault.tag),
		}
	case C.ACLCK_MEMORY:
		return ErrMemory
	}
	return ErrArgument
}

// bytesOf returns a copy of the bytes for C. Its pointer is valid even if there are none.
func bytesOf(list []byte) C.aclck_bytes {
	if len(list) == 0 {
		return C.aclck_bytes_of(nil, 0)
	}
	own := append([]byte(nil), list...)
	return C.aclck_bytes{at: unsafe.Pointer(&own[0]), len: C.size_t(len(own))}
}

// bufferOf returns a buffer over the bytes, of which there is one at least.
func bufferOf(out []byte) C.aclck_buffer {
	return C.aclck_buffer{at: unsafe.Pointer(&out[0]), cap: C.size_t(len(out))}
}

// made makes a call that writes into a buffer, and returns what it wrote. The first buffer has room for some bytes.
func made(room int, call func(C.aclck_buffer, *C.size_t, *C.aclck_fault) C.enum_aclck_status) ([]byte, error) {
	out := make([]byte, room+1)
	for {
		var needed C.size_t
		var fault C.aclck_fault
		status := call(bufferOf(out), &needed, &fault)
		if status == C.ACLCK_SHORT {
			out = make([]byte, needed)
			continue
		}
		if err := errorOf(status, &fault); err != nil {
			return nil, err
		}
		return out[:needed:needed], nil
	}
}

// shortText makes a call that writes a short text about a number, and returns the text.
func shortText(call func(C.aclck_buffer, *C.size_t) C.enum_aclck_status) (string, error) {
	text, err := made(255, func(out C.aclck_buffer, needed *C.size_t, _ *C.aclck_fault) C.enum_aclck_status {
		return call(out, needed)
	})
	return string(text), err
}
