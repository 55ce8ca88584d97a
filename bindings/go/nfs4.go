package aclck

// #include <aclck.h>
import "C"

import "strings"

// Decided has, of the rights that are asked, those that an ALLOW decides and those that a DENY decides. No ACE decides
// the rest, and so they are not granted.
type Decided struct {
	Allowed Rights
	Denied  Rights
}

// Decision is the ACE that decides a right: its place in the list, from 0, and whether it is a DENY.
type Decision struct {
	Place uint64
	Deny  bool
}

// Difference is a requester and a right for which two lists differ.
type Difference struct {
	Right       Rights
	FirstGrants bool
	Object      Object
	Requester   Requester
}

// question is what is asked, in memory of C.
type question struct {
	*memory
	object    C.aclck_object
	requester C.aclck_requester
	asked     C.aclck_question
}

// ask returns what is asked. Its memory must be freed.
func ask(object Object, requester Requester, rights Rights, profile Profile) *question {
	names := []string{object.Owner, object.Group, requester.User}
	block := newMemory(sizeOfTexts(names), sizeOfTexts(requester.Groups))
	return &question{
		memory: block,
		object: C.aclck_object{owner: block.bytes(object.Owner), group: block.bytes(object.Group)},
		requester: C.aclck_requester{
			user: block.bytes(requester.User), groups: block.texts(requester.Groups),
			ngroups: C.size_t(len(requester.Groups)),
		},
		asked: C.aclck_question{mask: C.enum_aclck_right(rights), options: C.enum_aclck_option(profile)},
	}
}

// Check returns whether the list grants the requester all of the rights on the object.
func Check(list []byte, object Object, requester Requester, rights Rights, profile Profile) (bool, error) {
	about := ask(object, requester, rights, profile)
	defer about.free()
	var granted C.uint32_t
	var fault C.aclck_fault
	status := C.aclck_check(bytesOf(list), &about.object, &about.requester, &about.asked, &granted, &fault)
	return granted == 1, errorOf(status, &fault)
}

// Decide returns which of the rights the list allows the requester on the object, and which it denies.
func Decide(list []byte, object Object, requester Requester, rights Rights, profile Profile) (Decided, error) {
	about := ask(object, requester, rights, profile)
	defer about.free()
	var found C.aclck_decided
	var fault C.aclck_fault
	status := C.aclck_decide(bytesOf(list), &about.object, &about.requester, &about.asked, &found, &fault)
	return Decided{Allowed: Rights(found.allowed), Denied: Rights(found.denied)}, errorOf(status, &fault)
}

// Deciding returns the ACE that decides one right for the requester, or nil if there is none. Without one, the right is
// denied.
func Deciding(list []byte, object Object, requester Requester, right Rights, profile Profile) (*Decision, error) {
	about := ask(object, requester, right, profile)
	defer about.free()
	var found C.aclck_decision
	var fault C.aclck_fault
	status := C.aclck_deciding(bytesOf(list), &about.object, &about.requester, &about.asked, &found, &fault)
	if err := errorOf(status, &fault); err != nil || found.kind == C.ACLCK_UNDECIDED {
		return nil, err
	}
	return &Decision{Place: uint64(found.place), Deny: found.kind == C.ACLCK_DENY}, nil
}

// Mode returns the mode of the list (RFC 8881, section 6.3.2).
func Mode(list []byte, profile Profile) (uint32, error) {
	var mode C.uint32_t
	var fault C.aclck_fault
	status := C.aclck_mode(bytesOf(list), C.enum_aclck_option(profile), &mode, &fault)
	return uint32(mode), errorOf(status, &fault)
}

// Show returns the text of the list, one line per ACE (docs/reference/formats.md).
func Show(list []byte, profile Profile) ([]byte, error) {
	return made(4*len(list), func(out C.aclck_buffer, needed *C.size_t, fault *C.aclck_fault) C.enum_aclck_status {
		return C.aclck_show(bytesOf(list), C.enum_aclck_option(profile), out, needed, fault)
	})
}

// Encode returns the bytes of the list that has this text.
func Encode(text []byte, profile Profile) ([]byte, error) {
	return made(len(text), func(out C.aclck_buffer, needed *C.size_t, fault *C.aclck_fault) C.enum_aclck_status {
		return C.aclck_encode(bytesOf(text), C.enum_aclck_option(profile), out, needed, fault)
	})
}

// Normalize returns the normal form of the list. Two lists have equal normal forms if and only if they grant everybody
// the same.
func Normalize(list []byte, profile Profile) ([]byte, error) {
	return made(len(list), func(out C.aclck_buffer, needed *C.size_t, fault *C.aclck_fault) C.enum_aclck_status {
		return C.aclck_normalize(bytesOf(list), C.enum_aclck_option(profile), out, needed, fault)
	})
}

// Restricted returns what a list keeps under a bound, which is a list too. A right of an ALLOW goes if and only if the
// DENYs before it, and then it, grant the right to somebody whom the bound denies it. Of all lists that are made by taking
// rights out of ALLOWs, and that grant at most what the bound grants, it is the one that keeps most.
func Restricted(list, bound []byte, profile Profile) ([]byte, error) {
	block := newMemory(uintptr(len(bound)))
	defer block.free()
	limit := block.bytes(string(bound))
	return made(len(list), func(out C.aclck_buffer, needed *C.size_t, fault *C.aclck_fault) C.enum_aclck_status {
		return C.aclck_restricted(bytesOf(list), &limit, C.enum_aclck_option(profile), out, needed, fault)
	})
}

// RestrictedEverywhere returns what a list keeps under a bound on its object and on everything that is ever created
// below it, where the bound is what the new object would inherit from it. Of all lists that are made by taking rights
// out of ALLOWs, and that grant at most what the bound grants on each of these objects, it is the one that keeps most.
func RestrictedEverywhere(list, bound []byte, profile Profile) ([]byte, error) {
	block := newMemory(uintptr(len(bound)))
	defer block.free()
	limit := block.bytes(string(bound))
	return made(len(list), func(out C.aclck_buffer, needed *C.size_t, fault *C.aclck_fault) C.enum_aclck_status {
		return C.aclck_restricted_everywhere(bytesOf(list), &limit, C.enum_aclck_option(profile), out, needed, fault)
	})
}

// Same returns whether two lists grant everybody the same.
func Same(first, second []byte, profile Profile) (bool, error) {
	var same C.uint32_t
	var fault C.aclck_fault
	status := C.aclck_same(bytesOf(first), bytesOf(second), C.enum_aclck_option(profile), &same, &fault)
	return same == 1, errorOf(status, &fault)
}

// Compare returns a difference of two lists, or nil if they grant everybody the same.
func Compare(first, second []byte, profile Profile) (*Difference, error) {
	return differing(func(found *C.aclck_difference, out C.aclck_buffer, fault *C.aclck_fault) C.enum_aclck_status {
		return C.aclck_compare(bytesOf(first), bytesOf(second), C.enum_aclck_option(profile), found, out, fault)
	})
}

// Excess returns a difference in which the first list grants a right and the second does not, or nil if the second list
// grants everybody whatever the first grants.
func Excess(first, second []byte, profile Profile) (*Difference, error) {
	return differing(func(found *C.aclck_difference, out C.aclck_buffer, fault *C.aclck_fault) C.enum_aclck_status {
		return C.aclck_excess(bytesOf(first), bytesOf(second), C.enum_aclck_option(profile), found, out, fault)
	})
}

// differing makes a call that compares, and returns the difference that it finds.
func differing(
	call func(*C.aclck_difference, C.aclck_buffer, *C.aclck_fault) C.enum_aclck_status,
) (*Difference, error) {
	var found C.aclck_difference
	names, err := made(255, func(out C.aclck_buffer, needed *C.size_t, fault *C.aclck_fault) C.enum_aclck_status {
		status := call(&found, out, fault)
		*needed = C.size_t(found.names)
		return status
	})
	if err != nil || found.same == 1 {
		return nil, err
	}
	// Each name has a zero byte after it: the owner, the owning group, the user, and each group of the user.
	texts := strings.Split(string(names), "\x00")
	return &Difference{
		Right: Rights(found.right), FirstGrants: found.first_grants == 1,
		Object:    Object{Owner: texts[0], Group: texts[1]},
		Requester: Requester{User: texts[2], Groups: texts[3 : len(texts)-1]},
	}, nil
}
