package aclck

// #include <aclck.h>
import "C"

import "unsafe"

// Tag is what an entry of a POSIX ACL is about.
type Tag uint32

// The tags, in the order of acl(5).
const (
	TagUserObj  Tag = C.ACLCK_TAG_USER_OBJ
	TagUser     Tag = C.ACLCK_TAG_USER
	TagGroupObj Tag = C.ACLCK_TAG_GROUP_OBJ
	TagGroup    Tag = C.ACLCK_TAG_GROUP
	TagMask     Tag = C.ACLCK_TAG_MASK
	TagOther    Tag = C.ACLCK_TAG_OTHER
)

// Permission is a sum of permissions of a POSIX entry.
type Permission uint32

// The permissions.
const (
	PermExecute Permission = C.ACLCK_PERM_EXECUTE
	PermWrite   Permission = C.ACLCK_PERM_WRITE
	PermRead    Permission = C.ACLCK_PERM_READ
)

// Entry is an entry of a POSIX ACL. Only TagUser and TagGroup have an ID, which is 0 for the others.
type Entry struct {
	Tag        Tag
	ID         uint32
	Permission Permission
}

// Name is a name of an id.
type Name struct {
	Name    string
	ID      uint32
	IsGroup bool
}

// PosixQuestion asks whether a user, who is in these groups, may do all of Want to an object of this owner and group.
type PosixQuestion struct {
	Owner  uint32
	Group  uint32
	User   uint32
	Groups []uint32
	Want   Permission
}

// EntriesCheck returns whether the entries, which are in canonical order, grant what is asked (acl(5), "ACCESS CHECK
// ALGORITHM").
func EntriesCheck(entries []Entry, question PosixQuestion) (bool, error) {
	block, asked := askPosix(question)
	defer block.free()
	var granted C.uint32_t
	var fault C.aclck_fault
	status := C.aclck_entries_check(rawEntries(entries), &asked, &granted, &fault)
	return granted == 1, errorOf(status, &fault)
}

// PosixCheck returns whether the access ACL of a text, such as that of getfacl, grants what is asked. The text may use
// the names.
func PosixCheck(text []byte, names []Name, question PosixQuestion) (bool, error) {
	block, asked := askPosix(question)
	defer block.free()
	posix := textWith(text, names)
	defer posix.free()
	var granted C.uint32_t
	var fault C.aclck_fault
	status := C.aclck_posix_check(&posix.text, &asked, &granted, &fault)
	return granted == 1, errorOf(status, &fault)
}

// askPosix returns what is asked, and its memory, which must be freed.
func askPosix(question PosixQuestion) (*memory, C.aclck_posix_question) {
	size := uintptr(len(question.Groups)) * unsafe.Sizeof(C.uint32_t(0))
	block := newMemory(size)
	groups := (*C.uint32_t)(block.part(size))
	rows := unsafe.Slice(groups, len(question.Groups))
	for place, group := range question.Groups {
		rows[place] = C.uint32_t(group)
	}
	return block, C.aclck_posix_question{
		owner: C.uint32_t(question.Owner), group: C.uint32_t(question.Group), user: C.uint32_t(question.User),
		want: C.enum_aclck_permission(question.Want), groups: groups, ngroups: C.size_t(len(question.Groups)),
	}
}

// posixText is a text and its names, in memory of C.
type posixText struct {
	*memory
	text C.aclck_posix_text
}

// textWith returns the text with the names. Its memory must be freed.
func textWith(text []byte, names []Name) *posixText {
	size := uintptr(len(names)) * unsafe.Sizeof(C.aclck_name{})
	sizes := []uintptr{uintptr(len(text)), size}
	for _, name := range names {
		sizes = append(sizes, uintptr(len(name.Name)))
	}
	block := newMemory(sizes...)
	table := (*C.aclck_name)(block.part(size))
	rows := unsafe.Slice(table, len(names))
	for place, name := range names {
		rows[place] = C.aclck_name{name: block.bytes(name.Name), id: C.uint32_t(name.ID), is_group: 0}
		if name.IsGroup {
			rows[place].is_group = 1
		}
	}
	return &posixText{
		memory: block,
		text: C.aclck_posix_text{
			text: block.bytes(string(text)), names: C.aclck_names{at: table, len: C.size_t(len(names))},
		},
	}
}

// rawEntries returns the entries for C. Their pointer is valid even if there are none.
func rawEntries(entries []Entry) C.aclck_entries {
	raw := make([]C.aclck_entry, len(entries)+1)
	for place, entry := range entries {
		raw[place] = C.aclck_entry{
			tag: C.enum_aclck_tag(entry.Tag), id: C.uint32_t(entry.ID), perm: C.enum_aclck_permission(entry.Permission),
		}
	}
	return C.aclck_entries{at: &raw[0], len: C.size_t(len(entries))}
}

// entriesOf returns the entries that the library wrote.
func entriesOf(raw []C.aclck_entry) []Entry {
	entries := make([]Entry, len(raw))
	for place, entry := range raw {
		entries[place] = Entry{Tag: Tag(entry.tag), Permission: Permission(entry.perm)}
		if entries[place].Tag == TagUser || entries[place].Tag == TagGroup {
			entries[place].ID = uint32(entry.id)
		}
	}
	return entries
}
