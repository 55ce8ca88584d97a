package aclck

// #include <aclck.h>
import "C"

// ListForm is a form in which another system keeps or prints an NFSv4 list.
type ListForm uint32

const (
	// NfsToolsFile is the text of nfs4_getfacl for a file. It has no flags of the list.
	NfsToolsFile ListForm = C.ACLCK_NFS_TOOLS_FILE
	// NfsToolsDirectory is the text of nfs4_getfacl for a directory. It has no flags of the list.
	NfsToolsDirectory ListForm = C.ACLCK_NFS_TOOLS_DIRECTORY
	// NfsAcl41 is the attribute dacl (RFC 8881, section 6.2.2): flags of the list, and a list.
	NfsAcl41 ListForm = C.ACLCK_NFS_ACL41
	// NfsAcl41Ids is Samba's attribute security.nfs4acl_xdr: flags, and a list whose users and groups are ids.
	NfsAcl41Ids ListForm = C.ACLCK_NFS_ACL41_IDS
	// NfsText is the text of getfacl of FreeBSD, of ZFS and of archives, by its names. It has no flags of the list.
	NfsText ListForm = C.ACLCK_NFS_TEXT
	// NfsTextIds is the same text. An entry with a name and an id is about the id.
	NfsTextIds ListForm = C.ACLCK_NFS_TEXT_IDS
	// Commas may be added to NfsText and NfsTextIds: commas between the entries, and not lines.
	Commas ListForm = C.ACLCK_FORM_COMMAS
	// FullText may be added to them: a place for each letter, with `-` for one that is absent.
	FullText ListForm = C.ACLCK_FORM_FULL
)

// ListFlags is a sum of flags of a whole list (RFC 8881, section 6.2.2).
type ListFlags uint32

// The flags of a whole list.
const (
	AutoInherit ListFlags = C.ACLCK_AUTO_INHERIT
	Protected   ListFlags = C.ACLCK_PROTECTED
	Defaulted   ListFlags = C.ACLCK_DEFAULTED
	// IsTrivial and IsDir are flags that OpenZFS sets in the same word.
	IsTrivial ListFlags = C.ACLCK_IS_TRIVIAL
	IsDir     ListFlags = C.ACLCK_IS_DIR
)

// PosixForm is a form in which another system keeps a POSIX ACL.
type PosixForm uint32

const (
	// PosixAttribute is the attributes system.posix_acl_access and system.posix_acl_default of Linux.
	PosixAttribute PosixForm = C.ACLCK_POSIX_ATTRIBUTE
	// PosixText is the access ACL of a text SCHILY.acl.access of an archive.
	PosixText PosixForm = C.ACLCK_POSIX_TEXT
	// PosixDefaultOfText is the default ACL of such a text, which need not have one. It is only read.
	PosixDefaultOfText PosixForm = C.ACLCK_POSIX_DEFAULT_OF_TEXT
	// PosixDefaultText is the ACL of a text SCHILY.acl.default of an archive.
	PosixDefaultText PosixForm = C.ACLCK_POSIX_DEFAULT_TEXT
	// GnuStyle may be added to PosixText and PosixDefaultText: as GNU tar writes the text, and not as star does.
	GnuStyle PosixForm = C.ACLCK_POSIX_GNU_STYLE
)

// ReadForm returns the bytes of the list that all of the value spells in the form, and its flags, which a text has not.
// If the value is refused, Offset of the *Fault is the place of its first byte that is refused, from 0.
func ReadForm(value []byte, form ListForm) ([]byte, ListFlags, error) {
	var flags C.uint32_t
	list, err := made(8*len(value), func(
		out C.aclck_buffer, needed *C.size_t, fault *C.aclck_fault,
	) C.enum_aclck_status {
		return C.aclck_read_form(bytesOf(value), C.enum_aclck_form(form), out, needed, &flags, fault)
	})
	if err != nil {
		return nil, 0, err
	}
	return list, ListFlags(flags), nil
}

// WriteForm returns the value of the list and of its flags in the form. If the form cannot hold them, Offset of the
// *Fault is the place of the ACE, from 0.
func WriteForm(list []byte, form ListForm, flags ListFlags) ([]byte, error) {
	return made(4*len(list), func(out C.aclck_buffer, needed *C.size_t, fault *C.aclck_fault) C.enum_aclck_status {
		return C.aclck_write_form(bytesOf(list), C.enum_aclck_form(form), C.uint32_t(flags), out, needed, fault)
	})
}

// EntriesFromForm returns the entries of the ACL that a value spells in the form, in canonical order. A user or a group
// in a text is an id, a name with an id behind it, or one of the names.
func EntriesFromForm(value []byte, names []Name, form PosixForm) ([]Entry, error) {
	text := textWith(value, names)
	defer text.free()
	out := make([]C.aclck_entry, len(value)/4+1)
	for {
		var needed C.size_t
		var fault C.aclck_fault
		room := C.aclck_entry_buffer{at: &out[0], cap: C.size_t(len(out))}
		status := C.aclck_entries_from_form(&text.text, C.enum_aclck_posix_form(form), room, &needed, &fault)
		if status == C.ACLCK_SHORT {
			out = make([]C.aclck_entry, needed)
			continue
		}
		if err := errorOf(status, &fault); err != nil {
			return nil, err
		}
		return entriesOf(out[:needed]), nil
	}
}

// EntriesToForm returns the value of the entries in the form. An id of the names is written as its first name.
func EntriesToForm(entries []Entry, names []Name, form PosixForm) ([]byte, error) {
	text := textWith(nil, names)
	defer text.free()
	return made(64*len(entries), func(
		out C.aclck_buffer, needed *C.size_t, fault *C.aclck_fault,
	) C.enum_aclck_status {
		table := text.text.names
		return C.aclck_entries_to_form(rawEntries(entries), &table, C.enum_aclck_posix_form(form), out, needed, fault)
	})
}
