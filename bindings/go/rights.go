package aclck

// #include <aclck.h>
import "C"

// Rights is a set of the rights of a mask (RFC 8881, section 6.2.1.3.1), which `|` joins.
type Rights uint32

// The rights, and all of them.
const (
	ReadData           Rights = 0x00000001
	WriteData          Rights = 0x00000002
	AppendData         Rights = 0x00000004
	ReadNamedAttrs     Rights = 0x00000008
	WriteNamedAttrs    Rights = 0x00000010
	Execute            Rights = 0x00000020
	DeleteChild        Rights = 0x00000040
	ReadAttributes     Rights = 0x00000080
	WriteAttributes    Rights = 0x00000100
	WriteRetention     Rights = 0x00000200
	WriteRetentionHold Rights = 0x00000400
	Delete             Rights = 0x00010000
	ReadACL            Rights = 0x00020000
	WriteACL           Rights = 0x00040000
	WriteOwner         Rights = 0x00080000
	Synchronize        Rights = 0x00100000
	AllRights          Rights = 0x001f07ff
)

// ParseRights returns the rights that a text names: names with `|` between them, or `-` for none.
func ParseRights(text string) (Rights, error) {
	var mask C.uint32_t
	status := C.aclck_read_mask(bytesOf([]byte(text)), &mask)
	return Rights(mask), errorOf(status, nil)
}

// String returns the names of the rights with `|` between them, `-` for none, and `?` if a bit is no right.
func (rights Rights) String() string {
	text, err := shortText(func(out C.aclck_buffer, needed *C.size_t) C.enum_aclck_status {
		return C.aclck_mask_text(C.enum_aclck_right(rights), out, needed)
	})
	if err != nil {
		return "?"
	}
	return text
}
