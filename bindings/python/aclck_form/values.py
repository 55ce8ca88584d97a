"""The forms that the program reads and writes, and their values."""

from __future__ import annotations

from typing import Iterable, List, Optional, Tuple

from aclck import LeftOut, ListFlag, ListForm, NfsAcl, PosixAcl, TarStyle
from aclck_tree.output.errors import TreeError

NFS = ("xdr", "text", "nfs4-tools", "nfs-text", "nfs-text-ids", "nfs41", "nfs41-ids")
_STAR, _STAR_DEFAULT = "posix-archive", "posix-archive-default"
_GNU, _GNU_DEFAULT = "posix-gnu-tar", "posix-gnu-tar-default"
POSIX = ("posix", "posix-access", "posix-default", _STAR, _STAR_DEFAULT, _GNU, _GNU_DEFAULT)
OF_DEFAULT = ("posix-default", _STAR_DEFAULT, _GNU_DEFAULT)
"""The forms that have the default entries, and no others."""
WITH_NAMES = (_STAR, _STAR_DEFAULT, _GNU, _GNU_DEFAULT)
"""The forms of POSIX ACLs in which users and groups may have names."""
TOOLS = "nfs4-tools"
WITH_FLAGS = ("nfs41", "nfs41-ids")
"""The forms that have flags of the whole list."""
BYTES = ("xdr", *WITH_FLAGS, "posix-access", "posix-default")
"""The forms that are no texts."""
WITH_IDS = ("nfs-text-ids", "nfs41-ids", *POSIX)
"""The forms whose lists have ids. Only the text of an archive writes names for them."""

WITH_PARTS = (TOOLS, "nfs-text", "nfs-text-ids", *WITH_FLAGS)
"""The forms of other systems, whose values can have ACEs that access does not read."""

FORMS_HELP = """forms of NFSv4 lists:
  xdr            the attribute system.nfs4_acl
  text           the text of aclck show-nfs
  nfs4-tools     the text of nfs4_getfacl and nfs4_setfacl
  nfs-text       the text of getfacl of FreeBSD, and SCHILY.acl.ace in archives
  nfs-text-ids   the same text; of an entry with a name and an id, the id counts
  nfs41          the attribute system.nfs4_dacl, with flags of the list
  nfs41-ids      the attribute security.nfs4acl_xdr, with flags and with ids
forms of POSIX ACLs:
  posix          the text of getfacl -n
  posix-access   the attribute system.posix_acl_access
  posix-default  the attribute system.posix_acl_default
  posix-archive          SCHILY.acl.access in archives, as star and bsdtar write it
  posix-archive-default  SCHILY.acl.default, as they write it
  posix-gnu-tar          SCHILY.acl.access in archives, as GNU tar writes it
  posix-gnu-tar-default  SCHILY.acl.default, as GNU tar writes it
"""
"""What the help of a program says of the forms."""

NamedId = Tuple[str, int, bool]
"""A name, its id, and whether it is that of a group."""

_OF_LIBRARY = {"nfs-text": ListForm.NFS_TEXT, "nfs-text-ids": ListForm.NFS_TEXT_IDS, "nfs41": ListForm.NFS_ACL41,
               "nfs41-ids": ListForm.NFS_ACL41_IDS}


def _form_of_library(form: str, kind: Optional[str]) -> ListForm:
    if form == TOOLS:
        return ListForm.NFS_TOOLS_DIRECTORY if kind == "directory" else ListForm.NFS_TOOLS_FILE
    return _OF_LIBRARY[form]


def style_of(form: str) -> TarStyle:
    """Returns whose text a form is."""
    return TarStyle.GNU if form in (_GNU, _GNU_DEFAULT) else TarStyle.STAR


def read_nfs(form: str, data: bytes, kind: Optional[str]) -> Tuple[NfsAcl, ListFlag]:
    """Returns the list and the flags of the list that a value spells. Raises Refused with the place in the value."""
    if form == "xdr":
        return NfsAcl(data), ListFlag(0)
    if form == "text":
        return NfsAcl.from_text(data), ListFlag(0)
    return NfsAcl.from_form(data, _form_of_library(form, kind))


def read_part(form: str, data: bytes, kind: Optional[str]) -> Tuple[NfsAcl, ListFlag, List[LeftOut]]:
    """Returns the list without the ACEs that access does not read, the flags of the list, and the ACEs that are left
    out, of a value in one of `WITH_PARTS`. Raises Refused with the place in the value."""
    return NfsAcl.from_form_part(data, _form_of_library(form, kind))


def written_nfs(form: str, acl: NfsAcl, flags: ListFlag, kind: Optional[str]) -> bytes:
    """Returns the value of a list. The form must have a place for the flags. Raises Refused with the place of an ACE
    that the form cannot hold."""
    if form == "xdr":
        return bytes(acl)
    if form == "text":
        return str(acl).encode("utf-8", "surrogateescape")
    return acl.to_form(_form_of_library(form, kind), flags)


def read_posix(form: str, data: bytes, mode: Optional[int], names: Iterable[NamedId] = ()) -> PosixAcl:
    """Returns the list that a value spells; the text of an archive may have the names. The access entries of a value
    with default entries alone are those of the mode. Raises Refused."""
    if form == "posix":
        return PosixAcl(data)
    if form in WITH_NAMES:
        access, default = (None, data) if form in OF_DEFAULT else (data, None)
        return PosixAcl.from_archive(access, default, names, mode or 0, style_of(form))
    return PosixAcl.from_attributes(data) if form == "posix-access" else PosixAcl.from_attributes(None, data, mode or 0)


def written_posix(form: str, acl: PosixAcl, names: Iterable[NamedId] = ()) -> bytes:
    """Returns the value of the entries for which the form has a place, with the names in the text of an archive. Raises
    Refused if the text cannot hold an entry, and TreeError if there are none."""
    if form == "posix":
        return str(acl).encode()
    if form in WITH_NAMES:
        texts = acl.to_archive(style_of(form), names)
        parts = [text if text is None else text.encode("utf-8", "surrogateescape") for text in texts]
    else:
        parts = [*acl.to_attributes()]
    value = parts[form in OF_DEFAULT]
    if value is None:
        raise TreeError("there are no default entries")
    return value
