/* Misuses of aclck.h, which tests/library compiles one by one behind these lines: a compiler must warn of each, or
   refuse it. Of values that are compared with a constant of another enum, clang need not warn in C. */
#include "aclck.h"

void use(int what);
void f(aclck_bytes acl, aclck_object object, aclck_requester who, aclck_question question, aclck_buffer out);

static aclck_id_object id_object;
static aclck_id_requester id_who;
static aclck_bytes prepared;

void f(aclck_bytes acl, aclck_object object, aclck_requester who, aclck_question question, aclck_buffer out) {
    aclck_fault fault;
    aclck_decided decided;
    aclck_decision decision;
    aclck_ace ace;
    aclck_posix_loss loss;
    aclck_entry room_for_one;
    const aclck_entry_buffer room = {&room_for_one, 1};
    const aclck_entries entries = {&room_for_one, 1};
    const aclck_posix_question read = {1, 2, 3, ACLCK_PERM_READ, id_who.groups, id_who.ngroups};
    const aclck_name row = {who.user, 7, 0};
    const aclck_names names = {&row, 1};
    const aclck_requesters everybody = {&who, 1};
    uint32_t granted = 0;
    size_t needed, offset = 0;
    if (aclck_check(acl, &object, &who, &question, &granted, &fault) == ACLCK_DONE && granted)
        use(1);
    use(aclck_decide(acl, &object, &who, &question, &decided, &fault));
    use(aclck_deciding(acl, &object, &who, &question, &decision, &fault));
    use(aclck_show(acl, ACLCK_FULL, out, &needed, &fault));
    use(aclck_prepare_ids(acl, &names, ACLCK_FULL, out, &needed, &fault));
    use(aclck_decide_ids(prepared, &id_object, &id_who, &question, &decided));
    use(aclck_next(acl, ACLCK_FULL, &offset, &ace, &fault));
    use(aclck_entries_check(entries, &read, &granted, &fault));
    use(aclck_entries_sorted(entries, ACLCK_ADD_MASK, room, &needed, &fault));
    use(aclck_entries_to_form(entries, &names, ACLCK_POSIX_TEXT, out, &needed, &fault));
    use(aclck_to_posix(acl, &names, 256, room, &needed, &loss, &fault));
    use(everybody.len > 1);
    use(aclck_read_form(prepared, ACLCK_NFS_ACL41, out, &needed, &granted, &fault));
    use(aclck_write_form(acl, ACLCK_NFS_TOOLS_FILE, ACLCK_PROTECTED, out, &needed, &fault));
    /* Prepared bytes are bytes, so that a program may keep and map them: no compiler can tell them from a list. */
    use(aclck_mode(prepared, ACLCK_FULL, &granted, &fault));

/* misuse: a right as an option */
    use(aclck_mode(acl, ACLCK_READ_DATA, &granted, &fault));
/* misuse: an option as a right */
    question.mask = ACLCK_NARROW;
/* misuse: a right and an option exchanged in a question */
    const aclck_question exchanged = {ACLCK_NARROW, ACLCK_READ_DATA};
    use(aclck_check(acl, &object, &who, &exchanged, &granted, &fault));
/* misuse: a permission of POSIX as a right */
    question.mask = ACLCK_PERM_READ;
/* misuse: a flag of an ACE as a right */
    question.mask = ACLCK_INHERIT_ONLY;
/* misuse: the status is not looked at */
    aclck_check(acl, &object, &who, &question, &granted, &fault);
/* misuse: the status of a text is not looked at */
    aclck_show(acl, ACLCK_FULL, out, &needed, &fault);
/* misuse: a status that means yes */
    use(aclck_check(acl, &object, &who, &question, &granted, &fault) == ACLCK_YES);
/* misuse: no place for the answer */
    if (aclck_check(acl, &object, &who, &question, &fault))
        use(1);
/* misuse: a status is forgotten in a switch */
    switch (aclck_show(acl, ACLCK_FULL, out, &needed, &fault)) {
    case ACLCK_DONE:
    case ACLCK_REFUSED:
    case ACLCK_BAD_ARGUMENT:
    case ACLCK_MEMORY:
        break;
    }
/* misuse: no object */
    use(aclck_check(acl, NULL, &who, &question, &granted, &fault));
/* misuse: no fault */
    use(aclck_check(acl, &object, &who, &question, &granted, NULL));
/* misuse: the object and the requester exchanged */
    use(aclck_check(acl, &who, &object, &question, &granted, &fault));
/* misuse: the fault and the answer exchanged */
    use(aclck_decide(acl, &object, &who, &question, &fault, &decided));
/* misuse: the answer of another call */
    use(aclck_decide(acl, &object, &who, &question, &decision, &fault));
/* misuse: the question and the requester exchanged */
    use(aclck_check(acl, &object, &question, &who, &granted, &fault));
/* misuse: an answer of another size */
    use(aclck_check(acl, &object, &who, &question, &needed, &fault));
/* misuse: a length of another size */
    int length;
    use(aclck_show(acl, ACLCK_FULL, out, &length, &fault));
/* misuse: a string in place of bytes */
    use(aclck_mode("abc", ACLCK_FULL, &granted, &fault));
/* misuse: a buffer that may not be written */
    static const char text[9] = "";
    use(aclck_show(acl, ACLCK_FULL, aclck_buffer_of(text, 9), &needed, &fault));
/* misuse: bytes in place of a buffer */
    use(aclck_show(acl, ACLCK_FULL, acl, &needed, &fault));
/* misuse: a requester by value */
    use(aclck_check(acl, &object, who, &question, &granted, &fault));
/* misuse: one requester in place of many */
    const aclck_masks rights = {&granted, 1};
    use(aclck_check_many(acl, &object, &who, &question, rights, &fault));
/* misuse: the fault as a truth */
    use(aclck_check(acl, &object, &who, &question, &granted, &fault));
    if (fault)
        use(1);
/* misuse: a call of an earlier version */
    use(aclck_check_nfs(acl.at, acl.len, "a", 1, "s", 1, "b", 1, who.groups, 0, 1, 0, &fault));
/* misuse: an option as a form */
    use(aclck_write_form(acl, ACLCK_FORM_SHORT, 0, out, &needed, &fault));
/* misuse: a form as an option */
    use(aclck_show(acl, ACLCK_NFS_TOOLS_FILE, out, &needed, &fault));
/* misuse: a form and a flag of a list exchanged */
    use(aclck_write_form(acl, ACLCK_PROTECTED, ACLCK_NFS_ACL41, out, &needed, &fault));
/* misuse: the flags of a list and the length exchanged */
    use(aclck_read_form(acl, ACLCK_NFS_ACL41, out, &granted, &needed, &fault));
/* misuse: no place for the flags of a list */
    use(aclck_read_form(acl, ACLCK_NFS_ACL41, out, &needed, NULL, &fault));
/* misuse: an option that promises an order as a right */
    question.mask = ACLCK_GROUPS_IN_ORDER;
/* misuse: a flag of an ACE as an option */
    use(aclck_child(acl, ACLCK_INHERITED, out, &needed, &fault));
/* misuse: entries and room for entries exchanged */
    use(aclck_entries_sorted(room, ACLCK_ADD_MASK, entries, &needed, &fault));
/* misuse: room for bytes in place of room for entries */
    use(aclck_entries_from_attribute(acl, out, &needed, &fault));
/* misuse: bytes without names in place of a value of a form */
    use(aclck_entries_from_form(acl, ACLCK_POSIX_TEXT, room, &needed, &fault));
/* misuse: a form of NFSv4 lists as one of POSIX ACLs */
    const aclck_posix_text value = {acl, {NULL, 0}};
    use(aclck_entries_from_form(&value, ACLCK_NFS_TEXT, room, &needed, &fault));
/* misuse: one name in place of a table of names */
    use(aclck_entries_to_form(entries, &row, ACLCK_POSIX_TEXT, out, &needed, &fault));
/* misuse: a form of NFSv4 lists for POSIX entries */
    use(aclck_entries_to_form(entries, &names, ACLCK_NFS_TEXT, out, &needed, &fault));
/* misuse: a table of names by value for the POSIX ACL of a list */
    use(aclck_to_posix(acl, names, 256, room, &needed, &loss, &fault));
/* misuse: a difference of two POSIX ACLs for the loss of one */
    aclck_posix_difference posix_difference;
    use(aclck_to_posix(acl, &names, 256, room, &needed, &posix_difference, &fault));
/* misuse: no place for what is lost */
    use(aclck_to_posix(acl, &names, 256, room, &needed, NULL, &fault));
/* misuse: room for bytes in place of room for the entries of a list */
    use(aclck_to_posix(acl, &names, 256, out, &needed, &loss, &fault));
/* misuse: room for entries in place of room for bytes */
    use(aclck_entries_to_attribute(entries, room, &needed, &fault));
/* misuse: an attribute in place of entries */
    use(aclck_entries_check(acl, &read, &granted, &fault));
/* misuse: a question about rights of POSIX entries */
    use(aclck_entries_check(entries, &question, &granted, &fault));
/* misuse: a requester by names where ids are compared */
    use(aclck_decide_ids(prepared, &id_object, &who, &question, &decided));
/* misuse: an object by ids where names are compared */
    use(aclck_decide_prepared(prepared, &id_object, &who, &question, &decided));
/* misuse: the object and the requester of ids exchanged */
    use(aclck_decide_ids(prepared, &id_who, &id_object, &question, &decided));
/* misuse: a table of names by value */
    use(aclck_prepare_ids(acl, names, ACLCK_FULL, out, &needed, &fault));
/* misuse: a table of names to exchange that has ids */
    use(aclck_renamed(acl, &names, ACLCK_FULL, out, &needed, &fault));
/* misuse: a bound by value */
    use(aclck_restricted(acl, acl, ACLCK_FULL, out, &needed, &fault));
/* misuse: a bound of all that is created, by value */
    use(aclck_restricted_everywhere(acl, acl, ACLCK_FULL, out, &needed, &fault));
/* misuse: the place for a number as the greatest number of questions */
    use(aclck_questions(acl, &granted, ACLCK_FULL, out, &needed, &fault));
/* misuse: masks in place of decisions */
    const aclck_masks masks = {&granted, 1};
    use(aclck_decide_prepared_many(prepared, &object, everybody, &question, masks));
/* misuse: an offset by value */
    use(aclck_next(acl, ACLCK_FULL, 0, &ace, &fault));
/* misuse: one ACE in place of a list */
    use(aclck_build(ace, ACLCK_FULL, out, &needed, &fault));
/* misuse: the status of the next ACE is not looked at */
    aclck_next(acl, ACLCK_FULL, &offset, &ace, &fault);
/* misuse: what is certain in place of what is decided */
    use(aclck_decide_unknown(acl, &object, &who, &question, &decided, &fault));
/* misuse: a right as a permission that is asked */
    const aclck_posix_question rights_asked = {1, 2, 3, ACLCK_READ_DATA, id_who.groups, id_who.ngroups};
    use(aclck_entries_check(entries, &rights_asked, &granted, &fault));
/* misuse: a tag as a permission that is asked */
    const aclck_posix_question tag_asked = {1, 2, 3, ACLCK_TAG_USER, id_who.groups, id_who.ngroups};
    use(aclck_entries_check(entries, &tag_asked, &granted, &fault));
/* misuse: an option as a permission that is asked */
    const aclck_posix_question option_asked = {1, 2, 3, ACLCK_ADD_MASK, id_who.groups, id_who.ngroups};
    use(aclck_entries_check(entries, &option_asked, &granted, &fault));
/* misuse: a right as the permission of an entry */
    room_for_one.perm = ACLCK_WRITE_DATA;
/* misuse: a permission as the tag of an entry */
    room_for_one.tag = ACLCK_PERM_READ;
/* misuse: a kind of an ACE as the tag of an entry */
    room_for_one.tag = ACLCK_DENY;
/* misuse: a reason as the tag of an entry */
    room_for_one.tag = ACLCK_MASK;
/* misuse: the tag and the permission of an entry exchanged */
    const aclck_entry turned = {ACLCK_PERM_READ, 7, ACLCK_TAG_USER};
    use(turned.id == 7);
/* misuse: a tag that is compared with a reason */
    use(room_for_one.tag == ACLCK_MASK);
/* misuse: a loss that is compared with a right */
    use(loss.want == ACLCK_READ_DATA);
/* misuse: the flags and the mask of an ACE exchanged */
    const aclck_ace turned_ace = {ACLCK_ALLOW, ACLCK_READ_DATA, ACLCK_IDENTIFIER_GROUP, who.user};
    use(turned_ace.who.len > 0);
/* misuse: a flag as the kind of an ACE */
    ace.kind = ACLCK_FILE_INHERIT;
/* misuse: a permission of POSIX in the mask of an ACE */
    ace.mask = ACLCK_PERM_READ;
/* misuse: the kind of a decision that is compared with a status */
    use(decision.kind == ACLCK_DONE);
/* misuse: a reason that is compared with a status */
    use(fault.reason == ACLCK_REFUSED);
/* misuse: a status as a reason */
    use(aclck_reason_text(ACLCK_REFUSED, out, &needed));
/* misuse: a part that is compared with a tag */
    use(fault.part == ACLCK_TAG_USER);
/* misuse: what is certain that is compared with a status */
    aclck_possible possible;
    use(aclck_decide_unknown(acl, &object, &who, &question, &possible, &fault));
    use(possible.request == ACLCK_DONE);
