use super::*;

// examples/shared_folder.xdr: bob is in `editors` and may read.
const DIRECTORY: &[u8] = include_bytes!("../../../examples/shared_folder.xdr");
const OBJECT: Object = Object { owner: b"alice", group: b"staff" };
const BOB: Requester = Requester { user: b"bob", groups: &[b"editors", b"staff"] };

fn read_and_run() -> Rights {
    Rights::READ_DATA | Rights::EXECUTE
}

#[test]
fn a_list_is_asked() {
    let rights = read_and_run();
    assert_eq!(check(DIRECTORY, OBJECT, BOB, rights, Profile::Full), Ok(true));
    assert_eq!(check(DIRECTORY, OBJECT, BOB, rights | Rights::WRITE_OWNER, Profile::Full), Ok(false));
    let all = granted(DIRECTORY, OBJECT, BOB, Rights::ALL, Profile::Full).unwrap();
    assert!(all.contains(rights) && !all.contains(Rights::WRITE_OWNER));
    assert_eq!(check_many(DIRECTORY, OBJECT, &[BOB, BOB], Rights::ALL, Profile::Full), Ok(vec![all, all]));
    assert_eq!(deciding(DIRECTORY, OBJECT, BOB, rights, Profile::Full), Err(Error::BadArgument));
    let by = deciding(DIRECTORY, OBJECT, BOB, Rights::READ_DATA, Profile::Full).unwrap().unwrap();
    assert_eq!(by.kind, AceKind::Allow);
    assert_eq!(deciding(DIRECTORY, OBJECT, BOB, Rights::WRITE_OWNER, Profile::Full), Ok(None));
    let cut = check(&DIRECTORY[..149], OBJECT, BOB, rights, Profile::Full).unwrap_err();
    assert!(matches!(cut, Error::Refused(Fault { reason: 1, offset: 149, .. })), "{cut}");
    // The owner may write, and nobody else who is in no group.
    let alice = Requester { user: b"alice", groups: &[] };
    assert_eq!(check(DIRECTORY, OBJECT, alice, Rights::WRITE_DATA, Profile::Full), Ok(true));
    let carols = Object { owner: b"carol", ..OBJECT };
    assert_eq!(check(DIRECTORY, carols, alice, Rights::WRITE_DATA, Profile::Full), Ok(false));
    let nobody = Requester { user: b"", groups: &[] };
    assert_eq!(check(DIRECTORY, OBJECT, nobody, rights, Profile::Full), Err(Error::BadArgument));
}

#[test]
fn a_list_is_asked_with_ids() {
    let list = encode(b"DENY - WRITE_DATA bob\nALLOW GROUP READ_DATA|WRITE_DATA 6\n", Profile::Full).unwrap();
    let names = [Name { name: b"bob", id: 5, is_group: false }];
    let prepared = prepare_ids(&list, &names, Profile::Full).unwrap();
    let (object, both) = (IdObject { owner: 1, group: 2 }, Rights::READ_DATA | Rights::WRITE_DATA);
    for (user, groups, allowed) in [(5, &[6][..], Rights::READ_DATA), (7, &[6, 8], both), (7, &[5], Rights::NONE)] {
        let found = decide_ids(&prepared, object, IdRequester { user, groups }, both).unwrap();
        assert_eq!(found.allowed, allowed, "{user}");
    }
    let falling = IdRequester { user: 5, groups: &[6, 5] };
    assert_eq!(decide_ids(&prepared, object, falling, both), Err(Error::BadArgument));
    let unknown = prepare_ids(&list, &[], Profile::Full).unwrap_err();
    assert!(matches!(unknown, Error::Refused(Fault { reason: 22, offset: 0, .. })), "{unknown}");
}

// RFC 8881, section 6.2.1: the first ACE that has the right and matches decides.
#[test]
fn rights_are_allowed_denied_or_undecided() {
    let text = b"ALLOW - READ_DATA bob\nDENY - READ_DATA|WRITE_DATA EVERYONE@\nALLOW GROUP WRITE_DATA staff\n";
    let list = encode(text, Profile::Full).unwrap();
    let found = decide(&list, OBJECT, BOB, Rights::WRITE_DATA | read_and_run(), Profile::Full).unwrap();
    assert_eq!(found, Decided { allowed: Rights::READ_DATA, denied: Rights::WRITE_DATA });
    let by = deciding(&list, OBJECT, BOB, Rights::WRITE_DATA, Profile::Full).unwrap();
    assert_eq!(by, Some(Decision { place: 1, kind: AceKind::Deny }));
}

#[test]
fn a_prepared_list_answers_as_the_list_does() {
    let prepared = prepare(DIRECTORY, Profile::Full).unwrap();
    let mallory = Requester { user: b"mallory", groups: &[b"editors"] };
    let wanted: Vec<Decided> =
        [BOB, mallory].map(|one| decide(DIRECTORY, OBJECT, one, Rights::ALL, Profile::Full).unwrap()).into();
    assert_eq!(decide_prepared(&prepared, OBJECT, BOB, Rights::ALL), Ok(wanted[0]));
    assert!(wanted[0].allowed.contains(Rights::WRITE_DATA) && wanted[1].denied.contains(Rights::WRITE_DATA));
    assert_eq!(decide_prepared_many(&prepared, OBJECT, &[BOB, mallory], Rights::ALL), Ok(wanted));
    assert_eq!(decide_prepared(b"no list", OBJECT, BOB, Rights::ALL), Err(Error::BadArgument));
}

#[test]
fn a_text_reads_back() {
    let text = show(DIRECTORY, Profile::Full).unwrap();
    assert_eq!(encode(&text, Profile::Full).as_deref(), Ok(DIRECTORY));
    let fault = encode(b"ALLOW - READ_DATA\n", Profile::Full).unwrap_err();
    assert!(matches!(fault, Error::Refused(Fault { reason: 16, line: 1, .. })), "{fault}");
    let wide = b"ALLOW - WRITE_RETENTION EVERYONE@\n";
    assert!(encode(wide, Profile::Full).is_ok() && encode(wide, Profile::Narrow).is_err());
}

#[test]
fn a_list_is_made_of_aces() {
    let [first, second] = [(AceKind::Deny, &b"mallory"[..]), (AceKind::Allow, b"OWNER@")]
        .map(|(kind, who)| Ace { kind, flags: 0, rights: Rights::READ_DATA, who });
    let text = show(&build(&[first, second], Profile::Full).unwrap(), Profile::Full).unwrap();
    assert_eq!(text, b"DENY - READ_DATA mallory\nALLOW - READ_DATA OWNER@\n");
    assert_eq!(build(&[], Profile::Full), Ok(vec![0; 4]));
    let fault = build(&[first, Ace { who: b"nobody@", ..second }], Profile::Full).unwrap_err();
    assert!(matches!(fault, Error::Refused(Fault { reason: 11, offset: 1, .. })), "{fault}");
}

#[test]
fn a_child_inherits_by_its_kind() {
    let list = encode(b"ALLOW FILE READ_DATA amy\nALLOW DIR WRITE_DATA bob\n", Profile::Full).unwrap();
    for (kind, text) in [(Kind::File, "ALLOW - READ_DATA amy\n"), (Kind::Directory, "ALLOW DIR WRITE_DATA bob\n")] {
        let shown = show(&child(&list, kind, Profile::Full).unwrap(), Profile::Full).unwrap();
        assert!(String::from_utf8_lossy(&shown).contains(text), "{kind:?}");
    }
    for (kind, text) in [(Kind::File, "ALLOW INHERITED READ_DATA amy\n"), (Kind::Directory, "DIR|INHERITED")] {
        let shown = show(&child_marked(&list, kind, Profile::Full).unwrap(), Profile::Full).unwrap();
        assert!(String::from_utf8_lossy(&shown).contains(text), "{kind:?}");
    }
    assert_eq!(mode(DIRECTORY, Profile::Full), Ok(0o750));
    assert_eq!(mode(&chmod(DIRECTORY, 0o640, Profile::Full).unwrap(), Profile::Full), Ok(0o640));
    assert_eq!(chmod(DIRECTORY, 0o1000, Profile::Full), Err(Error::BadArgument));
    assert!(normalize_inherit(DIRECTORY, Profile::Full).unwrap().len() > 20);
    assert!(table(DIRECTORY, Rights::WRITE_DATA, Profile::Full).unwrap().starts_with(b"0 DENY - mallory\n"));
    assert!(holders(DIRECTORY, Rights::WRITE_DATA, Profile::Full).unwrap().ends_with(b"not user mallory\n"));
}

// RFC 8881, section 6.2.1.5: a server may take some users for INTERACTIVE@, and nobody else knows whom.
#[test]
fn names_that_nobody_knows_match_or_not() {
    let list = encode(b"ALLOW - READ_DATA INTERACTIVE?\nALLOW - EXECUTE EVERYONE@\n", Profile::Full).unwrap();
    let list: Vec<u8> = list.iter().map(|byte| if *byte == b'?' { b'@' } else { *byte }).collect();
    assert!(check(&list, OBJECT, BOB, Rights::READ_DATA, Profile::Full).is_err());
    let found = decide_unknown(&list, OBJECT, BOB, read_and_run(), Profile::Full).unwrap();
    let (allowed, unknown) = (Rights::EXECUTE, Rights::READ_DATA);
    let wanted = Possible { allowed, denied: Rights::NONE, unknown, request: Request::Depends, left_out: 0 };
    assert_eq!(found, wanted);
    for (rights, request) in [(Rights::EXECUTE, Request::Always), (Rights::DELETE, Request::Never)] {
        assert_eq!(decide_unknown(&list, OBJECT, BOB, rights, Profile::Full).unwrap().request, request);
    }
}

#[test]
fn the_aces_of_a_list_are_read() {
    let found = aces(DIRECTORY, Profile::Full).unwrap();
    assert_eq!((found[0].kind, found[0].who), (AceKind::Deny, &b"mallory"[..]));
    assert_eq!(build(&found, Profile::Full).as_deref(), Ok(DIRECTORY));
    assert_eq!(aces(&[0; 4], Profile::Full), Ok(vec![]));
    assert!(aces(&DIRECTORY[..9], Profile::Full).is_err());
}

#[test]
fn a_normal_form_grants_the_same() {
    let form = normalize(DIRECTORY, Profile::Full).unwrap();
    assert_eq!(same(DIRECTORY, &form, Profile::Full), Ok(true));
    assert_eq!(same(DIRECTORY, &[0; 4], Profile::Full), Ok(false));
    assert_eq!(compare(DIRECTORY, &form, Profile::Full), Ok(None));
    let group = [b'g'; 300];
    let text = [b"ALLOW GROUP READ_DATA ", &group[..], b"\n"].concat();
    let list = encode(&text, Profile::Full).unwrap();
    assert_eq!(excess(&[0; 4], &list, Profile::Full), Ok(None));
    assert_eq!(excess(&list, &[0; 4], Profile::Full), compare(&list, &[0; 4], Profile::Full));
    assert_eq!(implies(&list, Rights::WRITE_DATA, Rights::READ_DATA, Profile::Full), Ok(None));
    let missing = implies(&list, Rights::READ_DATA, Rights::WRITE_DATA, Profile::Full).unwrap().unwrap();
    assert_eq!((missing.right, missing.first_grants), (Rights::WRITE_DATA, false));
    assert!(implies(&list, Rights::of(3), Rights::READ_DATA, Profile::Full).is_err());
    let found = compare(&list, &[0; 4], Profile::Full).unwrap().unwrap();
    assert!(found.first_grants && !found.user.is_empty());
    assert_eq!((found.right, found.groups), (Rights::READ_DATA, vec![group.to_vec()]));
}

#[test]
fn names_are_exchanged() {
    let list = encode(b"ALLOW - READ_DATA amy\nDENY - READ_DATA bob\n", Profile::Full).unwrap();
    let to_bob = [Renaming { from: b"amy", to: b"bob", is_group: false }];
    let fault = renamed(&list, &to_bob, Merging::Refused, Profile::Full).unwrap_err();
    assert!(matches!(fault, Error::Refused(Fault { reason: 32, offset: 1, .. })), "{fault}");
    let to_eve = [Renaming { from: b"amy", to: b"eve", is_group: false }];
    let rows = [(to_bob, Merging::Allowed, "ALLOW - READ_DATA bob\nDENY - READ_DATA bob\n"),
                (to_eve, Merging::Refused, "ALLOW - READ_DATA eve\nDENY - READ_DATA bob\n")];
    for (table, merging, text) in rows {
        let made = renamed(&list, &table, merging, Profile::Full).unwrap();
        assert_eq!(String::from_utf8(show(&made, Profile::Full).unwrap()).unwrap(), text);
    }
}

#[test]
fn the_owner_and_the_owning_group_are_named() {
    let list = encode(b"ALLOW - READ_DATA OWNER@\nDENY - EXECUTE GROUP@\n", Profile::Full).unwrap();
    let made = resolved(&list, &Object { owner: b"amy", group: b"staff" }, Profile::Full).unwrap();
    let text = String::from_utf8(show(&made, Profile::Full).unwrap()).unwrap();
    assert_eq!(text, "ALLOW - READ_DATA amy\nDENY GROUP EXECUTE staff\n");
    let fault = resolved(&list, &Object { owner: b"amy", group: b"GROUP@" }, Profile::Full).unwrap_err();
    assert!(matches!(fault, Error::Refused(Fault { reason: 22, offset: 1, .. })), "{fault}");
    assert_eq!(resolved(&list, &Object { owner: b"", group: b"staff" }, Profile::Full), Err(Error::BadArgument));
}

#[test]
fn a_group_stands_for_a_special_identifier() {
    // ALLOW READ_DATA NOW@, which no text spells.
    let list = b"\0\0\0\x01\0\0\0\0\0\0\0\0\0\0\0\x01\0\0\0\x04NOW@";
    let made = with_groups(list, b"?", Profile::Full).unwrap();
    assert_eq!(String::from_utf8(show(&made, Profile::Full).unwrap()).unwrap(), "ALLOW GROUP READ_DATA NOW@?\n");
    let fault = with_groups(list, b"@", Profile::Full).unwrap_err();
    assert!(matches!(fault, Error::Refused(Fault { reason: 22, offset: 0, .. })), "{fault}");
}

#[test]
fn a_list_keeps_what_a_bound_grants() {
    // RFC 8881, section 6.2.1: amy, a member of every group, gets WRITE_DATA by the first ALLOW. A user is no other user.
    let list = |text: &[u8]| encode(text, Profile::Full).unwrap();
    let given = list(b"ALLOW GROUP READ_DATA|WRITE_DATA staff\nALLOW - WRITE_DATA bob\n");
    let bound = list(b"DENY - WRITE_DATA amy\nALLOW - READ_DATA|WRITE_DATA EVERYONE@\n");
    let left = list(b"ALLOW GROUP READ_DATA staff\nALLOW - WRITE_DATA bob\n");
    assert_eq!(restricted(&given, &bound, Profile::Full), Ok(left));
    assert_eq!(restricted(&bound, &bound, Profile::Narrow), Ok(bound.clone()));
    let fault = restricted(&given, &bound[..7], Profile::Full).unwrap_err();
    assert!(matches!(fault, Error::Refused(Fault { reason: 1, offset: 4, list: 1, .. })), "{fault}");
}

#[test]
fn a_list_keeps_what_a_bound_grants_on_new_objects() {
    // RFC 8881, section 6.4.3: new files inherit the first ALLOW and the bound. The object itself has the bound alone.
    let list = |text: &[u8]| encode(text, Profile::Full).unwrap();
    let given = list(b"ALLOW FILE|INHERITONLY READ_DATA|WRITE_DATA bob\nALLOW DIR READ_DATA bob\n");
    let bound = list(b"ALLOW FILE READ_DATA EVERYONE@\n");
    let left = list(b"ALLOW FILE|INHERITONLY READ_DATA bob\nALLOW DIR - bob\n");
    assert_eq!(restricted(&given, &bound, Profile::Full), Ok(given.clone()));
    assert_eq!(restricted_everywhere(&given, &bound, Profile::Full), Ok(left));
    assert_eq!(restricted_everywhere(&given, &given, Profile::Narrow), Ok(given.clone()));
    let fault = restricted_everywhere(&given, &bound[..7], Profile::Full).unwrap_err();
    assert!(matches!(fault, Error::Refused(Fault { reason: 1, offset: 4, list: 1, .. })), "{fault}");
}

#[test]
fn a_list_has_a_value_in_each_form() {
    // The attribute dacl begins with the flags; in Samba's nfs41acl.x an ACE has type, flags, no special who, mask, id.
    let list = encode(b"ALLOW GROUP READ_DATA 20\n", Profile::Full).unwrap();
    let dacl = [&[0, 0, 0, 6], &list[..]].concat();
    let ids = b"\0\0\0\x06\0\0\0\x01\0\0\0\0\0\0\0\x40\0\0\0\0\0\0\0\x01\0\0\0\x14";
    let both = ListFlags::PROTECTED | ListFlags::DEFAULTED;
    let rows: [(ListForm, ListFlags, &[u8]); 6] = [
        (ListForm::NfsToolsFile, ListFlags::NONE, b"A:g:20:r\n"),
        (ListForm::NfsToolsDirectory, ListFlags::NONE, b"A:g:20:r\n"),
        (ListForm::NfsAcl41, both, &dacl),
        (ListForm::NfsAcl41Ids, both, ids),
        (ListForm::NfsText(TextStyle::COMMAS), ListFlags::NONE, b"group:20:r::allow:20"),
        (ListForm::NfsTextIds(TextStyle::FULL), ListFlags::NONE, b"group:20:r-------------:-------:allow:20\n"),
    ];
    for (form, flags, value) in rows {
        assert_eq!(read_form(value, form), Ok((list.clone(), flags)));
        assert_eq!(write_form(&list, form, flags).as_deref(), Ok(value));
    }
    assert!(both.contains(ListFlags::PROTECTED) && !both.contains(ListFlags::AUTO_INHERIT));
    let fault = write_form(&list, ListForm::NfsToolsFile, both).unwrap_err();
    assert!(matches!(fault, Error::Refused(Fault { reason: 45, offset: 0, .. })), "{fault}");
    let fault = read_form(b"A:g:20:r\nA:f:20:r\n", ListForm::NfsToolsFile).unwrap_err();
    assert!(matches!(fault, Error::Refused(Fault { reason: 35, offset: 11, .. })), "{fault}");
}

// RFC 8881, section 6.2.2: flags and one AUDIT ACE of `EVE`.
#[test]
fn an_audit_ace_is_left_out() {
    let value = b"\0\0\0\x04\0\0\0\x01\0\0\0\x02\0\0\0\x10\0\0\0\x02\0\0\0\x03EVE\0";
    let left = vec![LeftOut { place: 0, offset: 8, reason: 3 }];
    assert_eq!(read_part(value, ListForm::NfsAcl41), Ok((vec![0; 4], ListFlags::DEFAULTED, left)));
}

#[test]
fn a_right_that_an_earlier_ace_has_is_not_needed() {
    let list = encode(b"ALLOW - READ_DATA amy\nALLOW - READ_DATA|EXECUTE amy\n", Profile::Full).unwrap();
    assert_eq!(needed(&list, Profile::Full), Ok(vec![Rights::READ_DATA, Rights::EXECUTE]));
    assert_eq!(needed(&[0; 4], Profile::Full), Ok(vec![]));
    assert!(matches!(needed(&list[..9], Profile::Full), Err(Error::Refused(Fault { reason: 1, .. }))));
}

#[test]
fn posix_texts_are_read_with_names() {
    let names = [Name { name: b"bob", id: 7, is_group: false }];
    let text = PosixText { text: b"user::rw-,user:bob:r--,group::---,mask::r--,other::---", names: &names };
    for (user, granted) in [(7, true), (8, false)] {
        let asked = PosixQuestion { owner: 1, group: 2, user, groups: &[3], want: 4 };
        assert_eq!(posix_check(text, asked), Ok(granted));
    }
    let shown = posix_show(text, Form::Short).unwrap();
    assert_eq!(shown, b"u::rw-,u:7:r--,g::---,m::r--,o::---\n");
    let fault = posix_show(PosixText { names: &[], ..text }, Form::Short).unwrap_err();
    assert!(matches!(fault, Error::Refused(Fault { reason: 22, line: 1, .. })), "{fault}");
    assert_eq!(posix_show(PosixText { names: &[names[0], names[0]], ..text }, Form::Short), Err(Error::BadArgument));
    assert!(posix_bridge(text).unwrap().len() > 4);
    // acl(5): chmod sets the mask where there is one; a new file without default entries has the mode less the umask.
    let rows = [(posix_chmod(text, 0o640), "mask::r--"), (posix_calc_mask(text), "mask::r--"),
                (posix_create(text, 0o666, 0o027, Kind::File), "user::rw-\ngroup::r--\nother::---\n")];
    for (made, part) in rows {
        assert!(String::from_utf8(made.unwrap()).unwrap().contains(part), "{part}");
    }
}

// acl(5): the mask limits named users and all groups; each new file gets what its mode leaves.
#[test]
fn posix_entries_are_asked_and_changed() {
    let [user, bob] = [Entry { tag: Tag::UserObj, perm: 6 }, Entry { tag: Tag::User(5), perm: 6 }];
    let [group, other] = [Entry { tag: Tag::GroupObj, perm: 4 }, Entry { tag: Tag::Other, perm: 0 }];
    let mask = |perm| Entry { tag: Tag::Mask, perm };
    let fault = entries_sorted(&[bob, user, group, other], MissingMask::Refused).unwrap_err();
    assert!(matches!(fault, Error::Refused(Fault { reason: 27, tag: 5, .. })), "{fault}");
    let list = entries_sorted(&[bob, user, group, other], MissingMask::Added).unwrap();
    assert_eq!(list, [user, bob, group, mask(6), other]);
    let asked = |user, want| PosixQuestion { owner: 1, group: 2, user, groups: &[3], want };
    assert_eq!((entries_check(&list, asked(5, 2)), entries_mode(&list)), (Ok(true), Ok(0o660)));
    let limited = entries_chmod(&list, 0o640).unwrap();
    assert_eq!(limited, [user, bob, group, mask(4), other]);
    let by_bob = PosixDecision { granted: false, place: Some(1), masked: true };
    assert_eq!(entries_check(&limited, asked(5, 2)), Ok(false));
    assert_eq!(entries_deciding(&limited, asked(5, 2)), Ok(by_bob));
    let writes = PosixDifference { owner: 0, group: 0, user: 5, groups: vec![], want: 2 };
    assert_eq!((entries_excess(&list, &limited), entries_excess(&limited, &list)), (Ok(Some(writes)), Ok(None)));
    assert_eq!(entries_calc_mask(&limited), Ok(list.clone()));
    assert_eq!(entries_create(&list, 0o640, 0, Kind::File), Ok(limited.clone()));
    assert_eq!(entries_from_attribute(&entries_to_attribute(&list).unwrap()), Ok(list.clone()));
    assert_eq!(entries_from_attribute(&[2, 0, 0, 0]), Ok(vec![]));
    assert!(matches!(entries_from_attribute(&[2, 0, 0]), Err(Error::Refused(Fault { reason: 29, .. }))));
    let star = b"user::rw-,group::r--,other::---,user:bob:rw-:5,mask::rw-";
    let value = |text| PosixText { text, names: &[] };
    assert_eq!(entries_from_form(value(star), PosixForm::Text).map(|found| found[1]), Ok(bob));
    assert_eq!(entries_from_form(value(star), PosixForm::DefaultOfText), Ok(vec![]));
    let names = [Name { name: b"bob", id: 5, is_group: false }];
    assert_eq!(entries_to_text(&list, &names, Tar::Star), Ok(star.to_vec()));
    let gnu = b"user::rw-\nuser:bob:rw-\ngroup::r--\nmask::rw-\nother::---\n";
    assert_eq!(entries_to_text(&list, &names, Tar::Gnu), Ok(gnu.to_vec()));
    let fault = entries_from_form(value(b"user::rw-"), PosixForm::DefaultText);
    assert!(matches!(fault, Err(Error::Refused(Fault { reason: 27, offset: 9, .. }))));
    assert!(show(&entries_bridge(&list).unwrap(), Profile::Full).unwrap().starts_with(b"ALLOW - READ_DATA"));
}

// RFC 8881, section 6.2.1, and acl(5): bob reads, and so does the owner; who is in group 6 writes, but for an owner.
#[test]
fn a_list_has_a_posix_acl() {
    let bobs = encode(b"ALLOW - READ_DATA OWNER@\nALLOW - READ_DATA bob\n", Profile::Full).unwrap();
    let writers = encode(b"ALLOW GROUP WRITE_DATA|APPEND_DATA 6\n", Profile::Full).unwrap();
    let names = [Name { name: b"bob", id: 5, is_group: false }];
    let entry = |tag, perm| Entry { tag, perm };
    let [group, other] = [entry(Tag::GroupObj, 0), entry(Tag::Other, 0)];
    let entries = vec![entry(Tag::UserObj, 4), entry(Tag::User(5), 4), group, entry(Tag::Mask, 4), other];
    assert_eq!(to_posix(&bobs, &names, 1), Ok(ToPosix { entries, lost: None }));
    let found = to_posix(&writers, &names, 1).unwrap();
    let entries = vec![entry(Tag::UserObj, 0), group, entry(Tag::Group(6), 2), entry(Tag::Mask, 2), other];
    assert_eq!(found.entries, entries);
    let lost = found.lost.unwrap();
    assert!(lost.want == 2 && lost.owner == lost.user && lost.groups.contains(&6), "{lost:?}");
    let unknown = to_posix(&bobs, &[], 1);
    assert!(matches!(unknown, Err(Error::Refused(Fault { reason: 22, offset: 1, .. }))), "{unknown:?}");
    assert!(matches!(to_posix(&bobs, &names, 0), Err(Error::Refused(Fault { reason: 28, .. }))));
}

#[test]
fn names_of_rights_are_read_and_written() {
    assert_eq!("READ_DATA|EXECUTE".parse(), Ok(read_and_run()));
    assert!("READ".parse::<Rights>().is_err());
    assert_eq!(read_and_run().to_string(), "READ_DATA|EXECUTE");
    assert_eq!((Rights::from_bits(0x800), Rights::from_bits(0x21)), (None, Some(read_and_run())));
    assert_eq!(Rights::ALL.to_string().split('|').count(), 16);
    assert_eq!(reason_text(1).as_deref(), Some("Truncated"));
    let (major, minor, patch) = version();
    assert_eq!(format!("{major}.{minor}.{patch}"), env!("CARGO_PKG_VERSION"));
}
