(* The commands normalize, compare, child and check-nfs of aclck, over the extracted program acl.ml:
   the same words, the same input, the same answer. The commands excess, resolved, decide-unknown,
   to-posix and restricted are calls of libaclck, and no commands of aclck. The library has no meet
   and no tidy. *)

let of_a_profile = { Words.valued = [ "--profile" ]; plain = []; takes_words = false }

type answer = { status : int; text : string }

let written lists =
  let out = Buffer.create 4096 in
  List.iter (Xdr.add_list out) lists;
  { status = 0; text = Buffer.contents out }

let whole_list profile reader =
  let list = Xdr.read_list profile reader in
  Xdr.read_end reader;
  list

let normalize words =
  let given = Words.given { of_a_profile with plain = [ "--inherit" ] } words in
  let profile = Words.profile given in
  fun reader ->
    let list = whole_list profile reader in
    written
      (if Words.is_set given "--inherit" then Acl.five_normal_forms list
      else [ Acl.normal_form list ])

let child words =
  let given = Words.given { of_a_profile with valued = [ "--profile"; "--kind" ] } words in
  let kind =
    match Words.value given "--kind" with
    | "file" -> Acl.File
    | "dir" -> Acl.Directory
    | _ -> raise Words.Usage
  in
  let profile = Words.profile given in
  fun reader -> written [ Acl.children kind (whole_list profile reader) ]

let resolved words =
  let valued = [ "--owner"; "--group"; "--profile" ] in
  let given = Words.given { of_a_profile with valued } words in
  let named option =
    let name = Words.name (Words.value given option) in
    if Xdr.is_special name then raise Words.Usage;
    Xdr.name name
  in
  let owner = named "--owner" and group = named "--group" in
  let profile = Words.profile given in
  fun reader -> written [ Acl.resolve owner group (whole_list profile reader) ]

let outcome granted = if granted then "granted" else "denied"

(* The profile, the situation and the rights that a command line asks about. *)
let question words =
  let valued = [ "--owner"; "--group"; "--user"; "--mask"; "--profile" ] in
  let given = Words.given { of_a_profile with valued; takes_words = true } words in
  let named option = Xdr.name (Words.name (Words.value given option)) in
  let profile = Words.profile given in
  let request = Xdr.number (Words.mask profile (Words.value given "--mask")) in
  let situation =
    { Acl.owner_name = named "--owner"; owning_group = named "--group"; user_name = named "--user";
      groups = List.map (fun word -> Xdr.name (Words.name word)) given.words }
  in
  (profile, situation, request)

let check_nfs words =
  let profile, situation, request = question words in
  fun reader ->
    let granted = Acl.grants (whole_list profile reader) situation request in
    { status = (if granted then 0 else 1); text = outcome granted ^ "\n" }

let decide_unknown words =
  let profile, situation, request = question words in
  fun reader ->
    let list, left_out = Xdr.read_access_part profile reader in
    Xdr.read_end reader;
    let line (word, rights) =
      let set = Xdr.int_of_number (rights situation list request) in
      word ^ " " ^ Words.mask_text set ^ "\n"
    in
    let rights_with verdict situation list request =
      Acl.rights_with situation list request verdict
    in
    let sets =
      [ ("allowed", rights_with Acl.Allowed); ("denied", Acl.rights_denied);
        ("undecided", Acl.rights_undecided); ("unknown", rights_with Acl.Unsure) ]
    in
    let answer =
      match Acl.request_answer situation list request with
      | Acl.Allowed -> "always"
      | Acl.Denied -> "never"
      | Acl.Unsure -> "depends"
    in
    let lines = String.concat "" (List.map line sets) in
    { status = 0; text = Printf.sprintf "%srequest %s\nleft out %d\n" lines answer left_out }

let difference (s : Acl.situation) bit first =
  let line word name = word ^ " " ^ Xdr.text_of_name name in
  [ "differ"; line "owner" s.owner_name; line "group" s.owning_group; line "user" s.user_name ]
  @ List.map (line "member") s.groups
  @ [ "mask " ^ Words.right_name (Xdr.int_of_number bit); "first " ^ outcome first;
      "second " ^ outcome (not first) ]

(* The difference of two lists that a search finds, or the word for none. *)
let found_by search none words =
  let profile = Words.profile (Words.given of_a_profile words) in
  fun reader ->
    let list = Xdr.read_list profile reader in
    let other = whole_list profile reader in
    match search list other with
    | None -> { status = 0; text = none ^ "\n" }
    | Some ((situation, bit), first) ->
        let lines = difference situation bit first in
        { status = 1; text = String.concat "\n" lines ^ "\n" }

let compare = found_by Acl.first_difference "same"

let excess =
  let first_excess list other =
    Option.map (fun found -> (found, true)) (Acl.first_excess list other)
  in
  found_by first_excess "none"

let letters permissions =
  let letter (permission, one) = if permissions permission then one else "-" in
  String.concat "" (List.map letter [ (Acl.Read, "r"); (Acl.Write, "w"); (Acl.Execute, "x") ])

(* The entries of users or of groups, in the order of their ids. *)
let named_entries word entries =
  let named (name, permissions) = (Xdr.text_of_name name, letters permissions) in
  let by_id (name, _) (other, _) =
    Stdlib.compare (String.length name, name) (String.length other, other)
  in
  let line (name, permissions) = Printf.sprintf "%s:%s:%s\n" word name permissions in
  String.concat "" (List.map line (List.sort by_id (List.map named entries)))

(* The POSIX ACL of a list, of which all names are ids. *)
let to_posix words =
  let profile = Words.profile (Words.given of_a_profile words) in
  fun reader ->
    let acl = Acl.rule (whole_list profile reader) Acl.usual_image in
    let line word permissions = Printf.sprintf "%s::%s\n" word (letters permissions) in
    let mask = Option.fold ~none:"" ~some:(line "mask") acl.Acl.mask_entry in
    let users = line "user" acl.user_obj ^ named_entries "user" acl.user_entries in
    let groups = line "group" acl.group_obj ^ named_entries "group" acl.group_entries in
    { status = 0; text = users ^ groups ^ mask ^ line "other" acl.other }

(* The rights of one list are taken out that the other one does not grant. *)
let restricted words =
  let profile = Words.profile (Words.given of_a_profile words) in
  fun reader ->
    let list = Xdr.read_list profile reader in
    written [ Acl.restricted list (whole_list profile reader) ]

(* The merge of two lists. The status is 0 if it is the greatest list that grants at most both. *)
let meet words =
  let profile = Words.profile (Words.given of_a_profile words) in
  fun reader ->
    let list = Xdr.read_list profile reader in
    let other = whole_list profile reader in
    { (written [ Acl.meet list other ]) with status = Bool.to_int (not (Acl.orderly list other)) }

let tidy words =
  let given = Words.given { of_a_profile with plain = [ "--inherit" ] } words in
  let profile = Words.profile given in
  let tidied = if Words.is_set given "--inherit" then Acl.tidy_all else Acl.tidy in
  fun reader -> written [ tidied (whole_list profile reader) ]

let command = function
  | "normalize" :: words -> normalize words
  | "child" :: words -> child words
  | "check-nfs" :: words -> check_nfs words
  | "compare" :: words -> compare words
  | "excess" :: words -> excess words
  | "resolved" :: words -> resolved words
  | "decide-unknown" :: words -> decide_unknown words
  | "to-posix" :: words -> to_posix words
  | "restricted" :: words -> restricted words
  | "meet" :: words -> meet words
  | "tidy" :: words -> tidy words
  | _ -> raise Words.Usage

let read_all () =
  let input = Buffer.create 4096 in
  (try while true do Buffer.add_channel input stdin 1 done with End_of_file -> ());
  Buffer.contents input

let () =
  set_binary_mode_in stdin true;
  set_binary_mode_out stdout true;
  match
    let run = command (List.tl (Array.to_list Sys.argv)) in
    run { Xdr.input = read_all (); place = 0 }
  with
  | { status; text } -> print_string text; exit status
  | exception Xdr.Refused (reason, at) -> Printf.eprintf "aclck: %s at byte %d\n" reason at; exit 2
  | exception Words.Usage -> prerr_endline "aclck: usage"; exit 3
