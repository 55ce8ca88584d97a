(* The words of a command line (docs/reference/formats.md, "The program"), read by hand. Nothing here is
   proved. *)

exception Usage

let unless_usage = function Some value -> value | None -> raise Usage
let has_hyphen word = String.length word > 0 && word.[0] = '-' && word <> "-"

(* The options of a command: those that take a value, and those that do not. *)
type table = { valued : string list; plain : string list; takes_words : bool }

(* What a command line gives: the value of each option, and the words that are no options. *)
type given = { values : (string * string) list; words : string list }

let add_value given option value =
  if List.mem_assoc option given.values then raise Usage;
  { given with values = (option, value) :: given.values }

(* The option of a word that begins with a hyphen, and its value if one follows a '='. *)
let split word =
  match String.index_opt word '=' with
  | None -> (word, None)
  | Some at -> (String.sub word 0 at, Some (String.sub word (at + 1) (String.length word - at - 1)))

let rec read table given = function
  | [] -> { given with words = List.rev given.words }
  | "--" :: rest -> read table { given with words = List.rev_append rest given.words } []
  | word :: rest when not (has_hyphen word) ->
      read table { given with words = word :: given.words } rest
  | word :: rest -> (
      let option, value = split word in
      match (value, rest) with
      | None, _ when List.mem option table.plain -> read table (add_value given option "") rest
      | Some value, _ when List.mem option table.valued ->
          read table (add_value given option value) rest
      | None, value :: rest when List.mem option table.valued && not (has_hyphen value) ->
          read table (add_value given option value) rest
      | _ -> raise Usage)

let given table words =
  let given = read table { values = []; words = [] } words in
  if given.words <> [] && not table.takes_words then raise Usage;
  given

let value given option = unless_usage (List.assoc_opt option given.values)
let is_set given option = List.mem_assoc option given.values
let name word = if word = "" then raise Usage else word

let profile given =
  match List.assoc_opt "--profile" given.values with
  | None | Some "full" -> Xdr.full
  | Some "narrow" -> Xdr.narrow
  | Some _ -> raise Usage

(* ---- rights (RFC 8881, section 6.2.1.3.1) ---- *)

(* tools/tables writes both tables: a name, and the number of its bit *)
let right_names =
  [ ("READ_DATA", 0); ("WRITE_DATA", 1); ("APPEND_DATA", 2); ("READ_NAMED_ATTRS", 3);
    ("WRITE_NAMED_ATTRS", 4); ("EXECUTE", 5); ("DELETE_CHILD", 6); ("READ_ATTRIBUTES", 7);
    ("WRITE_ATTRIBUTES", 8); ("WRITE_RETENTION", 9); ("WRITE_RETENTION_HOLD", 10); ("DELETE", 16);
    ("READ_ACL", 17); ("WRITE_ACL", 18); ("WRITE_OWNER", 19); ("SYNCHRONIZE", 20) ]

let names_of_directories =
  [ ("LIST_DIRECTORY", 0); ("ADD_FILE", 1); ("ADD_SUBDIRECTORY", 2) ]
let right_name bit = fst (List.find (fun (_, b) -> b = bit) right_names)

let mask (profile : Xdr.profile) text =
  let right name =
    let bit = 1 lsl unless_usage (List.assoc_opt name (right_names @ names_of_directories)) in
    if bit land profile.rights = 0 then raise Usage;
    bit
  in
  if text = "none" then 0
  else List.fold_left (fun set name -> set lor right name) 0 (String.split_on_char '|' text)

let mask_text mask =
  let names = List.filter (fun (_, bit) -> mask land (1 lsl bit) <> 0) right_names in
  if names = [] then "-" else String.concat "|" (List.map fst names)
