(* Lists of ACEs as XDR (docs/reference/formats.md, "XDR"), read and written by hand. What is read goes to the
   types of the extracted program, acl.ml. Nothing here is proved. *)

exception Refused of string * int (* the reason, and the offset of the field *)

type profile = { rights : int; flags : int }

let full = { rights = 0x1f07ff; flags = 0xff }
let narrow = { rights = 0x1f01ff; flags = 0x7f }
let most = 65536 (* ACEs, and bits of all masks together *)

(* ---- numbers and names, from and to the extracted types ---- *)

let rec positive k =
  if k = 1 then Acl.XH
  else if k land 1 = 1 then Acl.XI (positive (k lsr 1))
  else Acl.XO (positive (k lsr 1))

let number k = if k = 0 then Acl.N0 else Acl.Npos (positive k)

let rec int_of_positive = function
  | Acl.XH -> 1
  | Acl.XO p -> 2 * int_of_positive p
  | Acl.XI p -> (2 * int_of_positive p) + 1

let int_of_number = function Acl.N0 -> 0 | Acl.Npos p -> int_of_positive p

let byte c =
  let bit k = (Char.code c lsr k) land 1 = 1 in
  Acl.Ascii (bit 0, bit 1, bit 2, bit 3, bit 4, bit 5, bit 6, bit 7)

let char_of_byte (Acl.Ascii (b0, b1, b2, b3, b4, b5, b6, b7)) =
  let bits = [ b0; b1; b2; b3; b4; b5; b6; b7 ] in
  Char.chr (List.fold_right (fun b k -> (2 * k) + Bool.to_int b) bits 0)

let name text = String.fold_right (fun c rest -> Acl.String (byte c, rest)) text Acl.EmptyString

let text_of_name name =
  let text = Buffer.create 16 in
  let rec add = function
    | Acl.EmptyString -> Buffer.contents text
    | Acl.String (b, rest) -> Buffer.add_char text (char_of_byte b); add rest
  in
  add name

(* ---- reading ---- *)

type reader = { input : string; mutable place : int }

(* The next n bytes, and where they begin. *)
let take reader n =
  let at = reader.place in
  if n > String.length reader.input - at then raise (Refused ("Truncated", at));
  reader.place <- at + n;
  (String.sub reader.input at n, at)

let word reader =
  let bytes, at = take reader 4 in
  (Int32.to_int (String.get_int32_be bytes 0) land 0xffffffff, at)

let refuse_if wrong reason at = if wrong then raise (Refused (reason, at))

let rec ones k = if k = 0 then 0 else (k land 1) + ones (k lsr 1)

(* Whether the bytes are UTF-8 (RFC 3629, section 4). *)
let is_utf8 text =
  let n = String.length text in
  let at i = Char.code text.[i] in
  let within i low high = i < n && at i >= low && at i <= high in
  let rec from i =
    i = n
    ||
    let b = at i in
    let tail k = within (i + k) 0x80 0xbf in
    if b < 0x80 then from (i + 1)
    else if b >= 0xc2 && b < 0xe0 then tail 1 && from (i + 2)
    else if b >= 0xe0 && b < 0xf0 then
      within (i + 1) (if b = 0xe0 then 0xa0 else 0x80) (if b = 0xed then 0x9f else 0xbf)
      && tail 2 && from (i + 3)
    else if b >= 0xf0 && b < 0xf5 then
      within (i + 1) (if b = 0xf0 then 0x90 else 0x80) (if b = 0xf4 then 0x8f else 0xbf)
      && tail 2 && tail 3 && from (i + 4)
    else false
  in
  from 0

let is_control c = Char.code c < 0x20 || Char.code c = 0x7f
let is_special who = List.mem who [ "OWNER@"; "GROUP@"; "EVERYONE@" ]

let read_who is_any reader =
  let length, at = word reader in
  refuse_if (length = 0 || length > 1024) "WhoLength" at;
  let who, at = take reader length in
  refuse_if (not (is_utf8 who)) "WhoUtf8" at;
  refuse_if (String.exists is_control who) "WhoControl" at;
  refuse_if ((not is_any) && who.[length - 1] = '@' && not (is_special who)) "SpecialWho" at;
  let padding, at = take reader (-length land 3) in
  refuse_if (String.exists (fun c -> c <> '\000') padding) "Padding" at;
  who

(* The next ACE, where the masks before it have so many bits, and how many they have with its own.
   With is_any, an ACE may have each type and each special who, and if it is an AUDIT or an ALARM,
   there is none. *)
let read_ace is_any profile reader weight =
  let kind, at = word reader in
  refuse_if ((not is_any) && (kind = 2 || kind = 3)) "AuditOrAlarm" at;
  refuse_if (kind > 3) "AceType" at;
  let flags, at = word reader in
  refuse_if (flags land lnot profile.flags <> 0) "FlagBits" at;
  let mask, at = word reader in
  refuse_if (mask land lnot profile.rights <> 0) "MaskBits" at;
  let weight = weight + ones mask in
  refuse_if (weight > most) "TooHeavy" at;
  let who = read_who is_any reader in
  let ace kind = { Acl.kind0 = kind; flags = number flags; mask = number mask; who = name who } in
  let read =
    match kind with 0 -> Some (ace Acl.Allow) | 1 -> Some (ace Acl.Deny) | _ -> None
  in
  (read, weight)

let read_aces is_any profile reader =
  let count, at = word reader in
  refuse_if (count > most) "TooManyAces" at;
  let rec from aces weight left =
    if left = 0 then List.rev aces
    else
      let ace, weight = read_ace is_any profile reader weight in
      from (ace :: aces) weight (left - 1)
  in
  from [] 0 count

let read_list profile reader = List.filter_map Fun.id (read_aces false profile reader)

(* What access reads of a list: the ALLOW and DENY ACEs, and the number of the others. *)
let read_access_part profile reader =
  let aces = read_aces true profile reader in
  let part = List.filter_map Fun.id aces in
  (part, List.length aces - List.length part)

let read_end reader =
  refuse_if (reader.place < String.length reader.input) "TrailingBytes" reader.place

(* ---- writing ---- *)

let add_word out k = Buffer.add_int32_be out (Int32.of_int k)

let add_ace out (ace : Acl.ace) =
  let who = text_of_name ace.who in
  add_word out (match ace.kind0 with Acl.Allow -> 0 | Acl.Deny -> 1);
  add_word out (int_of_number ace.flags);
  add_word out (int_of_number ace.mask);
  add_word out (String.length who);
  Buffer.add_string out who;
  Buffer.add_string out (String.make (-String.length who land 3) '\000')

let add_list out aces =
  add_word out (List.length aces);
  List.iter (add_ace out) aces
