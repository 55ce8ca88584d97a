"""Translates definitions of crates/*/specs into Coq, for tests/formal.

A definition is `abbrev pub NAME : TYPE` and then clauses `NAME PATTERNS = EXPRESSION`. Its translation is one function
with one `match`. A record of facts is translated to the statement that its lists and numbers exist and its other fields
hold. Coq infers the types of the arguments from the definition of formal/Specs.v, formal/PosixSpecs.v or
formal/RemovalSpecs.v that has the same name, so the types of the specs are not read. The words are rewritten as text,
and what is not rewritten is not valid in Coq.
"""
import os
import re

ROOT = os.path.dirname(os.path.dirname(os.path.abspath(__file__)))

# Words of Rattle's library, with the same meaning.
COMMON = """From Coq Require Import NArith List String Ascii Bool Arith.
From Acl Require Import Defs.
From Acl Require Specs %s.
Import %s ListNotations.
Definition IsTrue (b : bool) := b = true.
Definition IsFalse (b : bool) := b = false.
Definition not := negb.
Definition list_any {A} := @existsb A.
Definition All {A} := @Forall A.
Definition bit_and := N.land.
Infix "==" := N.eqb (at level 70).
Definition identifier_group_alone := 0x40%%N.
"""
PRELUDES = {
    "Specs": COMMON % ("Specs", "Specs.Specs") + """
Definition bytes_eq := String.eqb.
Definition AllByRecursion {A} := @Forall A.
Definition unwrap_or {A} (o : option A) (a : A) := match o with Some x => x | None => a end.
Definition bit_or := N.lor.
Definition bit_xor := N.lxor.
Definition nat_cmp := Nat.compare.
Definition nat_lt := N.ltb.
Definition kept_at_the_end := 0x70%N.
Definition kept_on_the_way := 0x77%N.
Definition inherit_only_alone := 0x08%N.
Notation max := Nat.max.
""",
    "PosixSpecs": COMMON % ("PosixSpecs", "PosixSpecs.PosixSpecs") + """
Definition nat_cmp := N.compare.
Definition ordering_then := Specs.Specs.ordering_then.
Definition IfSome {A} := @Specs.Specs.IfSome A.
Definition Grant := Specs.Specs.Grant.
Definition codes (text : string) := text.
Definition permissions_in_order := [4; 2; 1]%N.
Fixpoint Contains (items : list N) (item : N) : Prop :=
  match items with [] => False | [one] => item = one | one :: rest => item = one \/ Contains rest item end.
""",
    "RemovalSpecs": COMMON % ("RemovalSpecs", "RemovalSpecs.RemovalSpecs") + """
Definition GrantsAtMost := Specs.Specs.GrantsAtMost.
Definition AllZip {A B} := @Forall2 A B.
"""}
SIGNS = {"∷": "::", "≡": "=", "≢": "<>", "×": "/\\", "→": "->", "↔": "<->", "⊎": "\\/", "⊤": "True", "⊥": "False",
         "≤": "<=", "List ℕ": "Name", "Bool": "bool", "slice_cmp nat_cmp": "slice_cmp",
         "insert_key principal_cmp": "insert_key", "0x67": '"g"', "0x75": '"u"', "0x6f": '"o"'}
WORDS = {"zero": "O", "suc": "S", "at": "At"}
# Words of one definition, which Coq has with another meaning.
WORDS_OF = {"is_special": {"owner_name": '"OWNER@"', "group_name": '"GROUP@"', "everyone_name": '"EVERYONE@"'},
            "kept_ace": {"a.flags": "a.any_flags", "a.mask": "a.any_mask", "a.who": "a.any_who"},
            "access_part": {"length": "List.length"}, "IsComparison": {"d.bit.bits": "d.right"},
            "IsExcess": {"d.bit.bits": "d.right"}, "named_situation": {"owner": "o", "group": "g"},
            "tag_row": {word: "row_" + word for word in ("rank", "name", "word", "qualifier", "masked")},
            **{name: {"tag).%s" % word: "tag).row_%s" % word} for name, word in {
                "IsTag": "qualifier", "is_named": "qualifier", "qualifier": "qualifier", "rank": "rank",
                "is_masked": "masked"}.items()},
            **{name: {"requester.": "requester.requester_", "object.": "object.object_"}
               for name in ("grants", "by_name")},
            "ace_of": {word + " = ": "Defs.%s = " % word for word in ("kind", "flags", "mask", "who")},
            "bridged_who": {"owner_name": '"OWNER@"%string', "group_name": '"GROUP@"%string',
                            "everyone_name": '"EVERYONE@"%string', "mask = []": "mask = EmptyString"}}
# These count with Coq's nat, and the others with N.
COUNTS = {"longest", "strange_length", "small_situation", "directory_below", "kind_rank", "principal_cmp",
          "ends_in_at"}
CONSTRUCTORS = {"owner", "group", "everyone", "here", "zero"}
BINDER = r"\(([\w ]+) : (?:[^()]|\([^()]*\))*\)"


def clauses_of(source, name):
    """Returns the clauses of a definition, each on one line, or nothing if the source has no such definition."""
    more = r"(?:  [^\n]*\n)*"
    head = rf"^(?:abbrev |unfoldable )*pub {name} :[^\n]*\n{more}"
    found = re.search(rf"{head}((?:{name} [^\n]*\n{more}(?:}}\n)?)+)", source, re.MULTILINE)
    parts = re.split(rf"^(?={name} )", found[1], flags=re.MULTILINE) if found else []
    return [" ".join(part.split()) for part in parts if part.strip()]


def names_bound(binders):
    """Returns the names of parameters, which are in brackets, each with a type."""
    return " ".join(re.findall(r"\(([\w ]+) :", binders))


def facts_of(source, name):
    """Returns the parameters of a record, and the name and the type of each of its fields, or nothing if the source has
    no such record."""
    found = re.search(rf"^pub record {name} (\(.*\)) : Type 0 where\n((?:  [^\n]*\n)+)", source, re.MULTILINE)
    if not found:
        return None
    fields = re.split(r"^  pub ", found[2], flags=re.MULTILINE)[1:]
    return names_bound(found[1]), [" ".join(field.split()).split(" : ", 1) for field in fields]


def words_of(text):
    """Returns the words of a text; what is in brackets is one word."""
    words, depth = [""], 0
    for sign in text:
        depth += (sign in "([") - (sign in ")]")
        if sign == " " and not depth:
            words.append("")
        else:
            words[-1] += sign
    return [word for word in words if word]


def expression(text):
    """Returns an expression or a pattern in Coq's words."""
    text = re.sub(rf"(?:{BINDER} )+→", lambda found: "forall %s," % names_bound(found[0]), text)
    text = re.sub(rf"{BINDER} ×", r"exists \1,", text)
    text = re.sub(r"λ ([\w ]+)\. ", r"fun \1 => ", text)
    text = re.sub(r"\blet (\w+) = ", r"let \1 := ", text)
    text = re.sub(r"\bset\.(\w+)", r"set_\1", text)
    text = re.sub(r"(\(tag_row \w+\))\.(\w+)", r"(\2 \1)", text)
    text = re.sub(r"\b([a-z]\w*)\.0\b", r"(fst \1)", text)
    text = re.sub(r"\b([a-z]\w*)\.1\b", r"(snd \1)", text)
    text = re.sub(r"\b([a-z]\w*)\.([a-z]\w*)", r"(\2 \1)", text)
    of_ace = r"{| kind := kind \1; flags := flags \1; mask := \2; who := who \1 |}"
    text = re.sub(r"record (\w+) \{ mask = (.*) \}", of_ace, text)
    whole = re.search(r"record \{ (.*?);? \}", text)
    if whole:
        text = text.replace(whole[0], "{| %s |}" % re.sub(r"(\w+) = ", r"\1 := ", whole[1]))
    for sign, coq in SIGNS.items():
        text = text.replace(sign, coq)
    return re.sub(r"\b(%s)\b" % "|".join(WORDS), lambda found: WORDS[found[0]], text)


def is_name(pattern):
    return bool(re.fullmatch(r"[a-z]\w*", pattern)) and pattern not in CONSTRUCTORS


def function(name, clauses):
    """Returns the function of the clauses. An argument with one name in all clauses is not matched."""
    rows = [(words_of(left)[1:], right) for left, right in (clause.split(" = ", 1) for clause in clauses)]
    columns = list(zip(*(patterns for patterns, _ in rows)))
    arguments = [column[0] if len({*column}) == 1 and is_name(column[0]) else "x%d" % place
                 for place, column in enumerate(columns)]
    matched = [place for place, column in enumerate(columns) if arguments[place] not in column]
    body = expression(rows[0][1])
    if matched:
        cases = ["| %s => %s" % (", ".join(expression(patterns[place]) for place in matched), expression(right))
                 for patterns, right in rows]
        body = "match %s with %s end" % (", ".join(arguments[place] for place in matched), " ".join(cases))
    is_recursive = any(re.search(rf"\b{name}\b", right) for _, right in rows)
    head = "fix %s %s :=" % (name, " ".join(arguments)) if is_recursive else "fun %s =>" % " ".join(arguments)
    return "(%s %s)" % (head if arguments else "", body) if arguments else "(%s)" % body


def statement(parameters, fields):
    """Returns the function from the parameters to what a record of facts says."""
    is_value = {field: kind == "ℕ" or kind.startswith("List ") for field, kind in fields}
    values = [field for field in is_value if is_value[field]]
    said = " /\\ ".join("(%s)" % expression(kind) for field, kind in fields if not is_value[field])
    return "(fun %s => %s%s)" % (parameters, "exists %s, " % " ".join(values) if values else "", said)


def translated(name, source):
    """Returns what Coq has for a definition or a record of facts, or None if the source has neither."""
    for word, coq in WORDS_OF.get(name, {}).items():
        source = re.sub(rf"\b{re.escape(word)}" + r"\b" * word[-1].isalnum(), coq, source)
    clauses = clauses_of(source, {"At": "at"}.get(name, name))
    if clauses:
        return function(name, [re.sub(r"^at\b", "At", clause) for clause in clauses])
    facts = facts_of(source, name)
    return facts and statement(*facts)


def theorem(module, name, paths):
    """Returns a definition of Coq and a proof that the module has the same, or None if no file has the name as a
    definition or a record of facts: it is another record, or a word of Rattle's library."""
    mine = "%s.%s.%s" % (module, module, name)
    for path in paths:
        with open(os.path.join(ROOT, "crates", path), encoding="utf-8") as file:
            made = translated(name, file.read())
        if made:
            is_count = name in COUNTS and module == "Specs"
            return ("Open Scope %s.\nDefinition antt_%s : ltac:(let T := type of %s in exact T) := %s.\n"
                    "Goal antt_%s = %s. Proof. reflexivity. Qed.\n" % (
                        "nat_scope" if is_count else "N_scope", name, mine, made, name, mine))
    return None
